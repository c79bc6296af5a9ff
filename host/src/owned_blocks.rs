//! Blocks with memory of their own.

use crate::blocks::{self, Block, LONGEST_BUFFER, Texts};
use crate::errors::Error;
use crate::items::{Item, Told};
use crate::source::Source;
use crate::texts::Text;
use std::fmt;

/// As [`read_block`](crate::read_block), with memory of its own for answers and written texts, so that no item is refused by [`Error::NoRoom`] (9).
///
/// It asks without a buffer first, which is all that rows of plain literals need; where texts are to be written, it asks again with a buffer that just holds them. That is never longer than the
/// items' texts together, less two bytes for each that has as many: who lends such a buffer to [`read_block`](crate::read_block) asks once.
///
/// ```
/// use valdrabus::{Item, Kind, Literal, Text, to_block};
///
/// let list = "'Aspirin'\n'Bob''s balm'\n'50' ' ml'";
/// let items = [0..9, 10..23, 24..34].map(|span| Item::from(Literal::new(Kind::String, span)));
///
/// let block = to_block(&items, list)?;
/// let names: Vec<Text> = block.iter().collect::<Result<_, _>>()?;
/// assert_eq!(names, ["Aspirin", "Bob's balm", "50 ml"]);
/// assert!(names[0].is_borrowed() && !names[1].is_borrowed());
/// # Ok::<(), valdrabus::Error>(())
/// ```
///
/// # Errors
///
/// [`Error::BadBlock`] (15), for the whole call, if the written texts need more than [`LONGEST_BUFFER`] bytes together. An item's own refusal stands in the block:
/// [`Error::WrongKind`] (1), [`Error::MissingSource`] (2), [`Error::InvalidSourceRange`] (3), [`Error::InvalidString`] (6) with its [place](Error::place).
pub fn to_block<'s>(items: &[Item], source: &'s str) -> Result<BlockBuf<'s>, Error> {
    owned(items, source)
}

/// [`to_block`] over bytes, as of a dump that may not be UTF-8 throughout.
///
/// ```
/// use valdrabus::{Item, Kind, Literal, Text, to_block_bytes};
///
/// let items = [0..6, 8..15].map(|span| Item::from(Literal::new(Kind::String, span)));
/// let block = to_block_bytes(&items, b"'caf\xE9', 'it''s'")?;
/// let mut texts = block.iter();
/// assert_eq!(texts.next().unwrap().unwrap_err().number(), 4);
/// assert!(matches!(texts.next(), Some(Ok(Text::Written(b"it's")))));
/// # Ok::<(), valdrabus::Error>(())
/// ```
///
/// # Errors
///
/// As [`to_block`]; an item can be refused by [`Error::NotUtf8`] (4) as well.
pub fn to_block_bytes<'s>(items: &[Item], source: &'s [u8]) -> Result<BlockBuf<'s, [u8]>, Error> {
    owned(items, source)
}

fn owned<'s, T: Source + ?Sized>(items: &[Item], source: &'s T) -> Result<BlockBuf<'s, T>, Error> {
    let answers = vec![Told::default(); items.len()];
    let mut block = BlockBuf { items: items.to_vec(), source, answers, out: Vec::new() };
    block.read()?;
    let needed = buffer_len(Told::needed(&block.answers))?;
    if needed > 0 {
        block.out = vec![0; needed];
        block.read()?;
    }
    Ok(block)
}

/// The length of a buffer for so many bytes. Over the limit the call would refuse it by the same number, but such a buffer may be too long to be made.
fn buffer_len(needed: u64) -> Result<usize, Error> {
    usize::try_from(needed).ok().filter(|len| *len <= LONGEST_BUFFER).ok_or(Error::BadBlock)
}

/// A block that owns its answers and its buffer: [`to_block`], [`to_block_bytes`]. It keeps a copy of the items too, so that it borrows from the source alone.
pub struct BlockBuf<'s, T: ?Sized = str> {
    items: Vec<Item>,
    source: &'s T,
    answers: Vec<Told>,
    out: Vec<u8>,
}

impl<'s, T: Source + ?Sized> BlockBuf<'s, T> {
    /// Asks about all items with the buffer as long as it is.
    fn read(&mut self) -> Result<Block<'s, '_, T>, Error> {
        blocks::read(&self.items, self.source, &mut self.answers, &mut self.out)
    }

    /// The same as a block over lent memory.
    ///
    /// ```
    /// use valdrabus::{Kind, Literal, to_block};
    ///
    /// let block = to_block(&[Literal::new(Kind::String, 0..7).into()], "'it''s'")?;
    /// assert_eq!(block.as_block().used(), 4);
    /// # Ok::<(), valdrabus::Error>(())
    /// ```
    #[must_use]
    pub fn as_block(&self) -> Block<'s, '_, T> {
        Block { items: &self.items, source: self.source, answers: &self.answers, out: &self.out }
    }

    /// How many items there are, refused ones among them.
    #[must_use]
    pub fn len(&self) -> usize {
        self.items.len()
    }

    /// Whether there is no item.
    #[must_use]
    pub fn is_empty(&self) -> bool {
        self.items.is_empty()
    }

    /// The answer of the item at a place, counted from 0; none past the items. The refusals are those that [`to_block`] and [`to_block_bytes`] name.
    ///
    /// ```
    /// use valdrabus::{Item, Kind, Literal, Text, to_block};
    ///
    /// let items = [0..7, 7..9].map(|span| Item::from(Literal::new(Kind::String, span)));
    /// let block = to_block(&items, "'it''s''x")?;
    /// assert!(matches!(block.get(0), Some(Ok(Text::Written("it's")))));
    /// assert_eq!(block.get(1).unwrap().unwrap_err().number(), 6);
    /// assert_eq!(block.get(2), None);
    /// # Ok::<(), valdrabus::Error>(())
    /// ```
    #[must_use]
    pub fn get(&self, at: usize) -> Option<Result<Text<'s, '_, T>, Error>> {
        self.as_block().get(at)
    }

    /// All answers, in the order of the items.
    #[must_use]
    pub fn iter(&self) -> Texts<'s, '_, T> {
        self.as_block().iter()
    }
}

impl<'s, 'b, T: Source + ?Sized> IntoIterator for &'b BlockBuf<'s, T> {
    type Item = <Block<'s, 'b, T> as IntoIterator>::Item;
    type IntoIter = Texts<'s, 'b, T>;

    fn into_iter(self) -> Texts<'s, 'b, T> {
        self.iter()
    }
}

/// Shows the answers.
impl<T: Source + ?Sized + fmt::Debug> fmt::Debug for BlockBuf<'_, T> {
    fn fmt(&self, f: &mut fmt::Formatter<'_>) -> fmt::Result {
        self.as_block().fmt(f)
    }
}

#[cfg(test)]
mod tests {
    use super::*;

    #[test]
    fn buffers_over_the_limit_are_not_made() {
        let limit = LONGEST_BUFFER as u64;
        assert_eq!([0, 1, limit].map(buffer_len), [Ok(0), Ok(1), Ok(LONGEST_BUFFER)]);
        assert_eq!([limit + 1, 2 * limit, u64::MAX].map(buffer_len), [Err(Error::BadBlock); 3]);
    }
}
