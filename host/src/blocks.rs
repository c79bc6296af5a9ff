//! Many string literals of one source in one call, into what the caller lends.

use crate::calls;
use crate::errors::Error;
use crate::items::{Item, Told};
use crate::source::Source;
use crate::texts::Text;
use std::fmt;
use std::iter::FusedIterator;
use std::ops::Range;

/// The longest buffer that a block call takes, in bytes.
pub const LONGEST_BUFFER: usize = 4_294_967_295;

/// Reads many string literals of one source in one call, for a table that shows hundreds of them at once. It allocates nothing.
///
/// Each item gets the answer of [`Literal::as_str_in`](crate::Literal::as_str_in) with the room that those before it left in the buffer. Written texts stand there one behind the other. A
/// borrowed or refused item takes no room, and no refusal ends the block: behind one that has no room, a shorter one may still be written. Answers past the items stay as they were lent.
///
/// A buffer as long as the items' spans together, up to [`LONGEST_BUFFER`], always has room, and two bytes less for each item that has as many suffice: no value is longer than its text less two
/// bytes, whatever the spelling.
///
/// ```
/// use valdrabus::{Error, Item, Kind, Literal, Settings, Text, Told, read_block};
///
/// let row = r"('Aspirin', 'Bob\'s balm', '50' ' ml', 12)";
/// let item = |span: std::ops::Range<u32>| Item::new(Literal::new(Kind::String, span), Settings::MYSQL);
/// let items = [item(1..10), item(12..25), item(27..37), Literal::new(Kind::Integer, 39..41).into()];
/// let (mut answers, mut out) = ([Told::default(); 4], [0; 16]);
///
/// let block = read_block(&items, row, &mut answers, &mut out)?;
/// assert!(matches!(block.get(0), Some(Ok(Text::Borrowed("Aspirin")))));
/// assert!(matches!(block.get(1), Some(Ok(Text::Written("Bob's balm")))));
/// assert!(matches!(block.get(2), Some(Ok(Text::Written("50 ml")))));
/// assert_eq!(block.get(3).unwrap().unwrap_err().number(), 1);
/// assert_eq!((block.len(), block.used()), (4, 15));
/// # Ok::<(), Error>(())
/// ```
///
/// # Errors
///
/// [`Error::BadBlock`] (15), for the whole call, if there are fewer answers than items or the buffer is longer than [`LONGEST_BUFFER`]; then neither answers nor buffer are changed. An
/// item's own refusal stands in the block: [`Error::WrongKind`] (1), [`Error::MissingSource`] (2), [`Error::InvalidSourceRange`] (3), [`Error::InvalidString`] (6) with its
/// [place](Error::place), [`Error::NoRoom`] (9).
pub fn read_block<'s, 'b>(
    items: &'b [Item],
    source: &'s str,
    answers: &'b mut [Told],
    out: &'b mut [u8],
) -> Result<Block<'s, 'b>, Error> {
    read(items, source, answers, out)
}

/// [`read_block`] over bytes, as of a dump that may not be UTF-8 throughout.
///
/// ```
/// use valdrabus::{Item, Kind, Literal, Text, Told, read_block_bytes};
///
/// let dump = b"'caf\xE9', 'Aspirin'";
/// let items = [0..6, 8..17].map(|span| Item::from(Literal::new(Kind::String, span)));
/// let mut answers = [Told::default(); 2];
///
/// let block = read_block_bytes(&items, dump, &mut answers, &mut [])?;
/// assert_eq!(block.get(0).unwrap().unwrap_err().number(), 4);
/// assert!(matches!(block.get(1), Some(Ok(Text::Borrowed(b"Aspirin")))));
/// # Ok::<(), valdrabus::Error>(())
/// ```
///
/// # Errors
///
/// As [`read_block`]; an item can be refused by [`Error::NotUtf8`] (4) as well.
pub fn read_block_bytes<'s, 'b>(
    items: &'b [Item],
    source: &'s [u8],
    answers: &'b mut [Told],
    out: &'b mut [u8],
) -> Result<Block<'s, 'b, [u8]>, Error> {
    read(items, source, answers, out)
}

pub(crate) fn read<'s, 'b, T: Source + ?Sized>(
    items: &'b [Item],
    source: &'s T,
    answers: &'b mut [Told],
    out: &'b mut [u8],
) -> Result<Block<'s, 'b, T>, Error> {
    match calls::read_block(items, source.bytes(), answers, out) {
        0 => Ok(Block { items, source, answers: answers.get(..items.len()).ok_or(Error::BadNumber)?, out }),
        number => Err(Error::of_bare(number, 0)),
    }
}

/// The answers of a block, in the order of its items: each a [`Text`] of the source (`'s`) or of the buffer (`'b`), or the refusal that a single call gives. Only [`Error::WrongKind`] tells less, the
/// kind without its data: an item keeps of its kind the code alone.
///
/// ```
/// use valdrabus::{Item, Kind, Literal, Text, Told, read_block};
///
/// let source = "'a''b', 'it's', 'c'";
/// let items = [0..6, 8..14, 16..19].map(|span| Item::from(Literal::new(Kind::String, span)));
/// let (mut answers, mut out) = ([Told::default(); 3], [0; 8]);
///
/// let mut texts = read_block(&items, source, &mut answers, &mut out)?.iter();
/// assert!(matches!(texts.next(), Some(Ok(Text::Written("a'b")))));
/// let refused = texts.next().unwrap().unwrap_err();
/// assert_eq!(refused.to_string(), "the text at 8..14 is not a readable string: reading stops at its byte 3 (number 6)");
/// assert_eq!(refused.place_in_source(), Some(11));
/// assert!(matches!(texts.next(), Some(Ok(Text::Borrowed("c")))));
/// # Ok::<(), valdrabus::Error>(())
/// ```
pub struct Block<'s, 'b, T: ?Sized = str> {
    pub(crate) items: &'b [Item],
    pub(crate) source: &'s T,
    /// Just as many as items.
    pub(crate) answers: &'b [Told],
    pub(crate) out: &'b [u8],
}

impl<T: ?Sized> Block<'_, '_, T> {
    /// How many items there are, refused ones among them.
    #[must_use]
    pub const fn len(&self) -> usize {
        self.items.len()
    }

    /// Whether there is no item.
    #[must_use]
    pub const fn is_empty(&self) -> bool {
        self.items.is_empty()
    }

    /// How many bytes of the buffer are taken: written texts fill its start, one behind the other, and the rest is unchanged.
    ///
    /// ```
    /// use valdrabus::{Item, Kind, Literal, Told, read_block};
    ///
    /// let items = [0..7, 7..12].map(|span| Item::from(Literal::new(Kind::String, span)));
    /// let (mut answers, mut out) = ([Told::default(); 2], *b"........");
    /// let used = read_block(&items, "'it''s''two'", &mut answers, &mut out)?.used();
    /// assert_eq!((used, &out), (4, b"it's...."));
    /// # Ok::<(), valdrabus::Error>(())
    /// ```
    #[must_use]
    pub fn used(&self) -> usize {
        self.answers.iter().map(Told::taken).sum()
    }

    /// How long a buffer must be for no item to be refused by [`Error::NoRoom`] (9), however long this one is; `usize::MAX` if it were longer still. A call takes no more than [`LONGEST_BUFFER`]: where more is
    /// needed, ask for fewer items at once.
    ///
    /// ```
    /// use valdrabus::{Item, Kind, Literal, Told, read_block};
    ///
    /// let source = "'it''s' 'a' 'b'";
    /// let items = [0..7, 8..15].map(|span| Item::from(Literal::new(Kind::String, span)));
    /// let mut answers = [Told::default(); 2];
    ///
    /// let needed = read_block(&items, source, &mut answers, &mut [])?.needed();
    /// assert_eq!(needed, 6);
    /// let mut out = vec![0; needed];
    /// let block = read_block(&items, source, &mut answers, &mut out)?;
    /// assert!(block.iter().all(|text| text.is_ok()));
    /// assert_eq!((block.used(), block.needed()), (6, 6));
    /// # Ok::<(), valdrabus::Error>(())
    /// ```
    #[must_use]
    pub fn needed(&self) -> usize {
        usize::try_from(Told::needed(self.answers)).unwrap_or(usize::MAX)
    }
}

impl<'s, 'b, T: Source + ?Sized> Block<'s, 'b, T> {
    /// The answer of the item at a place, counted from 0; none past the items. The refusals are those that [`read_block`] and [`read_block_bytes`] name.
    ///
    /// ```
    /// use valdrabus::{Error, Item, Kind, Literal, Span, Text, Told, read_block};
    ///
    /// let items = [0..3, 3..9].map(|span| Item::from(Literal::new(Kind::String, span)));
    /// let mut answers = [Told::default(); 2];
    /// let block = read_block(&items, "'a''b'", &mut answers, &mut [])?;
    /// assert!(matches!(block.get(0), Some(Ok(Text::Borrowed("a")))));
    /// assert_eq!(block.get(1), Some(Err(Error::InvalidSourceRange { span: Span::from(3..9) })));
    /// assert_eq!(block.get(2), None);
    /// # Ok::<(), Error>(())
    /// ```
    #[must_use]
    pub fn get(&self, at: usize) -> Option<Result<Text<'s, 'b, T>, Error>> {
        let (literal, told) = (self.items.get(at)?.literal(), self.answers.get(at)?);
        Some(told.said(&literal).text(Some(&literal), self.source, self.out))
    }

    /// All answers, in the order of the items.
    #[must_use]
    pub fn iter(&self) -> Texts<'s, 'b, T> {
        Texts { block: *self, places: 0..self.len() }
    }
}

// Not derived: derived ones would ask T to be Copy, which str is not.
impl<T: ?Sized> Clone for Block<'_, '_, T> {
    fn clone(&self) -> Self {
        *self
    }
}

impl<T: ?Sized> Copy for Block<'_, '_, T> {}

/// Shows the answers.
impl<T: Source + ?Sized + fmt::Debug> fmt::Debug for Block<'_, '_, T> {
    fn fmt(&self, f: &mut fmt::Formatter<'_>) -> fmt::Result {
        f.debug_list().entries(self).finish()
    }
}

impl<'s, 'b, T: Source + ?Sized> IntoIterator for Block<'s, 'b, T> {
    type Item = Result<Text<'s, 'b, T>, Error>;
    type IntoIter = Texts<'s, 'b, T>;

    fn into_iter(self) -> Texts<'s, 'b, T> {
        self.iter()
    }
}

impl<'s, 'b, T: Source + ?Sized> IntoIterator for &Block<'s, 'b, T> {
    type Item = Result<Text<'s, 'b, T>, Error>;
    type IntoIter = Texts<'s, 'b, T>;

    fn into_iter(self) -> Texts<'s, 'b, T> {
        self.iter()
    }
}

/// The answers of a [`Block`] one by one, from either end.
///
/// ```
/// use valdrabus::{Item, Kind, Literal, Text, Told, read_block};
///
/// let items = [0..3, 4..7].map(|span| Item::from(Literal::new(Kind::String, span)));
/// let mut answers = [Told::default(); 2];
/// let mut texts = read_block(&items, "'a','b'", &mut answers, &mut [])?.iter();
/// assert_eq!(texts.len(), 2);
/// assert!(matches!(texts.next_back(), Some(Ok(Text::Borrowed("b")))));
/// assert_eq!(texts.len(), 1);
/// # Ok::<(), valdrabus::Error>(())
/// ```
pub struct Texts<'s, 'b, T: ?Sized = str> {
    block: Block<'s, 'b, T>,
    /// Those that are still to come.
    places: Range<usize>,
}

impl<'s, 'b, T: Source + ?Sized> Iterator for Texts<'s, 'b, T> {
    type Item = Result<Text<'s, 'b, T>, Error>;

    fn next(&mut self) -> Option<Self::Item> {
        self.block.get(self.places.next()?)
    }

    fn size_hint(&self) -> (usize, Option<usize>) {
        self.places.size_hint()
    }

    // Texts that are passed over are not looked at.
    fn nth(&mut self, n: usize) -> Option<Self::Item> {
        self.block.get(self.places.nth(n)?)
    }
}

impl<T: Source + ?Sized> DoubleEndedIterator for Texts<'_, '_, T> {
    fn next_back(&mut self) -> Option<Self::Item> {
        self.block.get(self.places.next_back()?)
    }
}

impl<T: Source + ?Sized> ExactSizeIterator for Texts<'_, '_, T> {}

impl<T: Source + ?Sized> FusedIterator for Texts<'_, '_, T> {}

impl<T: ?Sized> Clone for Texts<'_, '_, T> {
    fn clone(&self) -> Self {
        Texts { block: self.block, places: self.places.clone() }
    }
}

/// Shows the answers that are still to come.
impl<T: Source + ?Sized + fmt::Debug> fmt::Debug for Texts<'_, '_, T> {
    fn fmt(&self, f: &mut fmt::Formatter<'_>) -> fmt::Result {
        f.debug_list().entries(self.clone()).finish()
    }
}
