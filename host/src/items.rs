//! What goes into a block call and what comes out of it, in the form that the C call has: four numbers for each literal.

use crate::kinds::{Expected, Kind};
use crate::literal::Literal;
use crate::said::{Said, WRITTEN};
use crate::settings::Settings;
use crate::span::Span;

const WRONG_KIND: u32 = 1;
const MISSING_SOURCE: u32 = 2;
pub(crate) const INVALID_STRING: u32 = 6;
const NO_ROOM: u32 = 9;
const BAD_NUMBER: u32 = 10;

/// Stands for the kind of a string that stands in no source, for which a block has no mark. The call answers it with 10, as no other item of this crate, and that is told as 2. A synthetic
/// literal of another kind keeps its code: 1 is tested before 2.
const NO_SOURCE: u32 = 0;

/// A literal to be read in a block, and the setting that it is read at.
///
/// It has the form of the C call, so that a slice of items is handed over as it stands: a grid makes the items of its rows once, and lends those that are visible to
/// [`read_block`](crate::read_block). Of the literal's kind it keeps the [code](Kind::code) alone.
///
/// ```
/// use valdrabus::{Item, Kind, Literal, Settings};
///
/// let name = Literal::new(Kind::String, 1..14);
/// let mysql = Item::new(name, Settings::MYSQL);
/// assert_eq!(Item::from(name), Item::new(name, Settings::STANDARD));
/// assert_ne!(Item::from(name), mysql);
/// ```
#[derive(Clone, Copy, Debug, PartialEq, Eq, Hash)]
#[repr(C)]
pub struct Item {
    kind: u32,
    setting: u32,
    start: u32,
    end: u32,
}

impl Item {
    /// A literal at a setting. Every literal makes an item; whether it can be read is the block's answer.
    #[must_use]
    pub const fn new(literal: Literal, settings: Settings) -> Item {
        let kind = match literal {
            Literal { kind: Kind::String, synthetic: true, .. } => NO_SOURCE,
            Literal { kind, .. } => kind.code(),
        };
        Item { kind, setting: settings.number(), start: literal.span.start, end: literal.span.end }
    }

    /// The literal again, its kind without data.
    pub(crate) fn literal(&self) -> Literal {
        let span = Span { start: self.start, end: self.end };
        match Kind::of_code(self.kind) {
            Some(kind) => Literal::at(kind, span),
            None => Literal { span, ..Literal::synthetic(Kind::String) },
        }
    }
}

/// With backslash escapes off.
impl From<Literal> for Item {
    fn from(literal: Literal) -> Item {
        Item::new(literal, Settings::STANDARD)
    }
}

/// Where a block call puts what it tells of an item. The caller lends as many as there are items, or more; a [`Block`](crate::Block) shows what is in them.
///
/// ```
/// use valdrabus::Told;
/// let visible = [Told::default(); 40];
/// let longer = vec![Told::default(); 400];
/// # assert_eq!(visible[..], longer[..40]);
/// ```
#[derive(Clone, Copy, Debug, Default, PartialEq, Eq, Hash)]
#[repr(C)]
pub struct Told {
    number: u32,
    how: u32,
    start: u32,
    length: u32,
}

impl Told {
    /// The same as a single call says it of the item's literal.
    pub(crate) fn said(&self, literal: &Literal) -> Said {
        let (start, length) = (self.start as usize, self.length as usize);
        let number = match self.number {
            BAD_NUMBER if literal.synthetic => MISSING_SOURCE,
            number => number,
        };
        let first = if number == WRONG_KIND { Expected::String.code() as usize } else { start };
        let place = if number == INVALID_STRING { start } else { 0 };
        Said { number, how: self.how, first, second: start + length, place }
    }

    /// How many bytes of the buffer the item takes.
    pub(crate) const fn taken(&self) -> usize {
        if self.how == WRITTEN { self.length as usize } else { 0 }
    }

    /// How many bytes of a buffer that is long enough all of these take. One literal may be asked over and over, so that the sum passes what a usize of 32 bits holds.
    pub(crate) fn needed(answers: &[Told]) -> u64 {
        let needed = answers.iter().filter(|told| told.how == WRITTEN || told.number == NO_ROOM);
        needed.map(|told| u64::from(told.length)).fold(0, u64::saturating_add)
    }
}

#[cfg(test)]
mod tests {
    use super::*;

    #[test]
    fn lengths_together_may_pass_any_buffer() {
        let borrowed = Told { number: 0, how: 1, start: 3, length: 5 };
        let written = Told { number: 0, how: WRITTEN, start: 0, length: 7 };
        let refused = Told { number: 3, how: 0, start: 0, length: 0 };
        let no_room = Told { number: NO_ROOM, how: 0, start: 0, length: u32::MAX };
        let most = u64::from(u32::MAX);
        for (answers, due) in [
            (&[][..], 0),
            (&[borrowed, refused], 0),
            (&[written, borrowed, refused, written], 14),
            (&[no_room], most),
            (&[written, no_room, borrowed], most + 7),
            (&[no_room, no_room, no_room], 3 * most),
        ] {
            assert_eq!(Told::needed(answers), due, "{answers:?}");
        }
    }
}
