//! What the archive says to a question, and what that is in Rust.

use crate::errors::Error;
use crate::literal::Literal;
use crate::source::Source;
use crate::texts::Text;
use std::ops::Range;

/// How a text is answered: `VALDRABUS_NONE`, `_BORROWED` and `_WRITTEN` of the header.
const NONE: u32 = 0;
pub(crate) const BORROWED: u32 = 1;
pub(crate) const WRITTEN: u32 = 2;

/// A number, how a text is answered, and the two values that come with it; with a 6 of a literal also where reading stops.
#[derive(Default)]
pub(crate) struct Said {
    pub(crate) number: u32,
    pub(crate) how: u32,
    pub(crate) first: usize,
    pub(crate) second: usize,
    pub(crate) place: usize,
}

/// Where an answered text stands.
#[derive(Debug, PartialEq, Eq)]
pub(crate) enum Stands {
    InSource(Range<usize>),
    InBuffer(Range<usize>),
}

impl Said {
    /// Refuses by the number, where it is not 0.
    pub(crate) fn accepted(&self, literal: Option<&Literal>) -> Result<(), Error> {
        match (self.number, literal) {
            (0, _) => Ok(()),
            (_, Some(literal)) => Err(Error::of_literal(self, literal)),
            (number, None) => Err(Error::of_bare(number, self.second)),
        }
    }

    /// Where the text of an answer that has one stands. What the ranges are ranges of is still to be asked.
    pub(crate) fn stands(&self, literal: Option<&Literal>) -> Result<Stands, Error> {
        self.accepted(literal)?;
        match self.how {
            BORROWED => Ok(Stands::InSource(self.first..self.second)),
            WRITTEN => Ok(Stands::InBuffer(self.first..self.second)),
            _ => Err(Error::BadNumber),
        }
    }

    /// A text, of the source or of the buffer.
    pub(crate) fn text<'s, 'b, S: Source + ?Sized>(
        &self,
        literal: Option<&Literal>,
        source: &'s S,
        out: &'b [u8],
    ) -> Result<Text<'s, 'b, S>, Error> {
        let text = match self.stands(literal)? {
            Stands::InSource(range) => source.part(range).map(Text::Borrowed),
            Stands::InBuffer(range) => out.get(range).and_then(S::shown).map(Text::Written),
        };
        text.ok_or(Error::BadNumber)
    }

    /// A part of the source, or that there is none.
    pub(crate) fn part<'s, S: Source + ?Sized>(
        &self,
        literal: &Literal,
        source: &'s S,
    ) -> Result<Option<&'s S>, Error> {
        self.accepted(Some(literal))?;
        match self.how {
            NONE => Ok(None),
            BORROWED => source.part(self.first..self.second).map(Some).ok_or(Error::BadNumber),
            _ => Err(Error::BadNumber),
        }
    }

    /// A part of the source that is always there.
    pub(crate) fn whole_part<'s, S: Source + ?Sized>(&self, literal: &Literal, source: &'s S) -> Result<&'s S, Error> {
        self.part(literal, source)?.ok_or(Error::BadNumber)
    }
}
