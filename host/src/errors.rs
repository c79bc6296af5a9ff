//! Why a call is refused.

use crate::blocks::LONGEST_BUFFER;
use crate::kinds::{Expected, Kind};
use crate::literal::Literal;
use crate::said::Said;
use crate::span::Span;
use std::fmt;

/// Why a call, or an item of a block, is refused. Each case has its [number](Error::number); a refusal changes no byte of the lent buffer.
///
/// A span is the literal's own; a call on bare text, which has no literal, gives none. A string, temporal text or date that cannot be read tells the
/// [place](Error::place) where reading stops, and every refusal of a literal's text its [line and column](Error::position) in the source.
///
/// ```
/// use valdrabus::{Error, Kind, Literal};
///
/// let date = Literal::new(Kind::Date, 0..4);
/// let error = date.as_i64("2026").unwrap_err();
/// assert_eq!(error.number(), 1);
/// assert_eq!(error.to_string(), "an integer is asked for, and the literal is a date (number 1)");
/// assert!(matches!(error, Error::WrongKind { actual: Kind::Date, .. }));
/// ```
#[derive(Clone, Copy, Debug, PartialEq, Eq, Hash)]
#[non_exhaustive]
pub enum Error {
    /// 1: the kind does not fit the question.
    WrongKind {
        /// What the question expects.
        expected: Expected,
        /// The literal's kind, with all its data; in a block, which keeps the kind's code alone, without them.
        actual: Kind,
    },
    /// 2: the literal stands in no source.
    MissingSource {
        /// The literal's span.
        span: Span,
    },
    /// 3: the span ends before it starts, leaves the source, or cuts a character.
    InvalidSourceRange {
        /// The literal's span.
        span: Span,
    },
    /// 4: the text, or the value to be written, is not UTF-8.
    NotUtf8 {
        /// The literal's span, if there is a literal.
        span: Option<Span>,
    },
    /// 5: not a readable integer.
    InvalidInteger {
        /// The literal's span.
        span: Span,
    },
    /// 6: not a readable string.
    InvalidString {
        /// The literal's span, if there is a literal.
        span: Option<Span>,
        /// Where reading from the left stops, in bytes from the literal's start; an identifier, which is no literal, has none.
        place: Option<usize>,
    },
    /// 7: not a readable bit string.
    InvalidBitString {
        /// The literal's span.
        span: Span,
    },
    /// 8: not a money text.
    InvalidMoney {
        /// The literal's span.
        span: Span,
    },
    /// 9: the answer would be written, and the room is too short: the buffer, or in a block what the items before left of it.
    NoRoom {
        /// How many bytes this answer takes, in a block without those of other items. With as much room it is written.
        needed: usize,
    },
    /// 10: this crate and the archive that it is linked with do not agree about a number. No call of this crate gives it while both are of one version.
    BadNumber,
    /// 11: a value with a NUL, which no plain literal spells where backslash escapes are off, and neither `E'..'` nor `U&'..'` at any setting.
    HoldsNul,
    /// 12: a value, or a bit string's packed bytes, longer than [`LONGEST_VALUE`](crate::LONGEST_VALUE), or parts smaller than [`LEAST_PART`](crate::LEAST_PART).
    OverLimit,
    /// 14: a date literal whose value is not ten bytes, `yyyy-mm-dd`, of a day from 0001-01-01 to 9999-12-31.
    InvalidDate {
        /// The literal's span.
        span: Span,
    },
    /// 15: a block with fewer answers than items, or with a buffer that is, or would have to be, longer than [`LONGEST_BUFFER`].
    BadBlock,
    /// 16: bytes that are no packed bits of that count: not as many bytes as the bits take, an unused bit that is set, or a count that is no multiple of four for `X'..'`.
    BadBits,
}

impl Error {
    /// The refusal's number, 1 to 12 or 14 to 16, as `include/valdrabus.h` lists them.
    #[must_use]
    pub const fn number(&self) -> u32 {
        match self {
            Error::WrongKind { .. } => 1,
            Error::MissingSource { .. } => 2,
            Error::InvalidSourceRange { .. } => 3,
            Error::NotUtf8 { .. } => 4,
            Error::InvalidInteger { .. } => 5,
            Error::InvalidString { .. } => 6,
            Error::InvalidBitString { .. } => 7,
            Error::InvalidMoney { .. } => 8,
            Error::NoRoom { .. } => 9,
            Error::BadNumber => 10,
            Error::HoldsNul => 11,
            Error::OverLimit => 12,
            Error::InvalidDate { .. } => 14,
            Error::BadBlock => 15,
            Error::BadBits => 16,
        }
    }

    /// The span of the literal that is refused, where the refusal speaks of one.
    #[must_use]
    pub const fn span(&self) -> Option<Span> {
        match *self {
            Error::NotUtf8 { span } | Error::InvalidString { span, .. } => span,
            Error::MissingSource { span }
            | Error::InvalidSourceRange { span }
            | Error::InvalidInteger { span }
            | Error::InvalidBitString { span }
            | Error::InvalidMoney { span }
            | Error::InvalidDate { span } => Some(span),
            _ => None,
        }
    }

    /// Where reading a string, temporal text or date from the left stops, in bytes from the literal's start: 6 alone has it, and not that of an identifier.
    ///
    /// It is the lone quote, or the first byte of the escape that cannot be read; in `E'..'` that becomes no UTF-8 the escape or character that broke it, or the closing quote where a sequence is
    /// unfinished. A segment with a raw NUL, or of no spelling, gives its own start, and so does what is no segment in joined text. The byte there begins a character, and lies inside the literal;
    /// an empty literal has the place 0, and so has a temporal text without a quoted token.
    ///
    /// ```
    /// use valdrabus::{Kind, Literal};
    ///
    /// let place = |text: &str| Literal::whole(Kind::String, text).unwrap().to_str(text).unwrap_err().place();
    /// assert_eq!(place("'Bob's balm'"), Some(4));
    /// assert_eq!(place(r"E'5\xB5g'"), Some(3));
    /// assert_eq!(place("'50' ' ml"), Some(5));
    /// assert_eq!(place("'50 ml"), Some(0));
    /// ```
    #[must_use]
    pub const fn place(&self) -> Option<usize> {
        match *self {
            Error::InvalidString { place, .. } => place,
            _ => None,
        }
    }

    /// The same counted from the source's start: the byte of the dump to look at.
    ///
    /// ```
    /// use valdrabus::{Kind, Literal};
    ///
    /// let row = "(12, 'Bob's balm')";
    /// let error = Literal::new(Kind::String, 5..17).to_str(row).unwrap_err();
    /// assert_eq!((error.place(), error.place_in_source()), (Some(4), Some(9)));
    /// assert_eq!(&row[9..], "'s balm')");
    /// ```
    #[must_use]
    pub const fn place_in_source(&self) -> Option<usize> {
        match *self {
            Error::InvalidString { span: Some(span), place: Some(place) } => (span.start as usize).checked_add(place),
            _ => None,
        }
    }

    /// The refusal of a question on a literal, by its number and what comes with it.
    pub(crate) fn of_literal(said: &Said, literal: &Literal) -> Error {
        let span = literal.span;
        match said.number {
            1 => match Expected::of_code(said.first) {
                Some(expected) => Error::WrongKind { expected, actual: literal.kind },
                None => Error::BadNumber,
            },
            2 => Error::MissingSource { span },
            3 => Error::InvalidSourceRange { span },
            4 => Error::NotUtf8 { span: Some(span) },
            5 => Error::InvalidInteger { span },
            6 => Error::InvalidString { span: Some(span), place: Some(said.place) },
            7 => Error::InvalidBitString { span },
            8 => Error::InvalidMoney { span },
            14 => Error::InvalidDate { span },
            number => Error::of_bare(number, said.second),
        }
    }

    /// The refusal of a call on bare text, a value or a block, by its number and the length that comes with 9.
    pub(crate) fn of_bare(number: u32, needed: usize) -> Error {
        match number {
            4 => Error::NotUtf8 { span: None },
            6 => Error::InvalidString { span: None, place: None },
            9 => Error::NoRoom { needed },
            11 => Error::HoldsNul,
            12 => Error::OverLimit,
            15 => Error::BadBlock,
            16 => Error::BadBits,
            _ => Error::BadNumber,
        }
    }
}

impl fmt::Display for Error {
    fn fmt(&self, f: &mut fmt::Formatter<'_>) -> fmt::Result {
        let text = Place("the text", self.span());
        match self {
            Error::WrongKind { expected, actual } => write!(f, "{expected} is asked for, and the literal is {actual}"),
            Error::MissingSource { .. } => write!(f, "the literal stands in no source"),
            Error::InvalidSourceRange { span } => write!(f, "{span} is no range of whole characters in the source"),
            // Without a literal it is a helper's text or a writer's value.
            Error::NotUtf8 { span: None } => write!(f, "the text or value is not UTF-8"),
            Error::NotUtf8 { .. } => write!(f, "{text} is not UTF-8"),
            Error::InvalidInteger { .. } => write!(f, "{text} is not a readable integer"),
            Error::InvalidString { place: Some(place), .. } => {
                write!(f, "{text} is not a readable string: reading stops at its byte {place}")
            }
            Error::InvalidString { .. } => write!(f, "{text} is not a readable string"),
            Error::InvalidBitString { .. } => write!(f, "{text} is not a readable bit string"),
            Error::InvalidMoney { .. } => write!(f, "{text} is not a money text"),
            Error::NoRoom { needed } => write!(f, "the room is too short: {needed} bytes are needed"),
            Error::BadNumber => write!(f, "the linked archive is of another version"),
            Error::HoldsNul => write!(f, "the value holds a NUL: only plain literals with backslash escapes spell it"),
            Error::OverLimit => write!(f, "the value is too long to be written, or the part size too small"),
            Error::InvalidDate { .. } => write!(f, "{text} is not a date, yyyy-mm-dd from 0001-01-01 to 9999-12-31"),
            Error::BadBlock => {
                write!(
                    f,
                    "the block has fewer answers than items, or takes a buffer longer than {LONGEST_BUFFER} bytes"
                )
            }
            Error::BadBits => write!(f, "the bytes are no packed bits of that count, or X'..' cannot spell it"),
        }?;
        write!(f, " (number {})", self.number())
    }
}

/// What is refused, with its place in the source where that is known.
struct Place(&'static str, Option<Span>);

impl fmt::Display for Place {
    fn fmt(&self, f: &mut fmt::Formatter<'_>) -> fmt::Result {
        f.write_str(self.0)?;
        match self.1 {
            Some(span) => write!(f, " at {span}"),
            None => Ok(()),
        }
    }
}

impl std::error::Error for Error {}

#[cfg(test)]
mod tests {
    use super::*;

    fn of_literal(number: u32, first: usize, second: usize) -> Error {
        let said = Said { number, first, second, place: 4, ..Said::default() };
        Error::of_literal(&said, &Literal::new(Kind::Money, 3..8))
    }

    #[test]
    fn every_number_of_a_literal_comes_back_as_its_error() {
        for number in (1..=12).chain(14..=16) {
            let error = of_literal(number, 1, 2);
            assert_eq!((error.number(), error.place()), (number, (number == 6).then_some(4)));
        }
    }

    #[test]
    fn what_the_header_does_not_know_is_a_bad_number() {
        assert_eq!([13, 17, 18].map(|number| of_literal(number, 0, 0)), [Error::BadNumber; 3]);
        assert_eq!(of_literal(1, 10, 14), Error::BadNumber);
        assert_eq!([5, 14].map(|number| Error::of_bare(number, 0)), [Error::BadNumber; 2]);
    }

    #[test]
    fn a_place_in_the_source_is_counted_where_a_usize_holds_it() {
        let at = |start, place| Error::InvalidString { span: Some(Span { start, end: start }), place };
        assert_eq!(at(3, Some(4)).place_in_source(), Some(7));
        assert_eq!(at(3, Some(usize::MAX)).place_in_source(), None);
        assert_eq!(at(3, None).place_in_source(), None);
        assert_eq!(Error::InvalidString { span: None, place: Some(4) }.place_in_source(), None);
    }
}
