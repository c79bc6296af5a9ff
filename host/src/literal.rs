//! A literal, and what is asked of its kind alone.

use crate::calls;
use crate::errors::Error;
use crate::in_bytes::InBytes;
use crate::kinds::Kind;
use crate::span::Span;
use std::ops::Range;

/// A literal: what it is said to be, and where its text stands in a source.
///
/// It holds no text. Each question takes the source, and answers or refuses for every kind, span, source and buffer: none panics, and none asks a caller to have
/// checked. Questions called `as_..` write into a lent buffer where the answer is not a part of the source; those called `to_..` allocate where it is not; `read_str` and `read_str_in`
/// put the value into a `String` that is used again. Over bytes that may not be UTF-8, ask [`in_bytes`](Literal::in_bytes).
///
/// ```
/// use valdrabus::{Kind, Literal, Settings};
///
/// let row = r"INSERT INTO stock VALUES (12, 'Bob\'s balm', '50' ' ml');";
/// let count = Literal::new(Kind::Integer, 26..28);
/// let name = Literal::new(Kind::String, 30..43);
/// let size = Literal::new(Kind::String, 45..55);
///
/// assert_eq!(count.as_i64(row)?, 12);
/// assert_eq!(name.to_str_in(row, Settings::MYSQL)?, "Bob's balm");
/// assert_eq!(size.to_str(row)?, "50 ml");
/// # Ok::<(), valdrabus::Error>(())
/// ```
#[derive(Clone, Copy, Debug, PartialEq, Eq, Hash)]
pub struct Literal {
    /// What it is said to be.
    pub kind: Kind,
    /// Where its text stands.
    pub span: Span,
    /// Whether it stands in no source, as a literal that a program made up: then its span means nothing.
    pub synthetic: bool,
}

impl Literal {
    /// A literal that stands in a source, from a byte up to another.
    ///
    /// ```
    /// use valdrabus::{Kind, Literal};
    /// const NAME: Literal = Literal::new(Kind::String, 1..10);
    /// assert_eq!(NAME.to_str("('Aspirin', 12)")?, "Aspirin");
    /// # Ok::<(), valdrabus::Error>(())
    /// ```
    #[must_use]
    pub const fn new(kind: Kind, bytes: Range<u32>) -> Literal {
        let Range { start, end } = bytes;
        Literal::at(kind, Span { start, end })
    }

    /// A literal that stands at a span, for spans that are at hand, or that come from places counted in `usize`.
    ///
    /// ```
    /// use valdrabus::{Kind, Literal, Span};
    /// let row = "(12, 'Aspirin')";
    /// let places = row.find('\'').unwrap()..row.rfind('\'').unwrap() + 1;
    /// let name = Literal::at(Kind::String, Span::try_from(places)?);
    /// assert_eq!(name.to_str(row)?, "Aspirin");
    /// # Ok::<(), Box<dyn std::error::Error>>(())
    /// ```
    #[must_use]
    pub const fn at(kind: Kind, span: Span) -> Literal {
        Literal { kind, span, synthetic: false }
    }

    /// A literal that is all of its source; none where the source is longer than a span can say.
    ///
    /// ```
    /// use valdrabus::{Kind, Literal};
    /// let source = "U&'caf\\00e9'";
    /// let literal = Literal::whole(Kind::String, source).unwrap();
    /// assert_eq!(literal.to_str(source)?, "café");
    /// # Ok::<(), valdrabus::Error>(())
    /// ```
    #[must_use]
    pub fn whole(kind: Kind, source: impl AsRef<[u8]>) -> Option<Literal> {
        let end = u32::try_from(source.as_ref().len()).ok()?;
        Some(Literal::new(kind, 0..end))
    }

    /// A literal that stands in no source. Questions on its text refuse it by [`Error::MissingSource`] (2).
    #[must_use]
    pub const fn synthetic(kind: Kind) -> Literal {
        Literal { kind, span: Span { start: 0, end: 0 }, synthetic: true }
    }

    /// The same questions over bytes, as of a dump that may not be UTF-8 throughout.
    ///
    /// ```
    /// use valdrabus::{Kind, Literal};
    ///
    /// let dump = b"'Aspirin', 'caf\xE9'";
    /// let mut out = [0; 16];
    ///
    /// let name = Literal::new(Kind::String, 0..9).in_bytes(dump).as_str(&mut out)?;
    /// assert_eq!(name, b"Aspirin");
    ///
    /// let latin = Literal::new(Kind::String, 11..17).in_bytes(dump).as_str(&mut out);
    /// assert_eq!(latin.unwrap_err().number(), 4);
    /// # Ok::<(), valdrabus::Error>(())
    /// ```
    #[must_use]
    pub const fn in_bytes<'s>(&self, source: &'s [u8]) -> InBytes<'s> {
        InBytes::new(*self, source)
    }

    /// A boolean's value.
    ///
    /// ```
    /// use valdrabus::{Kind, Literal};
    /// assert_eq!(Literal::new(Kind::Boolean(true), 0..4).as_bool()?, true);
    /// assert_eq!(Literal::new(Kind::Null, 0..4).as_bool().unwrap_err().number(), 1);
    /// # Ok::<(), valdrabus::Error>(())
    /// ```
    ///
    /// # Errors
    ///
    /// [`Error::WrongKind`] (1).
    pub fn as_bool(&self) -> Result<bool, Error> {
        let (said, value) = calls::as_bool(self);
        said.accepted(Some(self))?;
        match value {
            0 => Ok(false),
            1 => Ok(true),
            _ => Err(Error::BadNumber),
        }
    }

    /// That it is `NULL`.
    ///
    /// # Errors
    ///
    /// [`Error::WrongKind`] (1).
    pub fn as_null(&self) -> Result<(), Error> {
        calls::as_null(self).accepted(Some(self))
    }

    /// Whether it is `NULL`.
    ///
    /// ```
    /// use valdrabus::{Kind, Literal};
    /// assert!(Literal::synthetic(Kind::Null).is_null());
    /// ```
    #[must_use]
    pub fn is_null(&self) -> bool {
        calls::is_null(self)
    }
}
