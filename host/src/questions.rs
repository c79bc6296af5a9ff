//! The questions on a literal's text that need no memory: parts of the source, a number's value, a date's day.

use crate::calls::{self, PartQuestion};
use crate::dates::Date;
use crate::errors::Error;
use crate::literal::Literal;

/// Parts of the source, a number's value and a date's day.
impl Literal {
    /// The literal's text, of any kind.
    ///
    /// ```
    /// use valdrabus::{Kind, Literal};
    /// let literal = Literal::new(Kind::Integer, 4..8);
    /// assert_eq!(literal.source_text("x = 0x1F")?, "0x1F");
    /// # Ok::<(), valdrabus::Error>(())
    /// ```
    ///
    /// # Errors
    ///
    /// [`Error::MissingSource`] (2), [`Error::InvalidSourceRange`] (3).
    pub fn source_text<'s>(&self, source: &'s str) -> Result<&'s str, Error> {
        calls::part(PartQuestion::Source, self, source.as_bytes()).whole_part(self, source)
    }

    /// A money literal's text behind its `$`, unchecked.
    ///
    /// ```
    /// use valdrabus::{Kind, Literal};
    /// assert_eq!(Literal::new(Kind::Money, 0..6).as_money_text("$12.50")?, "12.50");
    /// # Ok::<(), valdrabus::Error>(())
    /// ```
    ///
    /// # Errors
    ///
    /// [`Error::WrongKind`] (1), [`Error::MissingSource`] (2), [`Error::InvalidSourceRange`] (3), [`Error::InvalidMoney`] (8).
    pub fn as_money_text<'s>(&self, source: &'s str) -> Result<&'s str, Error> {
        calls::part(PartQuestion::Money, self, source.as_bytes()).whole_part(self, source)
    }

    /// The name of a string literal's character set, if it begins with one.
    ///
    /// ```
    /// use valdrabus::{Kind, Literal};
    /// assert_eq!(Literal::new(Kind::String, 0..11).charset_introducer("_utf8mb4'x'")?, Some("utf8mb4"));
    /// assert_eq!(Literal::new(Kind::String, 0..3).charset_introducer("'x'")?, None);
    /// # Ok::<(), valdrabus::Error>(())
    /// ```
    ///
    /// # Errors
    ///
    /// [`Error::WrongKind`] (1), [`Error::MissingSource`] (2), [`Error::InvalidSourceRange`] (3).
    pub fn charset_introducer<'s>(&self, source: &'s str) -> Result<Option<&'s str>, Error> {
        calls::part(PartQuestion::Charset, self, source.as_bytes()).part(self, source)
    }

    /// An integer's value, in base ten or behind `0x`, `0o` or `0b`.
    ///
    /// ```
    /// use valdrabus::{Kind, Literal};
    /// assert_eq!(Literal::new(Kind::Integer, 0..9).as_i64("1_500_000")?, 1_500_000);
    /// assert_eq!(Literal::new(Kind::Integer, 0..5).as_i64("-0x7f")?, -127);
    /// # Ok::<(), valdrabus::Error>(())
    /// ```
    ///
    /// # Errors
    ///
    /// [`Error::WrongKind`] (1), [`Error::MissingSource`] (2), [`Error::InvalidSourceRange`] (3), [`Error::InvalidInteger`] (5).
    pub fn as_i64(&self, source: &str) -> Result<i64, Error> {
        let (said, value) = calls::as_i64(self, source.as_bytes());
        said.accepted(Some(self)).map(|()| value)
    }

    /// The day of a date literal, from 0001-01-01 to 9999-12-31. Its value is that of [`as_temporal_text`](Literal::as_temporal_text), in all its spellings and
    /// joined from parts too, and has to be exactly ten bytes, `yyyy-mm-dd`. Nothing is allocated.
    ///
    /// ```
    /// use valdrabus::{Date, Kind, Literal};
    ///
    /// let row = "('Aspirin', DATE '2027-01-31'), ('Balm', DATE '2026-' '12-24'), ('Gauze', DATE '2027-02-29')";
    /// let aspirin = Literal::new(Kind::Date, 12..29).as_date(row)?;
    /// let balm = Literal::new(Kind::Date, 41..61).as_date(row)?;
    /// assert_eq!((aspirin.year(), aspirin.month(), aspirin.day()), (2027, 1, 31));
    /// assert_eq!(balm, Date::new(2026, 12, 24).unwrap());
    /// assert!(balm < aspirin);
    ///
    /// let gauze = Literal::new(Kind::Date, 74..91).as_date(row).unwrap_err();
    /// assert_eq!(gauze.number(), 14);
    /// # Ok::<(), valdrabus::Error>(())
    /// ```
    ///
    /// # Errors
    ///
    /// [`Error::WrongKind`] (1) for a time, timestamp or interval too, [`Error::MissingSource`] (2), [`Error::InvalidSourceRange`] (3), [`Error::InvalidString`] (6) with its
    /// [place](Error::place), [`Error::InvalidDate`] (14).
    pub fn as_date(&self, source: &str) -> Result<Date, Error> {
        Date::of_literal(self, source.as_bytes())
    }
}
