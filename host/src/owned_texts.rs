//! The questions whose answers are texts or packed bits, with memory of their own, or in a text that is used again.

use crate::calls::{self, TextQuestion};
use crate::errors::Error;
use crate::literal::Literal;
use crate::owned;
use crate::packed;
use crate::room;
use crate::settings::Settings;
use std::borrow::Cow;

/// Texts, allocated where they are not a part of the source, and packed bits. None of these refuses by [`Error::NoRoom`] (9).
impl Literal {
    /// As [`as_str`](Literal::as_str). A value that is written is allocated once, just as long as it is; one that is a part of the source is not.
    ///
    /// ```
    /// use std::borrow::Cow;
    /// use valdrabus::{Kind, Literal};
    /// let row = "('Aspirin', '50' ' ml')";
    /// assert!(matches!(Literal::new(Kind::String, 1..10).to_str(row)?, Cow::Borrowed("Aspirin")));
    /// assert_eq!(Literal::new(Kind::String, 12..22).to_str(row)?, "50 ml");
    /// # Ok::<(), valdrabus::Error>(())
    /// ```
    ///
    /// # Errors
    ///
    /// [`Error::WrongKind`] (1), [`Error::MissingSource`] (2), [`Error::InvalidSourceRange`] (3), [`Error::InvalidString`] (6) with its [place](Error::place).
    pub fn to_str<'s>(&self, source: &'s str) -> Result<Cow<'s, str>, Error> {
        self.to_str_in(source, Settings::STANDARD)
    }

    /// As [`as_str_in`](Literal::as_str_in), and [`to_str`](Literal::to_str) at a setting.
    ///
    /// ```
    /// use std::borrow::Cow;
    /// use valdrabus::{Kind, Literal, Settings};
    /// let source = r"'a\tb'";
    /// let literal = Literal::whole(Kind::String, source).unwrap();
    /// assert!(matches!(literal.to_str_in(source, Settings::STANDARD)?, Cow::Borrowed(r"a\tb")));
    /// assert_eq!(literal.to_str_in(source, Settings::MYSQL)?, "a\tb");
    /// # Ok::<(), valdrabus::Error>(())
    /// ```
    ///
    /// # Errors
    ///
    /// [`Error::WrongKind`] (1), [`Error::MissingSource`] (2), [`Error::InvalidSourceRange`] (3), [`Error::InvalidString`] (6) with its [place](Error::place).
    pub fn to_str_in<'s>(&self, source: &'s str, settings: Settings) -> Result<Cow<'s, str>, Error> {
        let ask = |out: &mut [u8]| calls::as_str_in(self, source.as_bytes(), settings, out);
        owned::cow(Some(self), source, room::string(self), ask)
    }

    /// As [`as_decimal_text`](Literal::as_decimal_text).
    ///
    /// ```
    /// use valdrabus::{Kind, Literal};
    /// let source = "0xffffffffffffffffffff";
    /// let literal = Literal::whole(Kind::Integer, source).unwrap();
    /// assert_eq!(literal.to_decimal_text(source)?, "1208925819614629174706175");
    /// # Ok::<(), valdrabus::Error>(())
    /// ```
    ///
    /// # Errors
    ///
    /// [`Error::WrongKind`] (1), [`Error::MissingSource`] (2), [`Error::InvalidSourceRange`] (3), [`Error::InvalidInteger`] (5).
    pub fn to_decimal_text<'s>(&self, source: &'s str) -> Result<Cow<'s, str>, Error> {
        self.owned_text(TextQuestion::Decimal, source)
    }

    /// As [`as_bit_text`](Literal::as_bit_text).
    ///
    /// # Errors
    ///
    /// [`Error::WrongKind`] (1), [`Error::MissingSource`] (2), [`Error::InvalidSourceRange`] (3), [`Error::InvalidBitString`] (7).
    pub fn to_bit_text<'s>(&self, source: &'s str) -> Result<Cow<'s, str>, Error> {
        self.owned_text(TextQuestion::Bits, source)
    }

    /// As [`as_packed_bits`](Literal::as_packed_bits): the packed bytes, and how many bits they hold.
    ///
    /// ```
    /// use valdrabus::{BitStringRadix, Kind, Literal};
    /// let key = Literal::new(Kind::BitString { radix: BitStringRadix::Hex }, 0..11);
    /// assert_eq!(key.to_packed_bits("X'DEADBEEF'")?, (vec![0xDE, 0xAD, 0xBE, 0xEF], 32));
    /// # Ok::<(), valdrabus::Error>(())
    /// ```
    ///
    /// # Errors
    ///
    /// [`Error::WrongKind`] (1), [`Error::MissingSource`] (2), [`Error::InvalidSourceRange`] (3), [`Error::InvalidBitString`] (7).
    pub fn to_packed_bits(&self, source: &str) -> Result<(Vec<u8>, u64), Error> {
        packed::to_packed_bits(self, source.as_bytes())
    }

    /// As [`as_temporal_text`](Literal::as_temporal_text).
    ///
    /// # Errors
    ///
    /// [`Error::WrongKind`] (1), [`Error::MissingSource`] (2), [`Error::InvalidSourceRange`] (3), [`Error::InvalidString`] (6) with its [place](Error::place).
    pub fn to_temporal_text<'s>(&self, source: &'s str) -> Result<Cow<'s, str>, Error> {
        self.owned_text(TextQuestion::Temporal, source)
    }

    fn owned_text<'s>(&self, question: TextQuestion, source: &'s str) -> Result<Cow<'s, str>, Error> {
        let ask = |out: &mut [u8]| calls::text(question, self, source.as_bytes(), out);
        owned::cow(Some(self), source, room::text(question, self), ask)
    }
}

/// Strings, into a `String` that is used again.
impl Literal {
    /// What a string literal means, with backslash escapes off, in place of what a `String` holds. Nothing is allocated where its capacity holds the value; it need not be cleared
    /// before. On a refusal it holds what it held.
    ///
    /// ```
    /// use valdrabus::{Kind, Literal};
    ///
    /// let mut name = String::new();
    /// for (row, due) in [("'Bob''s balm'", "Bob's balm"), ("'Aspirin'", "Aspirin")] {
    ///     let literal = Literal::whole(Kind::String, row).unwrap();
    ///     assert_eq!(literal.read_str(row, &mut name)?, due);
    /// }
    /// assert_eq!(name, "Aspirin");
    ///
    /// let unended = Literal::new(Kind::String, 0..5).read_str("'Balm", &mut name);
    /// assert_eq!(unended.unwrap_err().number(), 6);
    /// assert_eq!(name, "Aspirin");
    /// # Ok::<(), valdrabus::Error>(())
    /// ```
    ///
    /// # Errors
    ///
    /// [`Error::WrongKind`] (1), [`Error::MissingSource`] (2), [`Error::InvalidSourceRange`] (3), [`Error::InvalidString`] (6) with its [place](Error::place).
    pub fn read_str<'b>(&self, source: &str, into: &'b mut String) -> Result<&'b str, Error> {
        self.read_str_in(source, Settings::STANDARD, into)
    }

    /// [`read_str`](Literal::read_str) at a setting.
    ///
    /// ```
    /// use valdrabus::{Kind, Literal, Settings};
    /// let mut name = String::with_capacity(64);
    /// Literal::new(Kind::String, 0..13).read_str_in(r"'Bob\'s balm'", Settings::MYSQL, &mut name)?;
    /// assert_eq!(name, "Bob's balm");
    /// # Ok::<(), valdrabus::Error>(())
    /// ```
    ///
    /// # Errors
    ///
    /// [`Error::WrongKind`] (1), [`Error::MissingSource`] (2), [`Error::InvalidSourceRange`] (3), [`Error::InvalidString`] (6) with its [place](Error::place).
    pub fn read_str_in<'b>(&self, source: &str, settings: Settings, into: &'b mut String) -> Result<&'b str, Error> {
        owned::replace(self, source, into, |out| calls::as_str_in(self, source.as_bytes(), settings, out))
    }
}
