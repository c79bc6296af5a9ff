//! The questions on a literal's text, over a source that may not be UTF-8 throughout.

use crate::calls::{self, PartQuestion, TextQuestion};
use crate::dates::Date;
use crate::errors::Error;
use crate::literal::Literal;
use crate::owned;
use crate::packed::{self, Packed};
use crate::room;
use crate::settings::Settings;
use crate::texts::Text;
use std::borrow::Cow;

/// A literal in a source of bytes: [`Literal::in_bytes`]. Each question is [`Literal`]'s of that name, answers in bytes, and can refuse by [`Error::NotUtf8`] (4) as well: the literal's
/// own text is not UTF-8. Bytes outside the literal do not matter, but for the one at its end, which shows whether the span cuts a character.
///
/// ```
/// use valdrabus::{Kind, Literal};
///
/// let dump = b"'Bob''s balm', 'caf\xE9'";
/// let name = Literal::new(Kind::String, 0..13).in_bytes(dump);
/// assert_eq!(&*name.to_str()?, b"Bob's balm");
///
/// let latin = Literal::new(Kind::String, 15..21).in_bytes(dump);
/// assert_eq!(latin.to_str().unwrap_err().number(), 4);
/// # Ok::<(), valdrabus::Error>(())
/// ```
#[derive(Clone, Copy, Debug, PartialEq, Eq, Hash)]
pub struct InBytes<'s> {
    literal: Literal,
    source: &'s [u8],
}

/// Parts of the source, a number's value and a date's day.
impl<'s> InBytes<'s> {
    pub(crate) const fn new(literal: Literal, source: &'s [u8]) -> InBytes<'s> {
        InBytes { literal, source }
    }

    /// As [`Literal::source_text`].
    ///
    /// # Errors
    ///
    /// [`Error::NotUtf8`] (4), and those of [`Literal::source_text`].
    pub fn source_text(&self) -> Result<&'s [u8], Error> {
        self.part(PartQuestion::Source)?.ok_or(Error::BadNumber)
    }

    /// As [`Literal::as_money_text`].
    ///
    /// # Errors
    ///
    /// [`Error::NotUtf8`] (4), and those of [`Literal::as_money_text`].
    pub fn as_money_text(&self) -> Result<&'s [u8], Error> {
        self.part(PartQuestion::Money)?.ok_or(Error::BadNumber)
    }

    /// As [`Literal::charset_introducer`].
    ///
    /// # Errors
    ///
    /// [`Error::NotUtf8`] (4), and those of [`Literal::charset_introducer`].
    pub fn charset_introducer(&self) -> Result<Option<&'s [u8]>, Error> {
        self.part(PartQuestion::Charset)
    }

    /// As [`Literal::as_i64`].
    ///
    /// # Errors
    ///
    /// [`Error::NotUtf8`] (4), and those of [`Literal::as_i64`].
    pub fn as_i64(&self) -> Result<i64, Error> {
        let (said, value) = calls::as_i64(&self.literal, self.source);
        said.accepted(Some(&self.literal)).map(|()| value)
    }

    /// As [`Literal::as_date`].
    ///
    /// # Errors
    ///
    /// [`Error::NotUtf8`] (4), and those of [`Literal::as_date`].
    pub fn as_date(&self) -> Result<Date, Error> {
        Date::of_literal(&self.literal, self.source)
    }

    fn part(&self, question: PartQuestion) -> Result<Option<&'s [u8]>, Error> {
        calls::part(question, &self.literal, self.source).part(&self.literal, self.source)
    }
}

/// Texts and packed bits, into a lent buffer.
impl<'s> InBytes<'s> {
    /// As [`Literal::as_str`].
    ///
    /// # Errors
    ///
    /// [`Error::NotUtf8`] (4), and those of [`Literal::as_str`].
    pub fn as_str<'b>(&self, out: &'b mut [u8]) -> Result<Text<'s, 'b, [u8]>, Error> {
        self.as_str_in(Settings::STANDARD, out)
    }

    /// As [`Literal::as_str_in`].
    ///
    /// # Errors
    ///
    /// [`Error::NotUtf8`] (4), and those of [`Literal::as_str_in`].
    pub fn as_str_in<'b>(&self, settings: Settings, out: &'b mut [u8]) -> Result<Text<'s, 'b, [u8]>, Error> {
        calls::as_str_in(&self.literal, self.source, settings, out).text(Some(&self.literal), self.source, out)
    }

    /// As [`Literal::as_decimal_text`].
    ///
    /// # Errors
    ///
    /// [`Error::NotUtf8`] (4), and those of [`Literal::as_decimal_text`].
    pub fn as_decimal_text<'b>(&self, out: &'b mut [u8]) -> Result<Text<'s, 'b, [u8]>, Error> {
        self.text(TextQuestion::Decimal, out)
    }

    /// As [`Literal::as_bit_text`].
    ///
    /// # Errors
    ///
    /// [`Error::NotUtf8`] (4), and those of [`Literal::as_bit_text`].
    pub fn as_bit_text<'b>(&self, out: &'b mut [u8]) -> Result<Text<'s, 'b, [u8]>, Error> {
        self.text(TextQuestion::Bits, out)
    }

    /// As [`Literal::as_packed_bits`].
    ///
    /// # Errors
    ///
    /// [`Error::NotUtf8`] (4), and those of [`Literal::as_packed_bits`].
    pub fn as_packed_bits<'b>(&self, out: &'b mut [u8]) -> Result<Packed<'b>, Error> {
        Packed::of_literal(&self.literal, self.source, out)
    }

    /// As [`Literal::as_temporal_text`].
    ///
    /// # Errors
    ///
    /// [`Error::NotUtf8`] (4), and those of [`Literal::as_temporal_text`].
    pub fn as_temporal_text<'b>(&self, out: &'b mut [u8]) -> Result<Text<'s, 'b, [u8]>, Error> {
        self.text(TextQuestion::Temporal, out)
    }

    fn text<'b>(&self, question: TextQuestion, out: &'b mut [u8]) -> Result<Text<'s, 'b, [u8]>, Error> {
        calls::text(question, &self.literal, self.source, out).text(Some(&self.literal), self.source, out)
    }
}

/// Texts, allocated where they are not a part of the source, and packed bits; strings also into a `Vec` that is used again. None of these refuses by [`Error::NoRoom`] (9).
impl<'s> InBytes<'s> {
    /// As [`Literal::to_str`].
    ///
    /// # Errors
    ///
    /// [`Error::NotUtf8`] (4), and those of [`Literal::to_str`].
    pub fn to_str(&self) -> Result<Cow<'s, [u8]>, Error> {
        self.to_str_in(Settings::STANDARD)
    }

    /// As [`Literal::to_str_in`].
    ///
    /// # Errors
    ///
    /// [`Error::NotUtf8`] (4), and those of [`Literal::to_str_in`].
    pub fn to_str_in(&self, settings: Settings) -> Result<Cow<'s, [u8]>, Error> {
        let ask = |out: &mut [u8]| calls::as_str_in(&self.literal, self.source, settings, out);
        owned::cow(Some(&self.literal), self.source, room::string(&self.literal), ask)
    }

    /// As [`Literal::to_decimal_text`].
    ///
    /// # Errors
    ///
    /// [`Error::NotUtf8`] (4), and those of [`Literal::to_decimal_text`].
    pub fn to_decimal_text(&self) -> Result<Cow<'s, [u8]>, Error> {
        self.owned_text(TextQuestion::Decimal)
    }

    /// As [`Literal::to_bit_text`].
    ///
    /// # Errors
    ///
    /// [`Error::NotUtf8`] (4), and those of [`Literal::to_bit_text`].
    pub fn to_bit_text(&self) -> Result<Cow<'s, [u8]>, Error> {
        self.owned_text(TextQuestion::Bits)
    }

    /// As [`Literal::to_packed_bits`].
    ///
    /// # Errors
    ///
    /// [`Error::NotUtf8`] (4), and those of [`Literal::to_packed_bits`].
    pub fn to_packed_bits(&self) -> Result<(Vec<u8>, u64), Error> {
        packed::to_packed_bits(&self.literal, self.source)
    }

    /// As [`Literal::to_temporal_text`].
    ///
    /// # Errors
    ///
    /// [`Error::NotUtf8`] (4), and those of [`Literal::to_temporal_text`].
    pub fn to_temporal_text(&self) -> Result<Cow<'s, [u8]>, Error> {
        self.owned_text(TextQuestion::Temporal)
    }

    /// As [`Literal::read_str`].
    ///
    /// ```
    /// use valdrabus::{Kind, Literal};
    /// let mut name = b"before".to_vec();
    /// Literal::new(Kind::String, 1..8).in_bytes(b"\xFF'it''s'").read_str(&mut name)?;
    /// assert_eq!(name, b"it's");
    /// # Ok::<(), valdrabus::Error>(())
    /// ```
    ///
    /// # Errors
    ///
    /// [`Error::NotUtf8`] (4), and those of [`Literal::read_str`].
    pub fn read_str<'b>(&self, into: &'b mut Vec<u8>) -> Result<&'b [u8], Error> {
        self.read_str_in(Settings::STANDARD, into)
    }

    /// As [`Literal::read_str_in`].
    ///
    /// # Errors
    ///
    /// [`Error::NotUtf8`] (4), and those of [`Literal::read_str_in`].
    pub fn read_str_in<'b>(&self, settings: Settings, into: &'b mut Vec<u8>) -> Result<&'b [u8], Error> {
        let ask = |out: &mut [u8]| calls::as_str_in(&self.literal, self.source, settings, out);
        owned::replace(&self.literal, self.source, into, ask)
    }

    fn owned_text(&self, question: TextQuestion) -> Result<Cow<'s, [u8]>, Error> {
        let ask = |out: &mut [u8]| calls::text(question, &self.literal, self.source, out);
        owned::cow(Some(&self.literal), self.source, room::text(question, &self.literal), ask)
    }
}
