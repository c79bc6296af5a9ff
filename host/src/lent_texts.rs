//! The questions whose answers are texts or packed bits, into a lent buffer.

use crate::calls::{self, TextQuestion};
use crate::errors::Error;
use crate::literal::Literal;
use crate::packed::Packed;
use crate::settings::Settings;
use crate::texts::Text;

/// Texts and packed bits, into a lent buffer.
impl Literal {
    /// What a string literal means, with backslash escapes off.
    ///
    /// A buffer as long as the literal's text always has room, and two bytes less suffice: no value is longer than that, whatever the spelling. So a row of a dump is read into a buffer as
    /// long as the row, and nobody asks for a length first.
    ///
    /// ```
    /// use valdrabus::{Error, Kind, Literal};
    /// let source = "'Paracetamol' ' 500 mg'";
    /// let literal = Literal::whole(Kind::String, source).unwrap();
    ///
    /// let mut out = vec![0; source.len()];
    /// assert_eq!(literal.as_str(source, &mut out)?, "Paracetamol 500 mg");
    ///
    /// assert_eq!(literal.as_str(source, &mut out[..18])?, "Paracetamol 500 mg");
    /// assert_eq!(literal.as_str(source, &mut out[..17]), Err(Error::NoRoom { needed: 18 }));
    /// # Ok::<(), valdrabus::Error>(())
    /// ```
    ///
    /// # Errors
    ///
    /// [`Error::WrongKind`] (1), [`Error::MissingSource`] (2), [`Error::InvalidSourceRange`] (3), [`Error::InvalidString`] (6) with its [place](Error::place), [`Error::NoRoom`] (9).
    pub fn as_str<'s, 'b>(&self, source: &'s str, out: &'b mut [u8]) -> Result<Text<'s, 'b>, Error> {
        self.as_str_in(source, Settings::STANDARD, out)
    }

    /// What a string literal means at a setting. At each, a buffer as long as the literal's text always has room, and two bytes less suffice.
    ///
    /// ```
    /// use valdrabus::{Kind, Literal, Settings};
    /// let source = r"'5\'6'";
    /// let literal = Literal::whole(Kind::String, source).unwrap();
    /// let mut out = vec![0; source.len()];
    /// assert_eq!(literal.as_str_in(source, Settings::MYSQL, &mut out)?, "5'6");
    ///
    /// let refused = literal.as_str_in(source, Settings::STANDARD, &mut out).unwrap_err();
    /// assert_eq!((refused.number(), refused.place()), (6, Some(3)));
    /// # Ok::<(), valdrabus::Error>(())
    /// ```
    ///
    /// # Errors
    ///
    /// [`Error::WrongKind`] (1), [`Error::MissingSource`] (2), [`Error::InvalidSourceRange`] (3), [`Error::InvalidString`] (6) with its [place](Error::place), [`Error::NoRoom`] (9).
    pub fn as_str_in<'s, 'b>(
        &self,
        source: &'s str,
        settings: Settings,
        out: &'b mut [u8],
    ) -> Result<Text<'s, 'b>, Error> {
        calls::as_str_in(self, source.as_bytes(), settings, out).text(Some(self), source, out)
    }

    /// A number's decimal text: in base ten its own without `_`, otherwise unchecked; behind a radix prefix the value, printed. 40 bytes hold every printed
    /// value, and a buffer of at least 40 that is as long as the literal's text always has room.
    ///
    /// ```
    /// use valdrabus::{Kind, Literal, Text};
    /// let mut out = [0; 40];
    /// let float = Literal::new(Kind::Float, 0..5).as_decimal_text("1.5e3", &mut out)?;
    /// assert!(matches!(float, Text::Borrowed("1.5e3")));
    /// let integer = Literal::new(Kind::Integer, 0..4).as_decimal_text("0x1F", &mut out)?;
    /// assert!(matches!(integer, Text::Written("31")));
    /// # Ok::<(), valdrabus::Error>(())
    /// ```
    ///
    /// # Errors
    ///
    /// [`Error::WrongKind`] (1), [`Error::MissingSource`] (2), [`Error::InvalidSourceRange`] (3), [`Error::InvalidInteger`] (5), [`Error::NoRoom`] (9).
    pub fn as_decimal_text<'s, 'b>(&self, source: &'s str, out: &'b mut [u8]) -> Result<Text<'s, 'b>, Error> {
        self.text(TextQuestion::Decimal, source, out)
    }

    /// A bit string's digits. A buffer as long as the literal's text always has room.
    ///
    /// ```
    /// use valdrabus::{BitStringRadix, Kind, Literal};
    /// let kind = Kind::BitString { radix: BitStringRadix::Hex };
    /// let mut out = [0; 8];
    /// assert_eq!(Literal::new(kind, 0..5).as_bit_text("X'1F'", &mut out)?, "1F");
    /// # Ok::<(), valdrabus::Error>(())
    /// ```
    ///
    /// # Errors
    ///
    /// [`Error::WrongKind`] (1), [`Error::MissingSource`] (2), [`Error::InvalidSourceRange`] (3), [`Error::InvalidBitString`] (7), [`Error::NoRoom`] (9).
    pub fn as_bit_text<'s, 'b>(&self, source: &'s str, out: &'b mut [u8]) -> Result<Text<'s, 'b>, Error> {
        self.text(TextQuestion::Bits, source, out)
    }

    /// A bit string's bits, packed: eight to a byte, the first bit the top one of the first byte, and how many they are. The digits are those of
    /// [`as_bit_text`](Literal::as_bit_text), of all segments in one run; how many bits each is goes by the kind, not by the letter. They are always written, and
    /// half of the literal's bytes is room enough, since a digit is half a byte at the most.
    ///
    /// ```
    /// use valdrabus::{BitStringRadix, Error, Kind, Literal};
    /// let row = "(12, B'1010' '0000' '11', X'dead')";
    /// let flags = Literal::new(Kind::BitString { radix: BitStringRadix::Binary }, 5..24);
    /// let key = Literal::new(Kind::BitString { radix: BitStringRadix::Hex }, 26..33);
    ///
    /// let mut out = [0; 2];
    /// let packed = flags.as_packed_bits(row, &mut out)?;
    /// assert_eq!((packed.bytes(), packed.bits()), (&[0b1010_0000, 0b1100_0000][..], 10));
    /// let packed = key.as_packed_bits(row, &mut out)?;
    /// assert_eq!((packed.bytes(), packed.bits()), (&[0xDE, 0xAD][..], 16));
    ///
    /// assert_eq!(flags.as_packed_bits(row, &mut out[..1]), Err(Error::NoRoom { needed: 2 }));
    /// # Ok::<(), valdrabus::Error>(())
    /// ```
    ///
    /// # Errors
    ///
    /// [`Error::WrongKind`] (1), [`Error::MissingSource`] (2), [`Error::InvalidSourceRange`] (3), [`Error::InvalidBitString`] (7), [`Error::NoRoom`] (9), whose length counts packed
    /// bytes.
    pub fn as_packed_bits<'b>(&self, source: &str, out: &'b mut [u8]) -> Result<Packed<'b>, Error> {
        Packed::of_literal(self, source.as_bytes(), out)
    }

    /// What the quoted token of a date, time, timestamp or interval means, with backslash escapes off. A buffer as long as the literal's text always has room.
    ///
    /// ```
    /// use valdrabus::{Kind, Literal};
    /// let mut out = [0; 16];
    /// let expiry = Literal::new(Kind::Date, 0..17);
    /// assert_eq!(expiry.as_temporal_text("DATE '2027-01-31'", &mut out)?, "2027-01-31");
    /// # Ok::<(), valdrabus::Error>(())
    /// ```
    ///
    /// # Errors
    ///
    /// [`Error::WrongKind`] (1), [`Error::MissingSource`] (2), [`Error::InvalidSourceRange`] (3), [`Error::InvalidString`] (6) with its [place](Error::place), [`Error::NoRoom`] (9).
    pub fn as_temporal_text<'s, 'b>(&self, source: &'s str, out: &'b mut [u8]) -> Result<Text<'s, 'b>, Error> {
        self.text(TextQuestion::Temporal, source, out)
    }

    fn text<'s, 'b>(&self, question: TextQuestion, source: &'s str, out: &'b mut [u8]) -> Result<Text<'s, 'b>, Error> {
        calls::text(question, self, source.as_bytes(), out).text(Some(self), source, out)
    }
}
