//! Bit strings as packed bytes, and back.

use crate::calls;
use crate::errors::Error;
use crate::kinds::BitStringRadix;
use crate::literal::Literal;
use crate::said::Stands;
use std::fmt;

/// Flags and keys fit, so that most bit strings are packed by one call.
const SMALL: usize = 128;

/// A bit string's packed bytes, in the buffer that was lent, and how many bits they hold. [`Literal::as_packed_bits`] gives those of a literal.
///
/// The first bit is the top one, 80 hex, of the first byte; the unused low bits of the last byte are zero. A binary digit is one bit, a hex digit four.
///
/// ```
/// use valdrabus::{BitStringRadix, Kind, Literal};
///
/// let binary = Kind::BitString { radix: BitStringRadix::Binary };
/// let mut out = [0; 8];
/// let flags = Literal::new(binary, 0..10).as_packed_bits("B'1000001'", &mut out)?;
/// assert_eq!((flags.bytes(), flags.bits()), (&[0x82][..], 7));
/// # Ok::<(), valdrabus::Error>(())
/// ```
///
/// # Other packings
///
/// This crate needs none of these crates. Where `p` is packed bits, `bytes` and `n` its bytes and its bits, and `v` the other's bits:
///
/// | for | it is | and back |
/// |---|---|---|
/// | `bit-vec` | `BitVec::from_bytes(bytes)`, then `truncate(n as usize)` | `v.to_bytes()` and `v.len()` |
/// | `bitvec` | `&bytes.view_bits::<Msb0>()[..n as usize]` | of a `BitVec<u8, Msb0>`: `v.set_uninitialized(false)`, then `v.as_raw_slice()` and `v.len()` |
/// | PostgreSQL's binary form of `bit` and `varbit` | `n` in four bytes, the high one first, then `bytes` | what stands behind the four bytes, and their number |
/// | MySQL's `BIT` | filled up on the left and not on the right: all bits moved to the low end | moved to the high end |
///
/// So `B'1000001'` is 82 hex here and in the first two, 00 00 00 07 82 in PostgreSQL's form, and `b'1000001'` is 41 hex in MySQL.
#[derive(Clone, Copy, PartialEq, Eq, Hash)]
pub struct Packed<'b> {
    bytes: &'b [u8],
    bits: u64,
}

impl<'b> Packed<'b> {
    /// The packed bytes: the bit count divided by eight, rounded up, is how many they are.
    #[must_use]
    pub const fn bytes(self) -> &'b [u8] {
        self.bytes
    }

    /// How many bits they hold. A hex literal can have more than a `u32` counts.
    #[must_use]
    pub const fn bits(self) -> u64 {
        self.bits
    }

    /// The packed bits of a literal, or why it has none.
    pub(crate) fn of_literal(literal: &Literal, source: &[u8], out: &'b mut [u8]) -> Result<Packed<'b>, Error> {
        let (said, bits) = calls::as_packed_bits(literal, source, out);
        match said.stands(Some(literal))? {
            Stands::InBuffer(range) => Ok(Packed { bytes: out.get(range).ok_or(Error::BadNumber)?, bits }),
            Stands::InSource(_) => Err(Error::BadNumber),
        }
    }
}

/// The bytes in hex, and the bit count.
///
/// ```
/// use valdrabus::{BitStringRadix, Kind, Literal};
/// let hex = Kind::BitString { radix: BitStringRadix::Hex };
/// let mut out = [0; 8];
/// assert_eq!(format!("{:?}", Literal::new(hex, 0..6).as_packed_bits("X'1FA'", &mut out)?), "1FA0 of 12 bits");
/// # Ok::<(), valdrabus::Error>(())
/// ```
impl fmt::Debug for Packed<'_> {
    fn fmt(&self, f: &mut fmt::Formatter<'_>) -> fmt::Result {
        if self.bytes.is_empty() {
            return f.write_str("0 bits");
        }
        self.bytes.iter().try_for_each(|byte| write!(f, "{byte:02X}"))?;
        write!(f, " of {} bit{}", self.bits, if self.bits == 1 { "" } else { "s" })
    }
}

/// The same with memory of its own: asked with a small buffer, and once more with the length needed where that is too short.
pub(crate) fn to_packed_bits(literal: &Literal, source: &[u8]) -> Result<(Vec<u8>, u64), Error> {
    let mut small = [0; SMALL];
    let needed = match Packed::of_literal(literal, source, &mut small) {
        Err(Error::NoRoom { needed }) => needed,
        answer => return answer.map(|packed| (packed.bytes.to_vec(), packed.bits)),
    };
    let mut bytes = vec![0; needed];
    let Packed { bits, .. } = Packed::of_literal(literal, source, &mut bytes)?;
    Ok((bytes, bits))
}

/// Packed bytes and how many bits they hold as `B'..'` or `X'..'`, digits in upper case. Packed again as a literal of that kind, the text gives the bytes and the
/// count back; and a literal that is one segment, its letter in upper case and that of its kind, its digits in upper case, comes back as it was.
///
/// ```
/// use valdrabus::{BitStringRadix, Error, write_bit_literal};
/// let mut out = [0; 16];
/// assert_eq!(write_bit_literal([0x82], 7, BitStringRadix::Binary, &mut out)?, "B'1000001'");
/// assert_eq!(write_bit_literal([0x1F, 0xA0], 12, BitStringRadix::Hex, &mut out)?, "X'1FA'");
///
/// assert_eq!(write_bit_literal([0x82], 7, BitStringRadix::Hex, &mut out), Err(Error::BadBits));
/// assert_eq!(write_bit_literal([0x83], 7, BitStringRadix::Binary, &mut out), Err(Error::BadBits));
/// assert_eq!(write_bit_literal([0x82], 7, BitStringRadix::Binary, &mut out[..9]), Err(Error::NoRoom { needed: 10 }));
/// # Ok::<(), Error>(())
/// ```
///
/// # Errors
///
/// Tested in this order: [`Error::OverLimit`] (12), where the bytes are more than [`LONGEST_VALUE`](crate::LONGEST_VALUE); [`Error::BadBits`] (16), where they are not as many as the bits
/// take, where an unused bit is set, or where hex digits are asked of a count that is no multiple of four; [`Error::NoRoom`] (9).
pub fn write_bit_literal(
    bytes: impl AsRef<[u8]>,
    bits: u64,
    radix: BitStringRadix,
    out: &mut [u8],
) -> Result<&str, Error> {
    write(bytes.as_ref(), bits, radix, out)
}

/// As [`write_bit_literal`], into a text of its own.
///
/// ```
/// use valdrabus::{BitStringRadix, Kind, Literal, to_bit_literal};
///
/// let binary = Kind::BitString { radix: BitStringRadix::Binary };
/// let (mut bytes, bits) = Literal::new(binary, 0..10).to_packed_bits("B'1000001'")?;
/// bytes[0] |= 0x40;
/// assert_eq!(to_bit_literal(&bytes, bits, BitStringRadix::Binary)?, "B'1100001'");
/// # Ok::<(), valdrabus::Error>(())
/// ```
///
/// # Errors
///
/// [`Error::OverLimit`] (12), [`Error::BadBits`] (16), each as of [`write_bit_literal`].
pub fn to_bit_literal(bytes: impl AsRef<[u8]>, bits: u64, radix: BitStringRadix) -> Result<String, Error> {
    let bytes = bytes.as_ref();
    // No text has fewer than three bytes, so a call without a buffer gives the length needed, or the refusal.
    let needed = match write(bytes, bits, radix, &mut []) {
        Err(Error::NoRoom { needed }) => needed,
        other => return other.map(str::to_owned),
    };
    let mut buffer = vec![0; needed];
    write(bytes, bits, radix, &mut buffer)?;
    String::from_utf8(buffer).map_err(|_| Error::BadNumber)
}

fn write<'b>(bytes: &[u8], bits: u64, radix: BitStringRadix, out: &'b mut [u8]) -> Result<&'b str, Error> {
    let (number, len) = calls::write_bit_literal(bytes, bits, radix, out);
    if number != 0 {
        return Err(Error::of_bare(number, len));
    }
    out.get(..len).and_then(|text| std::str::from_utf8(text).ok()).ok_or(Error::BadNumber)
}
