//! Packed bits. The Rust knows the digits of a bit string and no bytes: what its digits are due is put together here, bit by bit, and so is the literal of bytes and
//! a bit count, which the Rust has to read back.

use crate::comparing::{Comparing, Difference, Outcome, hex};
use crate::question::{Asked, NO_ROOM, Question, Said};
use crate::tally::{Row, writer_outcome};
use crate::writer::MOST;
use crate::{ours, rust};
use std::str::from_utf8;

pub const BINARY: u32 = 12;
pub const HEX: u32 = 13;

/// Bytes and a bit count to write as a literal of a kind.
#[derive(Debug)]
pub struct BitWriting<'a> {
    pub bytes: &'a [u8],
    pub bits: u64,
    pub kind: u32,
}

/// What the packed question is due, where the Rust's bits question says this of the literal.
pub fn of_bits(asked: &Asked, said: Said, source: &str) -> Said {
    let bits = match &said {
        Said::Borrowed(first, second) => bits_in(asked.kind, &source.as_bytes()[*first..*second]),
        Said::Written(digits) => bits_in(asked.kind, digits),
        _ => return said,
    };
    let count = bits.len() as u64;
    Said::Packed(bits.chunks(8).map(byte_of).collect(), count)
}

/// The bits of digits, the high one of each first: one of a binary digit, four of a hex one.
fn bits_in(kind: u32, digits: &[u8]) -> Vec<bool> {
    let value = |digit: u8| char::from(digit).to_digit(16).expect("a digit");
    digits.iter().flat_map(|&digit| (0..per_digit(kind)).rev().map(move |at| value(digit) >> at & 1 == 1)).collect()
}

/// Up to eight bits from the top of a byte on.
fn byte_of(bits: &[bool]) -> u8 {
    bits.iter().zip([128, 64, 32, 16, 8, 4, 2, 1]).filter(|(bit, _)| **bit).map(|(_, value)| value).sum()
}

fn per_digit(kind: u32) -> usize {
    if kind == BINARY { 1 } else { 4 }
}

impl BitWriting<'_> {
    /// The text that is due, or the refusal's number: 10, then 12 and 16.
    fn due(&self) -> Result<Vec<u8>, u32> {
        let letter = match self.kind {
            BINARY => "B'",
            HEX => "X'",
            _ => return Err(10),
        };
        if self.bytes.len() > MOST {
            return Err(12);
        }
        let bits: Vec<bool> =
            self.bytes.iter().flat_map(|byte| (0..8).rev().map(move |at| byte >> at & 1 == 1)).collect();
        let (all, per) = (bits.len() as u64, per_digit(self.kind));
        if all < self.bits || all - self.bits >= 8 {
            return Err(16);
        }
        let (used, unused) = bits.split_at(self.bits as usize);
        if used.len() % per != 0 || unused.contains(&true) {
            return Err(16);
        }
        let digits: String = used.chunks(per).map(|bits| format!("{:X}", byte_of(bits) >> (8 - per))).collect();
        Ok([letter, &digits, "'"].concat().into_bytes())
    }
}

impl Comparing {
    /// What was packed is written with either letter, as far as its count allows.
    pub fn packed(&mut self, said: &Said) -> Outcome {
        let Said::Packed(bytes, bits) = said else { return Ok(()) };
        [BINARY, HEX].iter().try_for_each(|&kind| self.write_bits(&BitWriting { bytes, bits: *bits, kind }))
    }

    /// Writes with buffers empty, one short, exact and long; then both read what is due back.
    pub fn write_bits(&mut self, writing: &BitWriting<'_>) -> Outcome {
        let long = self.rng.within(1, 40);
        let text = match writing.due() {
            Err(number) => {
                return [0, long].iter().try_for_each(|&room| self.write_bits_with(writing, number, &[], room));
            }
            Ok(text) => text,
        };
        for room in [0, text.len() - 1, text.len(), text.len() + long] {
            let number = if text.len() <= room { 0 } else { NO_ROOM };
            self.write_bits_with(writing, number, &text, room)?;
        }
        self.read_bits_back(writing, &text)
    }

    fn write_bits_with(&mut self, writing: &BitWriting<'_>, number: u32, text: &[u8], room: usize) -> Outcome {
        let told = ours::bit_literal(writing, self.lent.out(room));
        let due = (number, text.len());
        let written = if number == 0 { text } else { &[] };
        if told != due || !self.lent.holds_only(written, room) {
            let due = format!("{due:?} {}", hex(text));
            return Err(self.bits_difference("written", writing, room, due, format!("{told:?}")));
        }
        self.tally.count(Row::BitLiteral, writer_outcome(number));
        Ok(())
    }

    /// The Rust's digits of a written literal have to be the bytes and the count; so has what ours says of it.
    fn read_bits_back(&mut self, writing: &BitWriting<'_>, text: &[u8]) -> Outcome {
        let (question, kind, end) = (Question::Packed, writing.kind, text.len() as u32);
        let asked = Asked { question, kind, synthetic: 0, start: 0, end, setting: 0, variety: 0 };
        let (said, due) =
            (rust::said(&asked, from_utf8(text).expect("UTF-8")), Said::Packed(writing.bytes.into(), writing.bits));
        if said != due {
            return Err(self.bits_difference("read back", writing, 0, format!("{due:?}"), format!("{said:?}")));
        }
        self.answered(&asked, text).map(drop)
    }

    fn bits_difference(
        &mut self,
        what: &str,
        writing: &BitWriting<'_>,
        room: usize,
        due: String,
        told: String,
    ) -> Box<Difference> {
        let what = format!("bits {} of kind {}: {what}", writing.bits, writing.kind);
        let (before, after) = self.lent.both(room);
        let (before, after) = (before.to_vec(), after.to_vec());
        self.lent.refill();
        Box::new(Difference { what, asked: None, source: writing.bytes.to_vec(), room, due, told, before, after })
    }
}

#[cfg(test)]
mod tests {
    use super::*;

    fn packed(kind: u32, digits: &str) -> Said {
        let question = Question::Packed;
        let asked = Asked { question, kind, synthetic: 0, start: 0, end: 0, setting: 0, variety: 0 };
        of_bits(&asked, Said::Written(digits.into()), "")
    }

    /// Facts of request T-07's tables.
    #[test]
    fn digits_are_packed() {
        for (kind, digits, bytes, bits) in [
            (BINARY, "", &b""[..], 0),
            (BINARY, "1", b"\x80", 1),
            (BINARY, "01", b"\x40", 2),
            (BINARY, "1111111", b"\xFE", 7),
            (BINARY, "100000001", b"\x80\x80", 9),
            (HEX, "1", b"\x10", 4),
            (HEX, "1fA", b"\x1F\xA0", 12),
            (HEX, "DEADBEEF", b"\xDE\xAD\xBE\xEF", 32),
        ] {
            assert_eq!(packed(kind, digits), Said::Packed(bytes.into(), bits), "{digits}");
        }
    }

    #[test]
    fn bytes_are_written() {
        let due = |bytes: &[u8], bits, kind| BitWriting { bytes, bits, kind }.due();
        for (bytes, bits, kind, text) in [
            (&b""[..], 0, BINARY, "B''"),
            (b"", 0, HEX, "X''"),
            (b"\x80", 1, BINARY, "B'1'"),
            (b"\xAB\xC0", 12, HEX, "X'ABC'"),
            (b"\xAB\xC0", 12, BINARY, "B'101010111100'"),
            (b"\xFF\xFE", 16, HEX, "X'FFFE'"),
        ] {
            assert_eq!(due(bytes, bits, kind), Ok(text.into()), "{text}");
        }
        for (bytes, bits, kind, number) in [
            (&b"\x80"[..], 0, BINARY, 16),
            (b"", 1, BINARY, 16),
            (b"\x80", 9, BINARY, 16),
            (b"\x80", 1, HEX, 16),
            (b"\x81", 7, BINARY, 16),
            (b"\xF8", 4, HEX, 16),
            (b"", u64::MAX, BINARY, 16),
            (b"", 0, 11, 10),
        ] {
            assert_eq!(due(bytes, bits, kind), Err(number), "{bits} bits of {bytes:?}");
        }
    }
}
