//! Bit strings packed by ours, and in the plain way: the Rust original gives their digits, and a caller packs these by hand. Packed bytes written back by ours, and
//! by a loop that pushes into a `String`.

use crate::asking::Side;
use crate::cases::{Base, Case, Place};
use original::ast::literal::Literal;
use std::hint::black_box;
use std::str::from_utf8;
use valdrabus::sys;

/// Packed bytes, and how many bits they hold.
pub type Packed = (Vec<u8>, u64);

/// The packed bits of each literal of the case, once, shown with their count. Ours writes into the buffer, the plain way allocates.
pub fn each_packed(case: &Case, base: Base, sides: &Sides, out: &mut [u8], shown: impl FnMut(&[u8], u64)) {
    match sides {
        Sides::Ours => ours(case, base, out, shown),
        Sides::Rust(alone) => by_hand(case, base, alone, true, shown),
        Sides::RustStr(within) => by_hand(case, base, within, false, shown),
    }
}

/// A side with its literals: each in a text of its own where it has bytes, else in the source.
pub enum Sides<'l> {
    Ours,
    Rust(&'l [Literal]),
    RustStr(&'l [Literal]),
}

fn ours(case: &Case, base: Base, out: &mut [u8], mut shown: impl FnMut(&[u8], u64)) {
    let (mut bits, mut how, mut first, mut second) = (0, 0, 0, 0);
    let (from, long, to, room) = (case.source.as_ptr(), case.source.len(), out.as_mut_ptr(), out.len());
    for &Place { start, end, .. } in black_box(&case.places) {
        let (bits_to, how_to, first_to, second_to) = (&raw mut bits, &raw mut how, &raw mut first, &raw mut second);
        // SAFETY: source and buffer are valid for their lengths; the numbers are ours alone.
        let number = unsafe {
            sys::valdrabus_as_packed_bits(
                base.kind(),
                0,
                start,
                end,
                from,
                long,
                to,
                room,
                bits_to,
                how_to,
                first_to,
                second_to,
            )
        };
        assert!(number == 0, "refused by {number}");
        shown(&out[..second], bits);
    }
}

fn by_hand(case: &Case, base: Base, literals: &[Literal], in_bytes: bool, mut shown: impl FnMut(&[u8], u64)) {
    let source = case.source.as_bytes();
    for (literal, &Place { start, end, .. }) in black_box(literals).iter().zip(&case.places) {
        let text = if in_bytes {
            from_utf8(black_box(&source[start as usize..end as usize])).expect("UTF-8")
        } else {
            &case.source
        };
        let (bytes, bits) = pack(&literal.as_bit_text(text).expect("digits"), base.bits());
        shown(&bytes, bits);
    }
}

/// The digits of so many bits each, packed.
fn pack(digits: &str, per: u32) -> Packed {
    let bits = digits.len() as u64 * u64::from(per);
    let mut bytes = Vec::with_capacity(bits.div_ceil(8) as usize);
    let (mut byte, mut held) = (0, 0);
    for digit in digits.chars() {
        byte = byte << per | digit.to_digit(16).expect("a digit");
        held += per;
        if held == 8 {
            bytes.push(byte as u8);
            (byte, held) = (0, 0);
        }
    }
    if held > 0 {
        bytes.push((byte << (8 - held)) as u8);
    }
    (bytes, bits)
}

/// Writes each of these back once, and shows the text. Ours writes into the buffer, the loop allocates.
pub fn each_written(packed: &[Packed], base: Base, side: Side, out: &mut [u8], mut shown: impl FnMut(&[u8])) {
    for (bytes, bits) in black_box(packed) {
        if side != Side::Ours {
            shown(written(bytes, *bits, base).expect("packed bits").as_bytes());
            continue;
        }
        let mut len = 0;
        let (from, long, to, room) = (bytes.as_ptr(), bytes.len(), out.as_mut_ptr(), out.len());
        // SAFETY: bytes and buffer are valid for their lengths; the length is ours alone.
        let number =
            unsafe { sys::valdrabus_write_bit_literal(from, long, *bits, base.kind(), to, room, &raw mut len) };
        assert!(number == 0, "refused by {number}");
        shown(&out[..len]);
    }
}

/// Refuses what ours refuses by 16.
fn written(bytes: &[u8], bits: u64, base: Base) -> Option<String> {
    let (per, unused) = (base.bits(), (8 * bytes.len() as u64).checked_sub(bits)?);
    let last = bytes.last().map_or(0, |byte| u32::from(*byte));
    if unused > 7 || !bits.is_multiple_of(per.into()) || last & ((1 << unused) - 1) != 0 {
        return None;
    }
    let digits = bits as usize / per as usize;
    let mut text = String::with_capacity(digits + 3);
    text.push_str(base.opening());
    for at in 0..digits {
        let from = at * per as usize;
        let digit = u32::from(bytes[from / 8]) >> (8 - per - from as u32 % 8) & ((1 << per) - 1);
        text.push(char::from(b"0123456789ABCDEF"[digit as usize]));
    }
    text.push('\'');
    Some(text)
}
