//! Radix numbers as decimal text, beside what Rust's own `i128` shows: in buffers of every length, from no bytes to some more than are needed.

mod common;

use common::{LENT, whole};
use valdrabus::*;

/// The answer, and the buffer behind the call.
type Asked = (Result<String, Error>, Vec<u8>);

fn asked(text: &str, len: usize) -> Asked {
    let mut out = vec![LENT; len];
    let answer = match whole(Kind::Integer, text).as_decimal_text(text, &mut out) {
        Ok(Text::Written(text)) => Ok(text.to_owned()),
        Ok(Text::Borrowed(part)) => panic!("{part} of {text} is borrowed"),
        Err(error) => Err(error),
    };
    (answer, out)
}

fn due(shown: &str, len: usize) -> Asked {
    match len.checked_sub(shown.len()) {
        Some(rest) => (Ok(shown.to_owned()), [shown.as_bytes(), &vec![LENT; rest]].concat()),
        None => (Err(Error::NoRoom { needed: shown.len() }), vec![LENT; len]),
    }
}

/// A number's literals in the three bases, a minus before the prefix or behind it. Before it the least number has none.
fn spelled(number: i128) -> Vec<String> {
    let size = number.unsigned_abs();
    let digits = [("0x", format!("{size:X}")), ("0o", format!("{size:o}")), ("0b", format!("{size:b}"))];
    let sign = if number < 0 { "-" } else { "" };
    let behind = digits.iter().map(|(prefix, digits)| format!("{prefix}{sign}{digits}"));
    let before = digits.iter().map(|(prefix, digits)| format!("{sign}{prefix}{digits}"));
    behind.chain(before.filter(|_| number < 0 && number != i128::MIN)).collect()
}

/// Powers of two and of ten with their neighbours, and the limits, with either sign.
fn numbers() -> Vec<i128> {
    let powers = (0..127).map(|n| 1 << n).chain((0..39).map(|n| 10_i128.pow(n)));
    let sizes = powers.flat_map(|power| [power - 1, power, power + 1]).chain([i128::MAX - 1, i128::MAX]);
    sizes.flat_map(|size| [size, -size]).chain([i128::MIN]).collect()
}

#[test]
fn numbers_in_buffers_of_every_length() {
    let mut lengths = [false; 41];
    for number in numbers() {
        let shown = number.to_string();
        lengths[shown.len()] = true;
        for text in spelled(number) {
            for len in 0..=shown.len() + 2 {
                assert_eq!(asked(&text, len), due(&shown, len), "{text} in {len} bytes");
            }
            assert_eq!(whole(Kind::Integer, &text).to_decimal_text(&text).as_deref(), Ok(&*shown), "{text}");
        }
    }
    assert!(lengths[1..].iter().all(|met| *met), "every printed length from 1 to 40");
}

/// Bits of any length, by a fixed sequence.
#[test]
fn many_numbers_in_four_buffers() {
    let mut state = 0x9E37_79B9_7F4A_7C15_u64;
    let mut next = || {
        state ^= state << 13;
        state ^= state >> 7;
        state ^= state << 17;
        state
    };
    for _ in 0..20_000 {
        let bits = u128::from(next()) << 64 | u128::from(next());
        let number = i128::from_ne_bytes(bits.to_ne_bytes()) >> (next() % 127);
        let shown = number.to_string();
        for text in spelled(number) {
            for len in [0, shown.len() - 1, shown.len(), shown.len() + 7] {
                assert_eq!(asked(&text, len), due(&shown, len), "{text} in {len} bytes");
            }
        }
    }
}

/// 5 before 9, and the buffer stays, whatever its length.
#[test]
fn numbers_just_outside() {
    let least = 1_u128 << 127;
    for text in [
        format!("0x{least:X}"),
        format!("-0x{least:X}"),
        format!("-0x-{least:X}"),
        format!("0x-{:X}", least + 1),
        format!("0o{least:o}"),
        format!("0b-{:b}", least + 1),
        format!("0x{:X}", u128::MAX),
        format!("0x1{:032X}", 0),
    ] {
        let error = Error::InvalidInteger { span: whole(Kind::Integer, &text).span };
        for len in 0..=42 {
            assert_eq!(asked(&text, len), (Err(error), vec![LENT; len]), "{text} in {len} bytes");
        }
    }
}
