//! Values written as literals by ours, and by loops that push into a `String` character by character: the Rust original has no writer.

use crate::asking::Side;
use crate::cases::{Case, Place, Spelling};
use std::hint::black_box;
use std::str::from_utf8;
use valdrabus::sys;

/// The most bytes that a value of a length can become in any spelling.
pub fn most(value: usize) -> usize {
    5 * value + 4
}

/// Writes every value of the case once, and shows each text. Ours writes into the buffer, the loops allocate.
pub fn each(case: &Case, spelling: Spelling, side: Side, out: &mut [u8], shown: impl FnMut(&[u8])) {
    match side {
        Side::Ours => ours(case, spelling, out, shown),
        Side::Rust => looped(case, spelling, |value| from_utf8(value.as_bytes()).expect("UTF-8"), shown),
        Side::RustStr => looped(case, spelling, |value| value, shown),
    }
}

fn ours(case: &Case, spelling: Spelling, out: &mut [u8], mut shown: impl FnMut(&[u8])) {
    let (to, room) = (out.as_mut_ptr(), out.len());
    for &Place { start, end, setting } in black_box(&case.places) {
        let value = black_box(&case.source.as_bytes()[start as usize..end as usize]);
        let (from, long, mut len) = (value.as_ptr(), value.len(), 0);
        // SAFETY: value and buffer are valid for their lengths; the length is ours alone.
        let number = unsafe {
            match spelling {
                Spelling::Plain => sys::valdrabus_write_literal(from, long, setting, to, room, &raw mut len),
                Spelling::Escape => sys::valdrabus_write_escape(from, long, to, room, &raw mut len),
                Spelling::Unicode => sys::valdrabus_write_unicode(from, long, to, room, &raw mut len),
            }
        };
        assert!(number == 0, "refused by {number}");
        shown(&out[..len]);
    }
}

/// `text` makes a `str` of a value: by `from_utf8` where the side has bytes.
fn looped(case: &Case, spelling: Spelling, text: impl Fn(&str) -> &str, mut shown: impl FnMut(&[u8])) {
    for &Place { start, end, .. } in black_box(&case.places) {
        let value = text(black_box(&case.source[start as usize..end as usize]));
        let written = match spelling {
            Spelling::Plain => plain(value),
            Spelling::Escape => escape(value),
            Spelling::Unicode => unicode(value),
        };
        shown(written.expect("no NUL").as_bytes());
    }
}

// The loops refuse NUL, as ours does.

fn plain(value: &str) -> Option<String> {
    let mut text = opened("'", value);
    for character in value.chars() {
        match character {
            '\0' => return None,
            '\'' => text.push_str("''"),
            _ => text.push(character),
        }
    }
    text.push('\'');
    Some(text)
}

fn escape(value: &str) -> Option<String> {
    let mut text = opened("E'", value);
    for character in value.chars() {
        match character {
            '\0' => return None,
            '\'' => text.push_str("''"),
            '\\' => text.push_str("\\\\"),
            '\x08' => text.push_str("\\b"),
            '\x0C' => text.push_str("\\f"),
            '\n' => text.push_str("\\n"),
            '\r' => text.push_str("\\r"),
            '\t' => text.push_str("\\t"),
            '\x01'..='\x1F' => {
                text.push('\\');
                push_digits(&mut text, character, 3, 3);
            }
            _ => text.push(character),
        }
    }
    text.push('\'');
    Some(text)
}

fn unicode(value: &str) -> Option<String> {
    let mut text = opened("U&'", value);
    for character in value.chars() {
        match character {
            '\0' => return None,
            '\'' => text.push_str("''"),
            '\\' => text.push_str("\\\\"),
            ' '..='~' => text.push(character),
            '\x01'..='\u{FFFF}' => {
                text.push('\\');
                push_digits(&mut text, character, 4, 4);
            }
            _ => {
                text.push_str("\\+");
                push_digits(&mut text, character, 4, 6);
            }
        }
    }
    text.push('\'');
    Some(text)
}

/// Room for a value that needs no escape.
fn opened(opening: &str, value: &str) -> String {
    let mut text = String::with_capacity(opening.len() + value.len() + 1);
    text.push_str(opening);
    text
}

/// A character's number by so many digits of so many bits.
#[inline]
fn push_digits(text: &mut String, character: char, bits: u32, digits: u32) {
    for at in (0..digits).rev() {
        let digit = u32::from(character) >> (at * bits) & ((1 << bits) - 1);
        text.push(char::from(b"0123456789ABCDEF"[digit as usize]));
    }
}
