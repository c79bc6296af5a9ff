//! A row that is refused, with a mark under the place where it cannot be read.

use crate::marked::{SHOWN, by_number, left_out, marked};
use valdrabus::Error;

/// The byte of a refused row that cannot be read: where reading stops, or in a row that is not UTF-8 the first one that UTF-8 does not allow there.
pub fn place(row: &[u8], error: &Error) -> Option<usize> {
    match std::str::from_utf8(row) {
        Ok(_) => error.place(),
        Err(broken) => Some(broken.valid_up_to()),
    }
}

/// Two lines more for a refused row: what stands at the place and around it, and a mark under the character, or byte, at the place. None where there is no
/// such place.
pub fn pointed_out(row: &[u8], error: &Error) -> Option<String> {
    let place = place(row, error)?;
    let (before, behind) = match std::str::from_utf8(row) {
        Ok(text) => by_characters(text, place)?,
        Err(_) => by_bytes(row, place)?,
    };
    let blanks = " ".repeat(before.chars().count());
    Some(format!("\n{:8}{before}{behind}\n{:8}{blanks}^", "", ""))
}

/// What is shown before the place, and from it on.
fn by_characters(row: &str, place: usize) -> Option<(String, String)> {
    let (before, behind) = row.split_at_checked(place)?;
    let from = before.char_indices().nth_back(SHOWN - 1).map_or(0, |(at, _)| at);
    let to = behind.char_indices().nth(SHOWN).map_or(behind.len(), |(at, _)| at);
    let before = left_out(from > 0).to_owned() + &marked(&before.as_bytes()[from..]);
    let behind = marked(&behind.as_bytes()[..to]) + left_out(to < behind.len());
    Some((before, behind))
}

/// The same of a row that is not UTF-8: there bytes are counted, since it has no characters to count.
fn by_bytes(row: &[u8], place: usize) -> Option<(String, String)> {
    let (before, behind) = row.split_at_checked(place)?;
    let (from, to) = (before.len().saturating_sub(SHOWN), behind.len().min(SHOWN));
    let before = left_out(from > 0).to_owned() + &marked_bytes(&before[from..]);
    let behind = marked_bytes(&behind[..to]) + left_out(to < behind.len());
    Some((before, behind))
}

/// A text that is not UTF-8, byte by byte: those of ASCII that are no control characters as they are, all others by their numbers.
fn marked_bytes(text: &[u8]) -> String {
    let mut shown = String::new();
    for &byte in text {
        if matches!(byte, b' '..=b'~') {
            shown.push(char::from(byte));
        } else {
            by_number(&mut shown, u32::from(byte));
        }
    }
    shown
}
