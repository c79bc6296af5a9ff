//! Texts as they can stand in a line, whatever they hold: a terminal obeys control characters.

use std::ffi::OsStr;
use std::fmt::Write;

/// How many characters are shown of a text, or on each side of a place in it, where the whole may be long: a terminal's line holds them.
pub const SHOWN: usize = 40;

/// Control characters by their numbers, between marks. The opening mark is shown so too, so that no two texts look alike.
pub fn marked(text: &[u8]) -> String {
    let mut shown = String::new();
    for next in String::from_utf8_lossy(text).chars() {
        if next.is_control() || next == '‹' {
            by_number(&mut shown, u32::from(next));
        } else {
            shown.push(next);
        }
    }
    shown
}

/// A word of the command line, or a file's name, likewise: what stands there need not be what its user typed.
pub fn word(word: impl AsRef<OsStr>) -> String {
    marked(word.as_ref().as_encoded_bytes())
}

pub fn by_number(shown: &mut String, number: u32) {
    write!(shown, "‹{number:02X}›").expect("a String takes all");
}

/// What stands for characters that are left out.
pub fn left_out(some: bool) -> &'static str {
    if some { "…" } else { "" }
}
