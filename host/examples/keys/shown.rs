//! Keys and literals as they can stand in a line.

use crate::marked::marked;
use valdrabus::{to_escape, to_unicode};

/// How keys are shown.
#[derive(Clone, Copy, Debug, PartialEq, Eq)]
pub enum Look {
    /// As they are, control characters by their numbers, between marks.
    Marked,
    /// As `E'..'`; as `U&'..'` where that would leave a control character as it is.
    Escape,
    /// As `U&'..'`.
    Unicode,
}

/// A key as it can stand in a line. One that cannot be spelled is marked, behind words that no literal begins with: no two keys are shown by the same text.
pub fn shown(key: &[u8], look: Look) -> String {
    match look {
        Look::Marked => marked(key),
        Look::Escape | Look::Unicode => spelled(key, look).unwrap_or_else(|| format!("no literal: {}", marked(key))),
    }
}

/// A key as a literal; none where it holds a NUL, or nothing is to be spelled.
pub fn spelled(key: &[u8], look: Look) -> Option<String> {
    match look {
        Look::Marked => None,
        Look::Escape if !leaves_control(key) => to_escape(key).ok(),
        Look::Escape | Look::Unicode => to_unicode(key).ok(),
    }
}

/// Whether a key holds a control character that E leaves as it is: 7F to 9F hex.
fn leaves_control(key: &[u8]) -> bool {
    String::from_utf8_lossy(key).chars().any(|next| next.is_control() && next >= '\x7F')
}
