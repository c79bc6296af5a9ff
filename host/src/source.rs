//! What a literal can stand in: text, or bytes that may not all be text.

use std::mem;
use std::ops::Range;

/// A source, and how its parts and what is written for it are shown. Blocks are of either form, so their methods name it; no other crate can.
pub trait Source: ToOwned + 'static {
    fn bytes(&self) -> &[u8];

    /// A part; none where the range does not fit.
    fn part(&self, range: Range<usize>) -> Option<&Self>;

    /// Bytes of the buffer as a text of this form; none where they are not one.
    fn shown(written: &[u8]) -> Option<&Self>;

    /// The same of bytes that have memory of their own.
    fn owned(written: Vec<u8>) -> Option<Self::Owned>;

    /// The bytes of a text that is left empty, with all of its memory.
    fn taken(owned: &mut Self::Owned) -> Vec<u8>;
}

impl Source for str {
    fn bytes(&self) -> &[u8] {
        self.as_bytes()
    }

    fn part(&self, range: Range<usize>) -> Option<&str> {
        self.get(range)
    }

    fn shown(written: &[u8]) -> Option<&str> {
        std::str::from_utf8(written).ok()
    }

    fn owned(written: Vec<u8>) -> Option<String> {
        String::from_utf8(written).ok()
    }

    fn taken(owned: &mut String) -> Vec<u8> {
        mem::take(owned).into_bytes()
    }
}

impl Source for [u8] {
    fn bytes(&self) -> &[u8] {
        self
    }

    fn part(&self, range: Range<usize>) -> Option<&[u8]> {
        self.get(range)
    }

    fn shown(written: &[u8]) -> Option<&[u8]> {
        Some(written)
    }

    fn owned(written: Vec<u8>) -> Option<Vec<u8>> {
        Some(written)
    }

    fn taken(owned: &mut Vec<u8>) -> Vec<u8> {
        mem::take(owned)
    }
}
