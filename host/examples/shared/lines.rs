//! The lines of a list. They end with LF, CR LF or CR alone: a file of CR alone would be one line else, and its literals would be joined in silence.

use std::ops::Range;

/// What some editors put before a text: U+FEFF in UTF-8.
const BYTE_ORDER_MARK: &[u8] = b"\xEF\xBB\xBF";

/// Where each line stands, its end left out; the last one needs no end. A byte order mark at the list's start is passed over. Places count from the list's
/// start, the mark included, so that they are those of the file.
pub fn lines(list: &[u8]) -> impl Iterator<Item = Range<usize>> {
    let mut at = if list.starts_with(BYTE_ORDER_MARK) { BYTE_ORDER_MARK.len() } else { 0 };
    std::iter::from_fn(move || {
        let rest = list.get(at..).filter(|rest| !rest.is_empty())?;
        let len = rest.iter().position(|byte| matches!(byte, b'\n' | b'\r')).unwrap_or(rest.len());
        let line = at..at + len;
        at = line.end + end_len(&rest[len..]);
        Some(line)
    })
}

/// How many bytes the line end has that stands here.
fn end_len(rest: &[u8]) -> usize {
    match rest {
        [] => 0,
        [b'\r', b'\n', ..] => 2,
        _ => 1,
    }
}
