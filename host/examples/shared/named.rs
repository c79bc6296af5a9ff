//! The rows of a list of products by name: on each line a name, a tab and a literal.

use crate::lines::lines;
use crate::marked::{SHOWN, left_out, marked};
use std::borrow::Cow;
use std::ops::Range;
use valdrabus::Span;

/// A row: its line, counted from 1, the product's name, and where its literal stands in the list. Without a tab it has no literal, and is a name alone.
pub struct Named<'s> {
    pub line: usize,
    pub name: Cow<'s, str>,
    pub literal: Option<Span>,
}

/// A name as it is shown beside a refusal: of a long one, which can be a whole row without a tab, the beginning.
pub fn shortened(name: &str) -> String {
    let end = name.char_indices().nth(SHOWN).map_or(name.len(), |(at, _)| at);
    marked(&name.as_bytes()[..end]) + left_out(end < name.len())
}

/// Finds each row; none where the list is longer than a span can say. A name that is not UTF-8 is shown as far as it is.
pub fn named(list: &[u8]) -> Option<Vec<Named<'_>>> {
    let rows = lines(list).enumerate().filter(|(_, line)| is_row(&list[line.clone()]));
    rows.map(|(at, line)| row(list, at + 1, line)).collect()
}

/// Whether a line is a row: neither blank nor a comment, which can have blanks before it. No comment is a setting here, whatever it says.
fn is_row(line: &[u8]) -> bool {
    let text = line.trim_ascii();
    !text.is_empty() && !text.starts_with(b"--")
}

/// The row that stands at these bytes of the list. The first tab ends the name.
fn row(list: &[u8], line: usize, bytes: Range<usize>) -> Option<Named<'_>> {
    let text = &list[bytes.clone()];
    let Some(tab) = text.iter().position(|&byte| byte == b'\t') else {
        return Some(Named { line, name: String::from_utf8_lossy(text), literal: None });
    };
    let literal = Some(Span::try_from(bytes.start + tab + 1..bytes.end).ok()?);
    Some(Named { line, name: String::from_utf8_lossy(&text[..tab]), literal })
}
