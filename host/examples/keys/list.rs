//! The rows of a list, decoded.

use crate::places::{Place, places};
use std::borrow::Cow;
use valdrabus::{Error, Kind, Literal, Settings};

/// A list's name, as it was given, and its rows.
pub struct List<'s> {
    pub name: String,
    pub rows: Vec<Row<'s>>,
}

/// What a literal decodes to.
pub type Key<'s> = Result<Cow<'s, [u8]>, Error>;

/// A row: its line, counted from 1, its literal's text, the setting that this is read at, and its key.
pub struct Row<'s> {
    pub line: usize,
    pub text: &'s [u8],
    pub settings: Settings,
    pub key: Key<'s>,
    /// The answer at the other setting, where that has another key, or one of the two has none.
    pub other: Option<Key<'s>>,
}

/// Decodes each row. The list is read as bytes: a row that is not UTF-8 is refused, and the others are read.
pub fn rows(list: &[u8], settings: Settings) -> Result<Vec<Row<'_>>, String> {
    let places = places(list, settings)?;
    // No string's value is longer than its literal.
    let longest = places.iter().map(|place| place.bytes.len()).max();
    let mut buffer = vec![0; longest.unwrap_or(0)];
    places.into_iter().map(|place| row(list, place, &mut buffer)).collect()
}

fn row<'s>(list: &'s [u8], place: Place, buffer: &mut [u8]) -> Result<Row<'s>, String> {
    let Place { line, bytes, settings } = place;
    let text = &list[bytes];
    let literal = Literal::whole(Kind::String, text).ok_or_else(|| format!("line {line} has 4 GiB or more"))?;
    let key = key(literal, text, settings, buffer);
    let other = other(literal, text, settings, &key, buffer);
    Ok(Row { line, text, settings, key, other })
}

/// A key that needs no decoding stays a part of the list.
fn key<'s>(literal: Literal, text: &'s [u8], settings: Settings, buffer: &mut [u8]) -> Key<'s> {
    Ok(literal.in_bytes(text).as_str_in(settings, buffer)?.into_cow())
}

/// The answer at the other setting, where it tells another product. The settings differ by what a backslash means: without one there is nothing to ask.
fn other<'s>(
    literal: Literal,
    text: &'s [u8],
    settings: Settings,
    here: &Key<'s>,
    buffer: &mut [u8],
) -> Option<Key<'s>> {
    if !text.contains(&b'\\') {
        return None;
    }
    let there = key(literal, text, opposite(settings), buffer);
    (there.as_ref().ok() != here.as_ref().ok()).then_some(there)
}

pub fn opposite(settings: Settings) -> Settings {
    if settings == Settings::MYSQL { Settings::STANDARD } else { Settings::MYSQL }
}
