//! A list read by one call.

use crate::list::{Key, List, Row};
use crate::places::{Place, places};
use std::borrow::Cow;
use std::fmt;
use valdrabus::{Item, Kind, Literal, Settings, Text, Told, read_block_bytes};

/// A list with the keys of its rows, and how many bytes were written for them.
pub struct Reading<'s> {
    pub list: List<'s>,
    pub used: usize,
}

/// Finds the rows, and reads them all at once. The list is read as bytes: a row that is not UTF-8 is refused, and the others are read.
pub fn read(list: &[u8]) -> Result<Reading<'_>, String> {
    let places = places(list, Settings::STANDARD)?;
    let items: Option<Vec<Item>> = places.iter().map(item).collect();
    let items = items.ok_or("a list of 4 GiB or more")?;
    // No string's value is longer than its literal, so a buffer as long as the list holds them all.
    let (mut answers, mut buffer) = (vec![Told::default(); items.len()], vec![0; list.len()]);
    let block = read_block_bytes(&items, list, &mut answers, &mut buffer).map_err(|why| why.to_string())?;
    let keys = block.iter().map(|text| text.map(Text::into_cow));
    let rows = places.iter().zip(keys).map(|(place, key)| row(list, place, key)).collect();
    Ok(Reading { list: List { name: String::new(), rows }, used: block.used() })
}

/// The call asks at one setting alone: what a row is at the other is not known.
fn row<'s>(list: &'s [u8], place: &Place, key: Key<'s>) -> Row<'s> {
    Row { line: place.line, text: &list[place.bytes.clone()], settings: place.settings, key, other: None }
}

fn item(place: &Place) -> Option<Item> {
    let (start, end) = (place.bytes.start.try_into().ok()?, place.bytes.end.try_into().ok()?);
    Some(Item::new(Literal::new(Kind::String, start..end), place.settings))
}

impl fmt::Display for Reading<'_> {
    fn fmt(&self, f: &mut fmt::Formatter<'_>) -> fmt::Result {
        let count = |which: fn(&Row<'_>) -> bool| self.list.rows.iter().filter(|row| which(row)).count();
        write!(
            f,
            "{} items in one call: {} borrowed, {} written into {} bytes, {} refused",
            self.list.rows.len(),
            count(|row| matches!(row.key, Ok(Cow::Borrowed(_)))),
            count(|row| matches!(row.key, Ok(Cow::Owned(_)))),
            self.used,
            count(|row| row.key.is_err())
        )
    }
}
