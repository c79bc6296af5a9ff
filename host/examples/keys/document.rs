//! What is said of lists, as one JSON document: each row, product and group on a line of its own.

use crate::alike::Alike;
use crate::counts::Counts;
use crate::json::Json;
use crate::list::{List, Row, opposite};
use crate::pointed;
use crate::products::{Product, Spot};
use crate::report::Which;
use crate::shown::{Look, spelled};
use std::fmt::Write;
use valdrabus::{Error, Settings};

/// The fields of an object.
type Fields = Vec<(&'static str, Json)>;

pub fn document(
    lists: &[List<'_>],
    which: Which,
    look: Look,
    products: &[Product<'_>],
    groups: &[Alike<'_, '_>],
    counts: &Counts,
) -> String {
    let shown = lists.iter().flat_map(|list| list.rows.iter().map(move |row| (list, row)));
    let rows = shown.filter(|(_, row)| which.shows(row)).map(|(list, entry)| row(&list.name, entry, look));
    let doubled = products.iter().filter(|product| product.is_doubled()).map(|entry| product(entry, look));
    format!(
        "{{\"rows\": {},\n\"doubled\": {},\n\"look_alike\": {},\n\"counts\": {}}}\n",
        in_lines(rows),
        in_lines(doubled),
        in_lines(groups.iter().map(group)),
        Json::Object(counted(counts))
    )
}

fn in_lines(values: impl Iterator<Item = Json>) -> String {
    let lines: Vec<String> = values.map(|value| format!("\n{value}")).collect();
    format!("[{}]", lines.join(","))
}

fn row(file: &str, row: &Row<'_>, look: Look) -> Json {
    let mut fields = vec![
        ("file", Json::text(file)),
        ("line", Json::Number(row.line)),
        ("backslash", Json::Boolean(row.settings == Settings::MYSQL)),
    ];
    fields.extend(literal(row.text));
    fields.extend(key(row.key.as_deref().ok(), look));
    fields.push(("refusal", Json::or_null(row.key.as_ref().err().map(|error| refusal(row.text, error)))));
    fields.push(("other_setting", Json::or_null(row.other.as_ref().map(|_| other(row, look)))));
    Json::Object(fields)
}

/// A literal that is not UTF-8, which no text of JSON can hold, is told by its bytes in hex.
fn literal(text: &[u8]) -> Fields {
    if let Ok(text) = std::str::from_utf8(text) {
        return vec![("literal", Json::text(text))];
    }
    let mut hex = String::new();
    for byte in text {
        write!(hex, "{byte:02x}").expect("a String takes all");
    }
    vec![("literal", Json::Null), ("literal_hex", Json::Text(hex))]
}

/// A key, and its spelling where one is asked for; null for none.
fn key(key: Option<&[u8]>, look: Look) -> Fields {
    let text = |key| Json::text(String::from_utf8_lossy(key));
    let mut fields = vec![("key", Json::or_null(key.map(text)))];
    if look != Look::Marked {
        fields.push(("spelled", Json::or_null(key.and_then(|key| spelled(key, look)).map(Json::Text))));
    }
    fields
}

/// Why a row has no key. The place is a byte of the literal, counted from 0; the character there is counted so too, where the literal has characters.
fn refusal(text: &[u8], error: &Error) -> Json {
    let place = pointed::place(text, error);
    let before = place.and_then(|place| std::str::from_utf8(text).ok()?.get(..place));
    Json::Object(vec![
        ("number", Json::Number(error.number() as usize)),
        ("message", Json::text(error.to_string())),
        ("place", Json::or_null(place.map(Json::Number))),
        ("character", Json::or_null(before.map(|before| Json::Number(before.chars().count())))),
    ])
}

/// The answer at the other setting.
fn other(row: &Row<'_>, look: Look) -> Json {
    let there = row.other.as_ref().and_then(|there| there.as_deref().ok());
    let mut fields = vec![("backslash", Json::Boolean(opposite(row.settings) == Settings::MYSQL))];
    fields.extend(key(there, look));
    Json::Object(fields)
}

fn product(product: &Product<'_>, look: Look) -> Json {
    let spot = |row: &Spot<'_>| Json::Object(vec![("file", Json::text(row.file)), ("line", Json::Number(row.line))]);
    let mut fields = key(Some(product.key), look);
    fields.push(("rows", Json::List(product.rows.iter().map(spot).collect())));
    Json::Object(fields)
}

/// Keys that look alike are spelled so that the difference is seen.
fn group(group: &Alike<'_, '_>) -> Json {
    let differ = group.differ.iter().map(|by| Json::text(by.name())).collect();
    let keys = group.products.iter().map(|entry| product(entry, Look::Unicode)).collect();
    Json::Object(vec![("differ_by", Json::List(differ)), ("keys", Json::List(keys))])
}

fn counted(counts: &Counts) -> Fields {
    let counted = [
        ("rows_with_a_key", counts.with_key),
        ("different_products", counts.different),
        ("doubled_products", counts.doubled),
        ("rows_of_doubled_products", counts.doubled_rows),
        ("refused_rows", counts.refused),
        ("rows_that_depend_on_the_setting", counts.depending),
    ];
    counted.into_iter().map(|(name, count)| (name, Json::Number(count))).collect()
}
