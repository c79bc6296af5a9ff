//! What is said of a list's rows.

use crate::marked::marked;
use crate::named::shortened;
use crate::rows::{Refused, Row};
use std::fmt::Write;

/// The rows with their flags, those that are refused, and the counts.
pub fn report(list: &[u8], rows: &[Row<'_>]) -> String {
    let (mut text, mut counts) = (String::new(), (0, 0, 0));
    for (row, flags) in rows.iter().filter_map(|row| Some((row, row.flags.as_ref().ok()?))) {
        let hex = hex(&flags.bytes);
        writeln!(text, "{:4} bits  {hex:8}  {:14}  {}", flags.bits, flags.literal, marked(row.name.as_bytes()))
            .expect("a String takes all");
        counts = (counts.0 + 1, counts.1 + flags.bits, counts.2 + flags.bytes.len());
    }
    for row in rows {
        let Err(why) = row.flags else { continue };
        writeln!(text, "{:6}  refused: {}: {}", row.line, shortened(&row.name), told(why, list))
            .expect("a String takes all");
    }
    let (packed, bits, bytes) = counts;
    let refused = rows.len() - packed;
    writeln!(text, "{packed} packed, {bits} bits in {bytes} bytes; {refused} refused").expect("a String takes all");
    text
}

fn hex(bytes: &[u8]) -> String {
    bytes.iter().fold(String::new(), |mut text, byte| {
        write!(text, "{byte:02X}").expect("a String takes all");
        text
    })
}

/// Why a row is refused, by line and column of the list.
fn told(why: Refused, list: &[u8]) -> String {
    match why {
        Refused::NoTab => "no tab stands between a name and its flags".to_owned(),
        Refused::Literal(error) => error.in_source(list).to_string(),
    }
}
