//! What is said of a list's rows.

use crate::marked::marked;
use crate::named::shortened;
use crate::stock::{Refused, Row};
use std::fmt::Write;
use valdrabus::Date;

/// The rows by their days, those that are refused, and the counts.
pub fn report(list: &[u8], rows: &[Row<'_>], by: Date) -> String {
    let mut text = String::new();
    let mut days: Vec<(Date, &str)> = rows.iter().filter_map(|row| Some((row.expiry.ok()?, &*row.name))).collect();
    // The sort is stable: products of one day stay as the list has them.
    days.sort_by_key(|(day, _)| *day);
    for (day, name) in &days {
        let name = marked(name.as_bytes());
        let mark = if *day < by { "expired" } else { "" };
        writeln!(text, "{:7}  {day}  {mark:7}  {name}", day.day_number()).expect("a String takes all");
    }
    let mut refused = 0;
    for row in rows {
        let Err(why) = row.expiry else { continue };
        writeln!(text, "{:6}  refused: {}: {}", row.line, shortened(&row.name), told(why, list))
            .expect("a String takes all");
        refused += 1;
    }
    let expired = days.iter().filter(|(day, _)| *day < by).count();
    let good = days.len() - expired;
    let rows = if refused == 1 { "row" } else { "rows" };
    writeln!(text, "{expired} expired by {by}, {good} not; {refused} {rows} refused").expect("a String takes all");
    text
}

/// Why a row is refused, by line and column of the list.
fn told(why: Refused, list: &[u8]) -> String {
    match why {
        Refused::NoTab => "no tab stands between a name and a date".to_owned(),
        Refused::Literal(error) => error.in_source(list).to_string(),
    }
}
