//! Dates. The Rust knows the text of a date literal and no day: what its text is due is counted here, in the plainest way.

use crate::question::{Asked, Question, Said};
use crate::rust;
use std::str::from_utf8;
use std::sync::LazyLock;

/// The literal's value is no date.
pub const NO_DATE: u32 = 14;

/// How many days there are before each year, the first being 1: every year's days are added up.
static BEFORE: LazyLock<Vec<u32>> = LazyLock::new(|| {
    let mut before = vec![0, 0];
    (1..9999)
        .for_each(|year| before.push(before[year as usize] + (1..=12).map(|month| length(year, month)).sum::<u32>()));
    before
});

/// How many answers of the date question were days, ten bytes that are none, and other values.
#[derive(Default)]
pub struct Dates {
    pub days: u64,
    pub near: u64,
    pub other: u64,
}

impl Dates {
    /// Counts a literal's text that means no day.
    pub fn none(&mut self, text: &[u8]) {
        if has_ten_bytes(text) {
            self.near += 1;
        } else {
            self.other += 1;
        }
    }
}

/// What the date question is due, where the Rust's temporal question says this of the literal.
pub fn of_temporal(asked: &Asked, said: Said, source: &str) -> Said {
    let day = match &said {
        Said::Borrowed(first, second) => day(&source.as_bytes()[*first..*second]),
        Said::Written(text) => day(text),
        _ => return said,
    };
    day.map_or(Said::Refused(NO_DATE, asked.start as usize, asked.end as usize), Said::Day)
}

/// Year, month, day and number of the day that a value spells.
fn day(value: &[u8]) -> Option<[u32; 4]> {
    let parts: Vec<&str> = from_utf8(value).ok()?.split('-').collect();
    let [year, month, day] = parts[..] else { return None };
    let [year, month, day] = [number(year, 4)?, number(month, 2)?, number(day, 2)?];
    if year == 0 || !(1..=12).contains(&month) || day == 0 || day > length(year, month) {
        return None;
    }
    let before: u32 = (1..month).map(|month| length(year, month)).sum();
    Some([year, month, day, BEFORE[year as usize] + before + day])
}

/// So many decimal digits and nothing else.
fn number(text: &str, digits: usize) -> Option<u32> {
    let is_number = text.len() == digits && text.bytes().all(|byte| byte.is_ascii_digit());
    if is_number { text.parse().ok() } else { None }
}

fn length(year: u32, month: u32) -> u32 {
    let is_leap = year.is_multiple_of(4) && !year.is_multiple_of(100) || year.is_multiple_of(400);
    match month {
        2 if is_leap => 29,
        2 => 28,
        4 | 6 | 9 | 11 => 30,
        _ => 31,
    }
}

/// Whether the value of a date literal's text has as many bytes as a date.
fn has_ten_bytes(text: &[u8]) -> bool {
    let Ok(text) = from_utf8(text) else { return false };
    let (question, end) = (Question::Temporal, text.len() as u32);
    match rust::said(&Asked { question, kind: 8, synthetic: 0, start: 0, end, setting: 0, variety: 0 }, text) {
        Said::Borrowed(first, second) => second - first == 10,
        Said::Written(value) => value.len() == 10,
        _ => false,
    }
}

#[cfg(test)]
mod tests {
    use super::*;

    /// Facts of request T-05's table.
    #[test]
    fn days_are_counted() {
        for (text, number) in [
            ("0001-01-01", 1),
            ("0001-12-31", 365),
            ("0004-02-29", 1155),
            ("0400-12-31", 146_097),
            ("1582-10-10", 577_731),
            ("1970-01-01", 719_163),
            ("2000-02-29", 730_179),
            ("2024-12-31", 739_251),
            ("2025-01-01", 739_252),
            ("9999-12-31", 3_652_059),
        ] {
            assert_eq!(day(text.as_bytes()).map(|day| day[3]), Some(number), "{text}");
        }
    }

    #[test]
    fn what_is_no_day_is_none() {
        for text in [
            "",
            "0000-01-01",
            "1900-02-29",
            "2023-02-29",
            "2024-00-01",
            "2024-13-01",
            "2024-01-00",
            "2024-04-31",
            "2024-1-002",
            "2024-01-021",
            "10000-01-01",
            "+024-01-02",
            "2024/01/02",
            "٢٠٢٤-1",
        ] {
            assert_eq!(day(text.as_bytes()), None, "{text}");
        }
    }
}
