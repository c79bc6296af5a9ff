//! Dates by ours, and in the plain way: the Rust original gives the text of a date literal, and a caller parses it and counts the days. For the day of a number
//! it has nothing; that is plain arithmetic.

use crate::cases::{Case, Place, Question};
use std::hint::black_box;
use valdrabus::sys;

/// The dates of a case by ours. Each number is lent and read by itself: four that were written one by one and are read at once as an array would have the
/// processor wait for them.
pub fn ours(case: &Case) -> u64 {
    let ([mut year, mut month, mut day, mut day_number], mut first, mut second) = ([0; 4], 0, 0);
    let (from, long, kind) = (case.source.as_ptr(), case.source.len(), Question::Date.kind());
    let mut sum = 0;
    for &Place { start, end, .. } in black_box(&case.places) {
        let (year_to, month_to, day_to, number_to) = (&raw mut year, &raw mut month, &raw mut day, &raw mut day_number);
        // SAFETY: the source is valid for its length; the numbers are ours alone.
        let number = unsafe {
            sys::valdrabus_as_date(
                kind,
                0,
                start,
                end,
                from,
                long,
                year_to,
                month_to,
                day_to,
                number_to,
                &raw mut first,
                &raw mut second,
            )
        };
        assert!(number == 0, "refused by {number}");
        sum += seen([black_box(year), black_box(month), black_box(day), black_box(day_number)]);
    }
    sum
}

/// The days of numbers by ours.
pub fn ours_of_numbers(numbers: &[u32]) -> u64 {
    let [mut year, mut month, mut day] = [0; 3];
    let mut sum = 0;
    for &number in black_box(numbers) {
        // SAFETY: the numbers are ours alone.
        let returned = unsafe { sys::valdrabus_date_of_day(number, &raw mut year, &raw mut month, &raw mut day) };
        assert!(returned == 0, "refused by {returned}");
        sum += seen(black_box([year, month, day, number]));
    }
    sum
}

/// The same by plain arithmetic.
pub fn plain_of_numbers(numbers: &[u32]) -> u64 {
    black_box(numbers).iter().map(|&number| seen(black_box(of_number(number).expect("a day")))).sum()
}

/// What is looked at of a day.
#[inline]
pub fn seen([year, month, day, number]: [u32; 4]) -> u64 {
    u64::from(year) + u64::from(month) + u64::from(day) + u64::from(number)
}

/// The day that a text spells.
#[inline]
pub fn of_text(text: &str) -> Option<[u32; 4]> {
    let &[a, b, c, d, b'-', e, f, b'-', g, h] = text.as_bytes() else { return None };
    let two = |tens: u8, ones: u8| Some(10 * digit(tens)? + digit(ones)?);
    let (year, month, day) = (100 * two(a, b)? + two(c, d)?, two(e, f)?, two(g, h)?);
    if year == 0 || month == 0 || month > 12 || day == 0 || day > length(year, month) {
        return None;
    }
    Some([year, month, day, before_year(year) + before_month(year, month) + day])
}

#[inline]
fn digit(byte: u8) -> Option<u32> {
    char::from(byte).to_digit(10)
}

/// The day of a number: cycles of 400, 100, 4 years and one year, then the month.
#[inline]
fn of_number(number: u32) -> Option<[u32; 4]> {
    if number == 0 || number > 3_652_059 {
        return None;
    }
    let day = number - 1;
    let (four_hundreds, day) = (day / 146_097, day % 146_097);
    let hundreds = (day / 36_524).min(3);
    let day = day - hundreds * 36_524;
    let (fours, day) = (day / 1461, day % 1461);
    let ones = (day / 365).min(3);
    let year = 400 * four_hundreds + 100 * hundreds + 4 * fours + ones + 1;
    let day = day - 365 * ones + 1;
    let month = (1..=12).rev().find(|&month| before_month(year, month) < day)?;
    Some([year, month, day - before_month(year, month), number])
}

#[inline]
fn before_year(year: u32) -> u32 {
    let whole = year - 1;
    365 * whole + whole / 4 - whole / 100 + whole / 400
}

#[inline]
fn before_month(year: u32, month: u32) -> u32 {
    const BEFORE: [u32; 12] = [0, 31, 59, 90, 120, 151, 181, 212, 243, 273, 304, 334];
    BEFORE[month as usize - 1] + u32::from(month > 2 && is_leap(year))
}

#[inline]
fn length(year: u32, month: u32) -> u32 {
    const LENGTH: [u32; 12] = [31, 28, 31, 30, 31, 30, 31, 31, 30, 31, 30, 31];
    LENGTH[month as usize - 1] + u32::from(month == 2 && is_leap(year))
}

#[inline]
fn is_leap(year: u32) -> bool {
    year.is_multiple_of(4) && (!year.is_multiple_of(100) || year.is_multiple_of(400))
}
