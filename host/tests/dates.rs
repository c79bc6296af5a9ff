//! Dates: facts of request T-05, each refusal with what comes with it, what a `Date` can do, and every day of the calendar.

mod common;

use common::{KINDS, inside, whole};
use std::borrow::Cow;
use std::collections::HashSet;
use std::fmt::Write;
use valdrabus::*;

fn date(year: u16, month: u8, day: u8) -> Date {
    Date::new(year, month, day).unwrap_or_else(|| panic!("no day {year} {month} {day}"))
}

/// The answer about a literal that is all of its source; the same over bytes, and with something around it.
fn asked(text: &str) -> Result<Date, Error> {
    let literal = whole(Kind::Date, text);
    let answer = literal.as_date(text);
    assert_eq!(literal.in_bytes(text.as_bytes()).as_date(), answer, "{text:?}");

    let source = format!("é'{text}'2024-01-02'");
    let inside = inside(Kind::Date, 3, text);
    let moved = inside.as_date(&source);
    let told = |answer: Result<Date, Error>| answer.map_err(|error| (error.number(), error.place()));
    assert_eq!(told(moved), told(answer), "{text:?}");
    assert_eq!(moved.err().map(|error| error.span()), answer.err().map(|_| Some(inside.span)), "{text:?}");
    answer
}

#[test]
fn days_in_all_spellings() {
    for text in [
        "'2024-01-02'",
        "DATE '2024-01-02'",
        "DATE'2024-01-02'",
        "TIMESTAMP '2024-01-02' DAY",
        r"E'2024\x2d01-02'",
        r"E'\062024-01-02'",
        "DATE $$2024-01-02$$",
        "$d$2024-01-02$d$",
        "$$2024-01-02$$x$$",
        "DATE '2024-' '01-02'",
        r"'2024' '-01-' E'\x30\x32'",
        "'2024-01-02' ''",
    ] {
        let day = asked(text).unwrap_or_else(|error| panic!("{text}: {error}"));
        assert_eq!((day.year(), day.month(), day.day(), day.day_number()), (2024, 1, 2, 738_887), "{text}");
    }
}

#[test]
fn numbers_of_days() {
    for (text, number) in [
        ("0001-01-01", 1),
        ("0001-12-31", 365),
        ("0002-01-01", 366),
        ("0004-02-29", 1155),
        ("0100-12-31", 36_524),
        ("0400-02-29", 145_791),
        ("0400-12-31", 146_097),
        ("1582-10-10", 577_731),
        ("1900-03-01", 693_655),
        ("1970-01-01", 719_163),
        ("2000-02-29", 730_179),
        ("2024-02-29", 738_945),
        ("2024-12-31", 739_251),
        ("2025-01-01", 739_252),
        ("9999-12-31", 3_652_059),
    ] {
        let day = asked(&format!("DATE '{text}'")).unwrap_or_else(|error| panic!("{text}: {error}"));
        assert_eq!((day.day_number(), day.to_string().as_str()), (number, text));
    }
}

#[test]
fn number_14_for_a_value_that_is_no_date() {
    for value in [
        "",
        "x",
        "0000-01-01",
        "0000-12-31",
        "0100-02-29",
        "1500-02-29",
        "1900-02-29",
        "2023-02-29",
        "2100-02-29",
        "2024-00-01",
        "2024-13-01",
        "2024-01-00",
        "2024-01-32",
        "2024-04-31",
        "2024-01-0",
        "2024-01-021",
        "2024-01-02 ",
        " 024-01-02",
        "10000-01-01",
        "2024-1-002",
        "2024/01/02",
        "2024-01/02",
        "+024-01-02",
        "2024-W01-1",
        "٢٠٢٤-1",
        "٢٠٢٤-٠١-٠٢",
        "2024-''01-02",
        r"2024\x2d01-02",
        "0000000000000000000000000000000000000000000000000000000000000000000000",
    ] {
        let text = format!("'{value}'");
        let error = asked(&text).expect_err(&text);
        assert_eq!(error, Error::InvalidDate { span: whole(Kind::Date, text).span });
        assert_eq!((error.number(), error.place(), error.place_in_source()), (14, None, None));
    }
}

/// The whole text is read first: what can be no date any more behind its tenth byte may still be refused.
#[test]
fn number_6_comes_before_14_with_its_place() {
    for (text, place) in [
        ("", 0),
        ("DATE", 0),
        ("DATE \"2024-01-02\"", 0),
        ("$1$2024-01-02$1$", 0),
        ("'2024-01-02", 0),
        ("''2024-01-02''", 1),
        ("'2024-01-02' x '2'", 11),
        (r"'2024-01-02' 'x' E'\0'", 19),
        (r"'' 'x' E'\0'", 9),
        (r"E'2024-01-02x\0'", 13),
        (r"E'2024-01-02\xC3'", 16),
        ("'2024-01-02\0'", 0),
        ("DATE 'a'b'", 7),
    ] {
        let span = Some(whole(Kind::Date, text).span);
        let temporal = whole(Kind::Date, text).to_temporal_text(text).map(Cow::into_owned);
        assert_eq!(asked(text), Err(Error::InvalidString { span, place: Some(place) }), "{text:?}");
        assert_eq!(temporal, Err(Error::InvalidString { span, place: Some(place) }), "{text:?}");
    }
}

#[test]
fn number_1_for_every_other_kind() {
    let text = "'2024-01-02'";
    for kind in KINDS.into_iter().filter(|kind| *kind != Kind::Date) {
        let refused = Err(Error::WrongKind { expected: Expected::Date, actual: kind });
        assert_eq!(whole(kind, text).as_date(text), refused);
        assert_eq!(Literal { synthetic: true, ..whole(kind, text) }.as_date(text), refused, "1 before 2");
    }
    let time = Kind::Time { time_zone: TimeZone::WithTimeZone };
    let error = whole(time, text).as_date(text).unwrap_err();
    assert_eq!(error, Error::WrongKind { expected: Expected::Date, actual: time });
    assert_eq!(error.to_string(), "a date is asked for, and the literal is a time (number 1)");
    assert_eq!(Expected::Date.code(), 9);
}

#[test]
fn numbers_2_3_and_4_come_before_the_text() {
    let text = "'2024-01-02'";
    let of = |start, end, source: &[u8]| Literal::at(Kind::Date, Span { start, end }).in_bytes(source).as_date();
    let nowhere = Literal { synthetic: true, ..Literal::at(Kind::Date, Span { start: 12, end: 0 }) };
    assert_eq!(nowhere.as_date(text), Err(Error::MissingSource { span: nowhere.span }));
    let outside = |start, end| Err(Error::InvalidSourceRange { span: Span { start, end } });
    assert_eq!(of(12, 0, text.as_bytes()), outside(12, 0));
    assert_eq!(of(0, 13, text.as_bytes()), outside(0, 13));
    assert_eq!(of(1, 13, b"\xFF'2024-01-02'\x80"), outside(1, 13));
    let broken = |end| Err(Error::NotUtf8 { span: Some(Span { start: 0, end }) });
    assert_eq!(of(0, 11, b"'2024-01-0\xFF"), broken(11));
    assert_eq!(of(0, 3, b"'\xFF'"), broken(3));
    assert_eq!(of(1, 13, b"\xFF'2024-01-02'\xFF").map(Date::day_number), Ok(738_887));
}

#[test]
fn what_errors_say() {
    let dump = "('Gauze', DATE '2027-02-28'),\n('Balm', DATE '2027-02-29')";
    let error = Literal::new(Kind::Date, 39..56).as_date(dump).unwrap_err();
    let said = "the text at 39..56 is not a date, yyyy-mm-dd from 0001-01-01 to 9999-12-31 (number 14)";
    assert_eq!(error.to_string(), said);
    assert_eq!(error.in_source(dump).to_string(), format!("{said}, line 2, column 10"));
    let error: Box<dyn std::error::Error + Send + Sync> = "2027-02-29".parse::<Date>().unwrap_err().into();
    assert_eq!(error.to_string(), "not a date, yyyy-mm-dd from 0001-01-01 to 9999-12-31");
}

#[test]
fn dates_are_ordered_in_time() {
    let days = [date(1, 1, 1), date(99, 12, 31), date(1999, 12, 31), date(2000, 1, 1), date(2000, 2, 1), Date::LAST];
    for (at, first) in days.iter().enumerate() {
        for (other, second) in days.iter().enumerate() {
            assert_eq!(first.cmp(second), at.cmp(&other), "{first} {second}");
            assert_eq!(first == second, at == other);
        }
    }
    let copy = days[0];
    assert_eq!(HashSet::from(days).len(), days.len());
    assert!(HashSet::from(days).contains(&copy));
}

#[test]
fn dates_are_shown_by_ten_bytes() {
    let day = date(987, 6, 5);
    assert_eq!(format!("{day} {day:?} {:?}", Some(day)), "0987-06-05 0987-06-05 Some(0987-06-05)");
    assert_eq!(
        format!("[{day:12}] [{day:>12}] [{day:*^14}] [{day:4}]"),
        "[0987-06-05  ] [  0987-06-05] [**0987-06-05**] [0987-06-05]"
    );
}

/// Of all years, months and days that the types hold, those of the calendar; of ten bytes, those that are shown.
#[test]
fn no_other_numbers_and_no_other_texts_make_a_date() {
    for (year, month, day) in [(0, 1, 1), (10_000, 1, 1), (12_024, 1, 1), (u16::MAX, 1, 1), (2024, 0, 1), (2024, 13, 1)]
    {
        assert_eq!(Date::new(year, month, day), None, "{year} {month} {day}");
    }
    for (month, day) in (0..=u8::MAX).flat_map(|month| (0..=u8::MAX).map(move |day| (month, day))) {
        let longest = [0, 31, 29, 31, 30, 31, 30, 31, 31, 30, 31, 30, 31].get(usize::from(month)).copied().unwrap_or(0);
        assert_eq!(Date::new(2024, month, day).is_some(), (1..=longest).contains(&day), "{month} {day}");
    }
    // Every byte at each place of a day; quote marks too.
    for at in 0..10 {
        for byte in 0..0x80_u8 {
            let mut text = *b"2024-11-22";
            text[at] = byte;
            let text = std::str::from_utf8(&text).expect("ASCII");
            let taken = text.parse::<Date>().ok();
            assert_eq!(taken.map(|day| day.to_string()).unwrap_or(text.to_owned()), text);
            assert_eq!(taken.is_some(), is_day(text), "{text:?}");
        }
    }
}

/// Whether `2024-11-22`, one of its digits changed, is a day; the month can become 1, 10 or 12, which have 30 days too.
fn is_day(text: &str) -> bool {
    let is_mark = |at: usize| at == 4 || at == 7;
    let good = |(at, byte): (usize, u8)| if is_mark(at) { byte == b'-' } else { byte.is_ascii_digit() };
    let part = |range: std::ops::Range<usize>| text[range].parse::<u8>().unwrap_or(0);
    text.bytes().enumerate().all(good) && (1..=12).contains(&part(5..7)) && (1..=30).contains(&part(8..10))
}

/// Texts of ten bytes with quote marks among them, and with other text that a literal would take for its own.
#[test]
fn marks_inside_a_text_make_no_date() {
    for text in [
        "'2024-01-0",
        "2024-01-0'",
        "2024''-1-2",
        "20' '24-01",
        "2024'E'-01",
        "$$2024-01-",
        "2024-01-02'",
        "'2024-01-02'",
        "",
    ] {
        assert!(text.parse::<Date>().is_err(), "{text:?}");
    }
    for mark in ["'", "''", "' '", "'E'"] {
        let rest = &"2024-01-02"[mark.len()..];
        for (before, behind) in (0..=rest.len()).map(|at| rest.split_at(at)) {
            assert!(format!("{before}{mark}{behind}").parse::<Date>().is_err(), "{before}{mark}{behind}");
        }
    }
}

#[test]
fn days_since_1970_and_other_counts() {
    assert_eq!(Date::FIRST.days_since_1970(), -719_162);
    assert_eq!(Date::LAST.days_since_1970(), 2_932_896);
    assert_eq!(date(2001, 9, 9).days_since_1970(), 1_000_000_000 / 86_400);
    // The Julian day 2,451,545 begins at noon of 2000-01-01.
    assert_eq!(date(2000, 1, 1).day_number() + 1_721_425, 2_451_545);
}

/// Walks the calendar day by day, by the lengths of months alone: each day's literal, number, text and parts give each other, and no number is left out.
/// The days since 1970 go up by one each day; at 1970-01-01 they are 0.
#[test]
fn every_day_both_ways() {
    let (mut number, mut before, mut literal, mut shown) = (0, None, String::new(), String::new());
    for year in 1..=9999_u16 {
        let february = if year % 4 == 0 && (year % 100 != 0 || year % 400 == 0) { 29 } else { 28 };
        for (month, length) in (1..).zip([31, february, 31, 30, 31, 30, 31, 31, 30, 31, 30, 31]) {
            for day in 1..=length {
                number += 1;
                literal.clear();
                write!(literal, "'{year:04}-{month:02}-{day:02}'").expect("a String takes all");
                let read = Literal::new(Kind::Date, 0..12).as_date(&literal).expect("a day");
                assert_eq!((read.year(), read.month(), read.day(), read.day_number()), (year, month, day, number));
                assert_eq!(Date::from_day_number(number), Some(read));
                shown.clear();
                write!(shown, "{read}").expect("a String takes all");
                assert_eq!(shown, literal[1..11]);
                assert!(before < Some(read), "{read}");
                assert!(before.is_none_or(|day| day.days_since_1970() + 1 == read.days_since_1970()), "{read}");
                before = Some(read);
            }
        }
    }
    assert_eq!((number, before), (3_652_059, Some(Date::LAST)));
    assert_eq!(date(1970, 1, 1).days_since_1970(), 0);
    assert_eq!(Date::from_day_number(1), Some(Date::FIRST));
    for none in [0, 3_652_060, 3_652_061, 1 << 22, 1 << 31, u32::MAX] {
        assert_eq!(Date::from_day_number(none), None);
    }
}

/// Every day of some years by its parts and by its text.
#[test]
fn every_day_of_a_cycle_by_parts_and_text() {
    for number in 1..=146_097 {
        let day = Date::from_day_number(2000 * 365 + number).expect("a day");
        assert_eq!(Date::new(day.year(), day.month(), day.day()), Some(day));
        assert_eq!(day.to_string().parse(), Ok(day));
    }
}
