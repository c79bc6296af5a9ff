//! The example `expiry`: a stock list by its days.

mod common;
#[allow(dead_code)] // what --help says is tested where it is run
#[path = "../examples/expiry/help.rs"]
mod help;
#[path = "../examples/shared/marked.rs"]
mod marked;
#[path = "../examples/shared/named.rs"]
mod named;
#[allow(dead_code)] // how the program ends is tested where it is run
#[path = "../examples/shared/out.rs"]
mod out;
#[path = "../examples/expiry/report.rs"]
mod report;
#[path = "../examples/expiry/request.rs"]
mod request;
#[path = "../examples/expiry/stock.rs"]
mod stock;

use common::{places::lines, read};
use help::USAGE;
use out::Failure;
use request::{Asked, Request};
use std::ffi::OsString;
use std::os::unix::ffi::OsStringExt;
use stock::Refused;
use valdrabus::{Date, Error, Span};

fn said(list: &[u8], by: &str) -> String {
    let rows = stock::rows(list).expect("a short list");
    report::report(list, &rows, by.parse().expect("a day"))
}

#[test]
fn the_sample_list() {
    let list = read("lists/expiry.txt");
    assert_eq!(said(list.as_bytes(), "2027-01-31"), read("lists/expiry.2027-01-31"));
}

/// A product can be used on its expiry day, and not on the next.
#[test]
fn a_product_has_expired_behind_its_day() {
    let list = b"Balm\tDATE '2024-02-29'";
    for (by, last, mark) in [
        ("2024-02-28", "0 expired by 2024-02-28, 1 not; 0 rows refused", ""),
        ("2024-02-29", "0 expired by 2024-02-29, 1 not; 0 rows refused", ""),
        ("2024-03-01", "1 expired by 2024-03-01, 0 not; 0 rows refused", "expired"),
    ] {
        assert_eq!(said(list, by), format!(" 738945  2024-02-29  {mark:7}  Balm\n{last}\n"));
    }
}

#[test]
fn products_of_one_day_stay_as_the_list_has_them() {
    let list = b"c\t'2024-01-02'\nb\t'2023-12-31'\na\t'2024-' '01-02'\n";
    let names: Vec<String> = said(list, "2024-01-01").lines().take(3).map(|line| line[30..].to_owned()).collect();
    assert_eq!(names, ["b", "c", "a"]);
}

#[test]
fn lines_that_are_no_rows_and_rows_that_are_refused() {
    let list = b"-- none\r\n\r\n  -- none\na\t'2024-01-02'\r\nno tab\nb\t'2024-01-02\nc\t'\xFF'\n\xFF\tDATE '2024-01-02' x\nd\t\ne\t'a\tb'";
    let rows = stock::rows(list).expect("a short list");
    let told: Vec<(usize, &str, Result<Date, Refused>)> =
        rows.iter().map(|row| (row.line, &*row.name, row.expiry)).collect();
    let span = |start, end| Span { start, end };
    let broken = |start, end, place| {
        Err(Refused::Literal(Error::InvalidString { span: Some(span(start, end)), place: Some(place) }))
    };
    let day = Date::new(2024, 1, 2).expect("a day");
    let due = [
        (4, "a", Ok(day)),
        (5, "no tab", Err(Refused::NoTab)),
        (6, "b", broken(46, 57, 0)),
        (7, "c", Err(Refused::Literal(Error::NotUtf8 { span: Some(span(60, 63)) }))),
        (8, "\u{FFFD}", Ok(day)),
        (9, "d", broken(88, 88, 0)),
        (10, "e", Err(Refused::Literal(Error::InvalidDate { span: span(91, 96) }))),
    ];
    assert_eq!(told, due);
    let lines = said(list, "2024-01-02");
    assert!(lines.contains("\n     5  refused: no tab: no tab stands between a name and a date\n"), "{lines}");
    assert!(lines.contains(" reading stops at its byte 0 (number 6), line 6, column 3\n"), "{lines}");
    assert!(
        lines.ends_with("(number 14), line 10, column 3\n0 expired by 2024-01-02, 2 not; 5 rows refused\n"),
        "{lines}"
    );
}

#[test]
fn lines_of_blanks_and_comments_behind_blanks_are_no_rows() {
    for line in [
        "",
        " ",
        "\t",
        " \t  ",
        "\r",
        "  \r",
        "--",
        "-- backslash maybe",
        "-- a\t'2024-01-02'",
        "  --",
        "\t--\t'2024-01-02'",
        " \t-- a\r",
    ] {
        let list = format!("{line}\na\t'2024-01-02'\n{line}\nb\t'2024-01-03'\n{line}");
        let lines: Vec<usize> =
            stock::rows(list.as_bytes()).expect("a short list").iter().map(|row| row.line).collect();
        assert_eq!(lines, [2, 4], "{line:?}");
    }
    for line in ["-", " -", "- -", "a--", "a", "\ta", "\u{A0}"] {
        assert_eq!(stock::rows(line.as_bytes()).map(|rows| rows.len()), Some(1), "{line:?}");
    }
    assert_eq!(said(b"", "2024-01-02"), "0 expired by 2024-01-02, 0 not; 0 rows refused\n");
}

/// It counts as bytes and as a character of the first line, and anywhere else it is a part of a name.
#[test]
fn a_byte_order_mark_before_the_first_line_is_passed_over() {
    let names = |list: &str| -> Vec<String> {
        stock::rows(list.as_bytes()).expect("a short list").into_iter().map(|row| row.name.into_owned()).collect()
    };
    assert_eq!(names("\u{FEFF}a\t'2024-01-02'\r\nb\t'2024-01-02'"), ["a", "b"]);
    assert_eq!(names("\u{FEFF}-- none\na\t'2024-01-02'"), ["a"]);
    assert_eq!(names("\u{FEFF}\na\t'2024-01-02'"), ["a"]);
    assert_eq!(names("\u{FEFF}\u{FEFF}a\t''\n\u{FEFF}b\t''"), ["\u{FEFF}a", "\u{FEFF}b"]);
    assert!(names("\u{FEFF}").is_empty());
    let lines = said("\u{FEFF}a\t'2024-02-30'\nb\t'2024-01-02'".as_bytes(), "2024-01-02");
    assert!(lines.contains("     1  refused: a: the text at 5..17 is not a date, "), "{lines}");
    assert!(lines.ends_with(", line 1, column 4\n0 expired by 2024-01-02, 1 not; 1 row refused\n"), "{lines}");
}

#[test]
fn lines_end_with_lf_cr_lf_or_cr() {
    for end in ["\n", "\r\n", "\r"] {
        let list = format!("a\t'2024-01-02'{end}{end}b\t'2024-01-03'{end}c\t'2024-01-32'");
        let lines: Vec<usize> =
            stock::rows(list.as_bytes()).expect("a short list").iter().map(|row| row.line).collect();
        assert_eq!(lines, [1, 3, 4], "{end:?}");
        assert!(said(list.as_bytes(), "2024-01-03").contains(", line 4, column 3\n1 expired by "), "{end:?}");
    }
}

/// A terminal obeys control characters: none is printed. Of a name beside a refusal forty characters are shown.
#[test]
fn names_that_are_no_plain_text() {
    let long = "é".repeat(41);
    let list =
        format!("a\x1B[2J\u{9B}‹\t'2024-01-02'\n{long}\t'2024-01-03'\nb\x07\t''\n{long}\x01\n{}\t''\n", &long[2..]);
    let said = said(list.as_bytes(), "2024-01-02");
    let lines: Vec<&str> = said.lines().collect();
    assert!(lines[0].ends_with("  a‹1B›[2J‹9B›‹2039›") && lines[1].ends_with(&format!("  {long}")), "{said}");
    assert!(lines[2].starts_with("     3  refused: b‹07›: the text at "), "{said}");
    assert_eq!(lines[3], format!("     4  refused: {}…: no tab stands between a name and a date", &long[2..]));
    assert!(lines[4].starts_with(&format!("     5  refused: {}: the text at ", &long[2..])), "{said}");
}

#[test]
fn the_command_line() {
    let asked = |words: &[&str]| request::asked(words.iter().map(OsString::from));
    let day = Date::new(2027, 1, 31).expect("a day");
    let expiry = |file: OsString| Ok(Asked::Expiry(Request { day, file: file.into() }));
    assert_eq!(asked(&["2027-01-31", "a b.txt"]), expiry("a b.txt".into()));
    assert_eq!(asked(&["--help"]), Ok(Asked::Help));
    assert_eq!(asked(&["-h"]), Ok(Asked::Help));
    assert_eq!(asked(&["no day", "a", "--help"]), Ok(Asked::Help));
    let refused = |status, why: &str| Err(Failure { why: format!("{why}\n{USAGE}"), status });
    assert_eq!(asked(&[]), refused(2, "a day and a list are to be named, and not 0 words"));
    assert_eq!(asked(&["2027-01-31"]), refused(2, "a day and a list are to be named, and not 1 word"));
    assert_eq!(asked(&["2027-01-31", "a", "b"]), refused(2, "a day and a list are to be named, and not 3 words"));
    assert_eq!(asked(&["--helps"]), refused(2, "no option --helps"));
    assert_eq!(asked(&["2027-01-31", "-"]), refused(2, "no option -"));
    for word in ["2027-02-29", "31.01.2027", "2027-01-31 ", "today", ""] {
        let why = format!("{word}: not a date, yyyy-mm-dd from 0001-01-01 to 9999-12-31");
        assert_eq!(asked(&[word, "a"]), refused(3, &why));
    }
    let name = OsString::from_vec(b"\xFF.txt".to_vec());
    assert_eq!(request::asked(["2027-01-31".into(), name.clone()]), expiry(name));
}
