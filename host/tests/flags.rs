//! The example `flags`: a list of bit strings, packed and written back.

mod common;
#[allow(dead_code)] // words of the command line are tested where the programs are run
#[path = "../examples/shared/marked.rs"]
mod marked;
#[path = "../examples/shared/named.rs"]
mod named;
#[path = "../examples/flags/report.rs"]
mod report;
#[path = "../examples/flags/rows.rs"]
mod rows;

use common::{places::lines, read};
use rows::Refused;
use valdrabus::{Error, Span};

#[test]
fn the_sample_list() {
    let list = read("lists/flags.txt");
    let rows = rows::rows(list.as_bytes()).expect("a short list");
    assert_eq!(report::report(list.as_bytes(), &rows), read("lists/flags.packed"));
}

#[test]
fn lines_that_are_no_rows_and_rows_that_are_refused() {
    let list = b"-- none\r\n\r\na\tX'0F'\r\nno tab\nb\tB'2'\nc\tX'\xFF'\n\xFF\tb'1'\nd\t";
    let rows = rows::rows(list).expect("a short list");
    let told = rows.iter().map(|row| (row.line, &*row.name, row.flags.as_ref().map(|flags| &flags.literal[..])));
    let span = |start, end| Span { start, end };
    let refused = |error| Err(Refused::Literal(error));
    let due = [
        (3, "a", Ok("X'0F'")),
        (4, "no tab", Err(Refused::NoTab)),
        (5, "b", refused(Error::InvalidBitString { span: span(29, 33) })),
        (6, "c", refused(Error::NotUtf8 { span: Some(span(36, 40)) })),
        (7, "\u{FFFD}", Ok("B'1'")),
        (8, "d", refused(Error::InvalidBitString { span: span(50, 50) })),
    ];
    assert!(told.eq(due.iter().map(|(line, name, flags)| (*line, *name, flags.as_ref().map(|text| &text[..])))));
    let said = report::report(list, &rows);
    assert!(
        said.contains(
            "\n     5  refused: b: the text at 29..33 is not a readable bit string (number 7), line 5, column 3\n"
        ),
        "{said}"
    );
    assert!(said.ends_with("\n2 packed, 9 bits in 2 bytes; 4 refused\n"), "{said}");
}

/// A bit string has no setting: what would be one in a list of strings is a comment as any other.
#[test]
fn a_comment_is_no_setting() {
    for comment in ["-- backslash on", "-- backslash maybe", "--backslash", " \t-- Backslash", "--"] {
        let list = format!("{comment}\na\tB'1'\n{comment}\r\nb\tX'1'");
        let rows = rows::rows(list.as_bytes()).expect("a short list");
        assert_eq!(rows.iter().map(|row| (row.line, row.flags.is_ok())).collect::<Vec<_>>(), [(2, true), (4, true)]);
    }
}

/// A terminal obeys control characters: none is printed. Of a name beside a refusal forty characters are shown.
#[test]
fn names_that_are_no_plain_text() {
    let long = "é".repeat(41);
    let list = format!("a\x1B[2J\u{9B}‹\tB'1'\n{long}\tB'1'\nb\x07\tB'2'\n{long}\x01\n{}\t\n", &long[2..]);
    let said = report::report(list.as_bytes(), &rows::rows(list.as_bytes()).expect("a short list"));
    let lines: Vec<&str> = said.lines().collect();
    assert!(lines[0].ends_with("  a‹1B›[2J‹9B›‹2039›") && lines[1].ends_with(&format!("  {long}")), "{said}");
    assert!(lines[2].starts_with("     3  refused: b‹07›: the text at "), "{said}");
    assert_eq!(lines[3], format!("     4  refused: {}…: no tab stands between a name and its flags", &long[2..]));
    assert!(lines[4].starts_with(&format!("     5  refused: {}: the text at ", &long[2..])), "{said}");
}
