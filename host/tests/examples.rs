//! Document 01's examples, and what a caller sees of borrowed and written texts.

mod common;

use common::{BINARY, LENT, whole};
use std::borrow::Cow;
use valdrabus::*;

fn string(source: &str, backslash: bool) -> Result<Cow<'_, str>, u32> {
    whole(Kind::String, source)
        .to_str_in(source, Settings::STANDARD.with_backslash(backslash))
        .map_err(|error| error.number())
}

fn integer(source: &str) -> Result<i64, u32> {
    whole(Kind::Integer, source).as_i64(source).map_err(|error| error.number())
}

#[test]
fn strings() {
    for (source, backslash, answer) in [
        ("'a' 'b' ", false, Ok("ab")),
        ("'a' ", false, Err(6)),
        ("'a' E'c'", false, Err(6)),
        ("'x' 'a' E'c'", false, Ok("xac")),
        (r"'a\'", true, Ok(r"a\")),
        (r"E'\400'", false, Err(6)),
        (r"E'\477'", false, Ok("?")),
        (r"E'\xC3\xA9'", false, Ok("é")),
        ("$a$a$", false, Err(6)),
        ("E'a\0'", false, Err(6)),
    ] {
        assert_eq!(string(source, backslash), answer.map(Cow::Borrowed), "{source}");
    }
    assert!(matches!(string("$$a$$b$$", false), Ok(Cow::Borrowed("a$$b"))));
}

#[test]
fn integers() {
    assert_eq!(integer("-0x8000000000000000"), Err(5));
    assert_eq!(integer("-9223372036854775808"), Ok(i64::MIN));
    assert_eq!(integer("0x-5"), Ok(-5));
}

#[test]
fn other_kinds() {
    let temporal = "DATE $$a$$b$$";
    assert!(matches!(whole(Kind::Date, temporal).to_temporal_text(temporal), Ok(Cow::Borrowed("a"))));
    assert!(matches!(whole(BINARY, "B'01' ").to_bit_text("B'01' "), Ok(Cow::Owned(text)) if text == "01"));
    assert!(postgres_escape_string_is_valid("E'a\0'"));
}

#[test]
fn a_borrowed_text_outlives_the_buffer_and_leaves_it() {
    let source = "'Aspirin'";
    let name = {
        let mut out = [LENT; 16];
        let text = whole(Kind::String, source).as_str(source, &mut out).unwrap();
        let Text::Borrowed(name) = text else { panic!("{text:?}") };
        assert_eq!(out, [LENT; 16]);
        name
    };
    assert_eq!((name, name.as_ptr()), ("Aspirin", source[1..].as_ptr()));
}

#[test]
fn a_written_text_fills_the_buffers_start() {
    let source = "'it''s'";
    let mut out = [LENT; 6];
    let text = whole(Kind::String, source).as_str(source, &mut out).unwrap();
    assert!(!text.is_borrowed());
    assert_eq!(text.to_string(), "it's");
    assert_eq!(out, *b"it's\xA5\xA5");
}

#[test]
fn a_literal_inside_a_source() {
    let source = "é, 'a''b', ü";
    let literal = Literal::new(Kind::String, 4..10);
    assert_eq!(literal.source_text(source), Ok("'a''b'"));
    assert_eq!(literal.to_str(source).unwrap(), "a'b");
}

#[test]
fn the_readmes_example() {
    let row = r"('Bob\'s balm', '50' ' ml')";
    let read = |span: std::ops::Range<u32>| Literal::new(Kind::String, span).to_str_in(row, Settings::MYSQL);
    assert_eq!(read(1..14).unwrap(), "Bob's balm");
    assert_eq!(read(16..26).unwrap(), "50 ml");
}

#[test]
fn the_readmes_example_of_a_block() -> Result<(), Error> {
    let mut names = Vec::new();

    let rows = "'Aspirin' 'Bob''s balm' 'unended";
    let items = [0..9, 10..23, 24..32].map(|span| Item::new(Literal::new(Kind::String, span), Settings::STANDARD));
    for name in &to_block(&items, rows)? {
        names.push(format!("{name:?}"));
    }

    let refused: Result<Text, Error> = Err(Error::InvalidString { span: Some(Span::from(24..32)), place: Some(0) });
    assert_eq!(names, [r#"Ok(Borrowed("Aspirin"))"#, r#"Ok(Written("Bob's balm"))"#, &format!("{refused:?}")]);
    Ok(())
}

#[test]
fn many_parts_and_long_values_are_allocated_exactly() {
    let (count, part) = (5_000, "'abcdefghij' ");
    let source = part.repeat(count);
    let value = whole(Kind::String, &source).to_str(&source).unwrap().into_owned();
    assert_eq!(value, "abcdefghij".repeat(count));

    for len in [127, 128, 129] {
        let source = format!("'{}''", "x".repeat(len - 1)) + "'";
        let value = whole(Kind::String, &source).to_str(&source).unwrap();
        assert_eq!((value.len(), value.ends_with("x'")), (len, true));
    }
}

#[test]
fn the_widest_numbers() {
    let least = "0x-80000000000000000000000000000000";
    assert_eq!(whole(Kind::Integer, least).to_decimal_text(least).unwrap(), i128::MIN.to_string());
    let most = "0x7fffffffffffffffffffffffffffffff";
    assert_eq!(whole(Kind::Integer, most).to_decimal_text(most).unwrap(), i128::MAX.to_string());
}
