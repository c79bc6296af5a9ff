//! What is written, and that it reads back: whole and in parts, at both settings.

mod common;

use common::{LENT, values, whole};
use valdrabus::*;

const BOTH: [Settings; 2] = [Settings::STANDARD, Settings::MYSQL];

#[test]
fn quotes_backslashes_and_nul() {
    assert_eq!(to_literal("", Settings::STANDARD).unwrap(), "''");
    assert_eq!(to_literal("a'b", Settings::STANDARD).unwrap(), "'a''b'");
    assert_eq!(to_literal(r"a\b", Settings::STANDARD).unwrap(), r"'a\b'");
    assert_eq!(to_literal(r"a\b'", Settings::MYSQL).unwrap(), r"'a\\b'''");
    assert_eq!(to_literal("\0", Settings::MYSQL).unwrap(), r"'\0'");
    assert_eq!(to_literal("\"", Settings::MYSQL).unwrap(), "'\"'");
}

#[test]
fn parts_hold_whole_characters() {
    assert_eq!(to_parts("", 4, Settings::STANDARD).unwrap(), "''");
    assert_eq!(to_parts("abcd", 4, Settings::STANDARD).unwrap(), "'abcd'");
    assert_eq!(to_parts("aaa😀b", 4, Settings::STANDARD).unwrap(), "'aaa'\n'😀'\n'b'");
    assert_eq!(to_parts("''''''", 4, Settings::STANDARD).unwrap(), "''''''''''\n''''''");
}

/// One line feed between each two parts, none before the first or behind the last, at both settings.
#[test]
fn a_line_feed_stands_between_parts() {
    for settings in BOTH {
        assert_eq!(to_parts("abcde", 4, settings).unwrap(), "'abcd'\n'e'");
        assert_eq!(to_parts("     ", 4, settings).unwrap(), "'    '\n' '");
        assert_eq!(to_parts("a\nb\nc", 4, settings).unwrap(), "'a\nb\n'\n'c'");
        assert_eq!(to_parts("\r\n\r\n\n", 4, settings).unwrap(), "'\r\n\r\n'\n'\n'");
    }
}

#[test]
fn the_rest_of_the_buffer_is_unchanged() {
    let mut out = [LENT; 8];
    assert_eq!(write_literal("a'", Settings::STANDARD, &mut out), Ok("'a'''"));
    assert_eq!(out, *b"'a'''\xA5\xA5\xA5");
    out.fill(LENT);
    assert_eq!(write_parts("abcde", 6, Settings::STANDARD, &mut out), Ok("'abcde'"));
    assert_eq!(out, *b"'abcde'\xA5");
}

/// Characters of every length and of every part in a spelling.
const ALPHABET: [char; 12] = ['a', '\'', '\\', '"', '%', '0', ' ', '\n', 'é', '€', '😀', '\u{3000}'];

#[test]
fn what_is_written_reads_back() {
    let values = values(&ALPHABET, 3);
    assert_eq!(values.len(), 1 + 12 + 144 + 1728);
    for value in &values {
        for settings in BOTH {
            let literal = to_literal(value, settings).unwrap();
            assert_eq!(whole(Kind::String, &literal).to_str_in(&literal, settings).unwrap(), *value, "{literal}");
        }
    }
}

#[test]
fn parts_read_back_whole() {
    for value in values(&ALPHABET, 3) {
        let long = format!("{value}{value}x{value}");
        for (settings, size) in BOTH.into_iter().flat_map(|settings| [4, 5, 7, 1000].map(|size| (settings, size))) {
            let parts = to_parts(&long, size, settings).unwrap();
            assert_eq!(whole(Kind::String, &parts).to_str_in(&parts, settings).unwrap(), long, "{parts}");
        }
    }
}

/// How a text in parts is put into a list of one literal a line: a space for each line feed, if the value holds none.
#[test]
fn parts_read_back_from_one_line() {
    for value in values(&ALPHABET, 2).into_iter().filter(|value| !value.contains('\n')) {
        let long = format!("{value}{value}x{value}{value}");
        for (settings, size) in BOTH.into_iter().flat_map(|settings| [4, 5, 7].map(|size| (settings, size))) {
            let parts = to_parts(&long, size, settings).unwrap();
            let row = parts.replace('\n', " ");
            assert_eq!(whole(Kind::String, &row).to_str_in(&row, settings).unwrap(), long, "{row}");
            let values: String = parts
                .lines()
                .map(|part| whole(Kind::String, part).to_str_in(part, settings).unwrap().into_owned())
                .collect();
            assert_eq!(values, long, "{parts}");
        }
    }
}

#[test]
fn nul_reads_back_where_it_can_be_written() {
    let literal = to_literal("a\0\0b", Settings::MYSQL).unwrap();
    assert_eq!(whole(Kind::String, &literal).to_str_in(&literal, Settings::MYSQL).unwrap(), "a\0\0b");
}

/// A text goes to the writers as it is, wherever it stands, and a `Cow` by `&*`.
#[test]
fn what_was_read_is_written_back() {
    for (row, due) in [("'Balm'", "E'Balm'"), ("'it''s'", "E'it''s'")] {
        let literal = whole(Kind::String, row);
        let mut out = [0; 8];
        let text = literal.as_str(row, &mut out).expect("a string");
        assert_eq!(to_escape(text).as_deref(), Ok(due));
        assert_eq!(to_escape(&*literal.to_str(row).expect("a string")).as_deref(), Ok(due));
        let bytes = literal.in_bytes(row.as_bytes()).as_str(&mut out).expect("a string");
        assert_eq!(to_escape(bytes).as_deref(), Ok(due));
    }
}
