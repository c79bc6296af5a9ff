//! The sample lists, and how rows are shown: the examples `keys` and `block` find what the script that made the lists knows.

mod common;
#[path = "common/keys.rs"]
mod example;

use common::{places, read};
use example::*;

use counts::Counts;
use list::{List, Row};
use report::Which;
use shown::Look;
use std::borrow::Cow;
use std::collections::HashSet;
use valdrabus::{Error, Settings, to_escape, to_literal, to_parts, to_unicode};

/// The doubled products of a list, and the counts, as `block` prints them.
fn doubles(list: &List<'_>, look: Look) -> String {
    let lists = std::slice::from_ref(list);
    let products = products::products(lists);
    format!("{}{}\n", report::doubled(&products, look, false), Counts::of(lists, &products))
}

fn finds_its_doubles(name: &str, count: usize) {
    let text = read(&format!("lists/{name}.txt"));
    let list = listed(text.as_bytes(), Settings::STANDARD);
    assert_eq!(list.rows.len(), count);
    // A row that depends on the setting has a line more.
    let depending = list.rows.iter().filter(|row| row.other.is_some()).count();
    assert_eq!(report::rows(&list.rows, Which::All, Look::Marked).lines().count(), count + depending);
    assert_eq!(doubtful(&list.rows).lines().count(), 2 * depending);
    assert_eq!(doubles(&list, Look::Marked), read(&format!("lists/{name}.doubles")));
    one_call_finds_the_same(name, &text, &list.rows);
}

/// The keys row by row are those of one call, borrowed or written alike.
fn one_call_finds_the_same(name: &str, text: &str, rows: &[Row<'_>]) {
    let reading = one_call::read(text.as_bytes()).expect("settings that can be read");
    assert_eq!(doubles(&reading.list, Look::Marked), read(&format!("lists/{name}.doubles")));
    let mut used = 0;
    for (one, all) in rows.iter().zip(&reading.list.rows) {
        match (&one.key, &all.key) {
            (Ok(Cow::Borrowed(key)), Ok(Cow::Borrowed(same))) => assert!(std::ptr::eq(*key, *same)),
            (Ok(Cow::Owned(key)), Ok(Cow::Owned(same))) if key == same => used += key.len(),
            differ => panic!("line {}: {differ:?}", one.line),
        }
        assert_eq!(one.line, all.line);
    }
    assert_eq!((reading.list.rows.len(), reading.used), (rows.len(), used));
}

#[test]
fn the_ward_list() {
    finds_its_doubles("ward", 40);
}

#[test]
fn a_row_that_cannot_be_read_stops_nothing_in_one_call() {
    let list = b"'a'\n'b\n'\xFF'\r\n-- backslash on\n'\\a'\r\n";
    let reading = one_call::read(list).expect("settings that can be read");
    assert_eq!(reading.to_string(), "4 items in one call: 1 borrowed, 1 written into 1 bytes, 2 refused");
    let said = [
        "     2  refused: the text at 4..6 is not a readable string: reading stops at its byte 0 (number 6)",
        "        'b",
        "        ^",
        "     3  refused: the text at 7..10 is not UTF-8 (number 4)",
        "        '‹FF›'",
        "         ^",
    ];
    assert_eq!(doubtful(&reading.list.rows).lines().collect::<Vec<_>>(), said);
    let counts = "rows with a key: 2; different products: 1; doubled products: 1, in 2 rows; refused rows: 2";
    assert_eq!(doubles(&reading.list, Look::Marked), format!("doubled: a, on lines 1, 5\n{counts}\n"));
}

#[test]
fn the_wholesale_list() {
    finds_its_doubles("wholesale", 4_000);
}

/// Doubles do not show in the literals themselves. The one literal that stands twice means two products, by the setting.
#[test]
fn doubles_are_spelled_in_different_ways() {
    for name in ["ward", "wholesale"] {
        let text = read(&format!("lists/{name}.txt"));
        let literals: Vec<&str> = text.lines().filter(|line| !line.starts_with("--")).collect();
        let different: HashSet<&str> = literals.iter().copied().collect();
        assert_eq!(different.len(), literals.len() - 1, "{name}");
        assert_eq!(literals.iter().filter(|literal| **literal == r"'Lancet 1\30 mm'").count(), 2, "{name}");
    }
}

#[test]
fn a_row_that_cannot_be_read_stops_nothing() {
    let list = b"'a'\n\n-- none\n'b\n'\xFF'\r\n-- backslash on\n'a\\'\n'\\a'\r\n";
    let list = listed(list, Settings::STANDARD);
    let said = [
        "     1  a\t'a'",
        "     4  refused: the text at 0..2 is not a readable string: reading stops at its byte 0 (number 6)",
        "        'b",
        "        ^",
        "     5  refused: the text at 0..3 is not UTF-8 (number 4)",
        "        '‹FF›'",
        "         ^",
        "     7  a\\\t'a\\'",
        "     8  a\t'\\a'",
        "        with backslash off: \\a",
    ];
    assert_eq!(report::rows(&list.rows, Which::All, Look::Marked).lines().collect::<Vec<_>>(), said);
    assert_eq!(doubtful(&list.rows).lines().collect::<Vec<_>>(), [&said[1..7], &said[8..]].concat());
    let counts = "rows with a key: 3; different products: 2; doubled products: 1, in 2 rows; refused rows: 2";
    assert_eq!(doubles(&list, Look::Marked), format!("doubled: a, on lines 1, 8\n{counts}\n"));
}

/// The writer puts a line feed between parts, so each would be a row; as E or U&, whole, or in one line the name is one.
#[test]
fn a_name_in_parts_is_put_on_one_line() {
    let parts = to_parts("Paracetamol 500 mg", 8, Settings::STANDARD).expect("a short name");
    let rows = "     1  Paraceta\t'Paraceta'\n     2  mol 500 \t'mol 500 '\n     3  mg\t'mg'\n";
    assert_eq!(keys(&parts), Ok(rows.to_string()));
    for (settings, line) in [(Settings::STANDARD, "-- backslash off"), (Settings::MYSQL, "-- backslash on")] {
        for name in ["Paracetamol 500 mg", r"Bob's balm 5\10 ml", r"\ '' \ -- \' \"] {
            let in_parts = to_parts(name, 4, settings).map(|parts| parts.replace('\n', " "));
            for row in [to_escape(name), to_unicode(name), to_literal(name, settings), in_parts] {
                let row = row.expect("a short name");
                let said = keys(&format!("{line}\n{row}")).expect("settings that can be read");
                assert!(said.starts_with(&format!("     2  {name}\t{row}\n")), "{said}");
            }
        }
    }
}

/// E and U& spell a name with a line end on one line; plain, it would be two rows. A name with NUL has a plain literal alone, with the setting on.
#[test]
fn names_that_are_not_put_on_one_line_as_they_are() {
    for row in [to_escape("a\nb"), to_unicode("a\nb")] {
        let row = row.expect("a short name");
        assert_eq!(keys(&row), Ok(format!("     1  a‹0A›b\t{row}\n")));
    }
    for name in ["a\nb", "a\rb", "a\r\nb"] {
        let plain = to_literal(name, Settings::STANDARD).expect("a short name");
        assert_eq!(keys(&plain).map(|said| said.matches("refused").count()), Ok(2), "{name:?}");
    }
    assert_eq!(to_escape("a\0b"), Err(Error::HoldsNul));
    assert_eq!(to_unicode("a\0b"), Err(Error::HoldsNul));
    let plain = to_literal("a\0b", Settings::MYSQL).expect("a short name");
    let said = format!("     2  a‹00›b\t{plain}\n        with backslash off: {}\n", &plain[1..plain.len() - 1]);
    assert_eq!(keys(&format!("-- backslash on\n{plain}")), Ok(said));
}

#[test]
fn keys_that_differ_look_different() {
    let list = "E'a\\nb'\n'a‹0A›b'\nE'\\u0085\\x7F\\t'\n'\u{A0}›'\n'\t'\n";
    let said = [
        "     1  a‹0A›b\tE'a\\nb'",
        "     2  a‹2039›0A›b\t'a‹2039›0A›b'",
        "     3  ‹85›‹7F›‹09›\tE'\\u0085\\x7F\\t'",
        "     4  \u{A0}›\t'\u{A0}›'",
        "     5  ‹09›\t'‹09›'",
    ];
    assert_eq!(keys(list).expect("no settings").lines().collect::<Vec<_>>(), said);
}

#[test]
fn keys_are_spelled_where_that_is_asked() {
    let list = "'a\tb''s'\nE'a\\tb''s'\n'é\u{7F}'\n-- backslash on\n'\\0\\n'\n'b\n";
    let list = listed(list.as_bytes(), Settings::STANDARD);
    for (look, quoted, wide, other) in [
        (Look::Escape, r"E'a\tb''s'", r"U&'\00E9\007F'", r"E'\\0\\n'"),
        (Look::Unicode, r"U&'a\0009b''s'", r"U&'\00E9\007F'", r"U&'\\0\\n'"),
    ] {
        let said = [
            &format!("     1  {quoted}\t'a‹09›b''s'"),
            &format!("     2  {quoted}\tE'a\\tb''s'"),
            &format!("     3  {wide}\t'é‹7F›'"),
            "     5  no literal: ‹00›‹0A›\t'\\0\\n'",
            &format!("        with backslash off: {other}"),
            "     6  refused: the text at 0..2 is not a readable string: reading stops at its byte 0 (number 6)",
            "        'b",
            "        ^",
        ];
        assert_eq!(report::rows(&list.rows, Which::All, look).lines().collect::<Vec<_>>(), said);
        let counts = "rows with a key: 4; different products: 3; doubled products: 1, in 2 rows; refused rows: 1";
        assert_eq!(doubles(&list, look), format!("doubled: {quoted}, on lines 1, 2\n{counts}\n"));
    }
}

#[test]
fn a_spelled_key_is_a_row_itself_at_either_setting() {
    let text = read("lists/wholesale.txt");
    let list = listed(text.as_bytes(), Settings::STANDARD);
    for look in [Look::Escape, Look::Unicode] {
        let shown = report::rows(&list.rows, Which::All, look);
        let spelled: Vec<&str> =
            shown.lines().filter_map(|line| line[6..].trim_start().split_once('\t')).map(|(key, _)| key).collect();
        let spelled = spelled.join("\n");
        for settings in [Settings::STANDARD, Settings::MYSQL] {
            let again = listed(spelled.as_bytes(), settings);
            let keys = list.rows.iter().map(|row| &row.key);
            assert!(keys.eq(again.rows.iter().map(|row| &row.key)), "{look:?} {settings:?}");
            assert!(again.rows.iter().all(|row| row.other.is_none()), "{look:?} {settings:?}");
        }
    }
}

fn keys(list: &str) -> Result<String, String> {
    list::rows(list.as_bytes(), Settings::STANDARD).map(|rows| report::rows(&rows, Which::All, Look::Marked))
}

/// One literal, two products: the answer at the other setting is shown where it is another, and only there.
#[test]
fn a_row_that_depends_on_the_setting_is_marked() {
    for (row, off, on) in [
        (r"'Lancet 1\30 mm'", Some(r"Lancet 1\30 mm"), Some("Lancet 130 mm")),
        (r"'a\'b'", None, Some("a'b")),
        (r"'a\''b'", Some(r"a\'b"), None),
        (r#""a\"b""#, None, Some("a\"b")),
        (r"'a' 'b\n'", Some(r"ab\n"), Some("ab‹0A›")),
    ] {
        let said = |key: Option<&str>| key.unwrap_or("refused").to_owned();
        let lines = |list: String| keys(&list).expect("settings that can be read").lines().last().map(str::to_owned);
        let at_off = lines(format!("-- backslash off\n{row}"));
        assert_eq!(at_off, Some(format!("{:8}with backslash on: {}", "", said(on))), "{row}");
        let at_on = lines(format!("-- backslash on\n{row}"));
        assert_eq!(at_on, Some(format!("{:8}with backslash off: {}", "", said(off))), "{row}");
    }
    for row in ["'a'", r"E'\n'", r"E'\400'", r"U&'\0041'", r"$$\n$$", r"'\%'", r"'a\", r"'a\'", "'b"] {
        for settings in [Settings::STANDARD, Settings::MYSQL] {
            assert!(listed(row.as_bytes(), settings).rows[0].other.is_none(), "{row} {settings:?}");
        }
    }
    // Refused at either, if not at the same place.
    let [off, on] = [Settings::STANDARD, Settings::MYSQL].map(|settings| {
        let row = listed(br"'a\'b'c'", settings).rows.pop().expect("a row");
        assert!(row.other.is_none(), "{settings:?}");
        row.key.expect_err("a refusal").place()
    });
    assert_ne!(off, on);
}

#[test]
fn lines_end_with_lf_cr_lf_or_cr() {
    for list in ["'a'\n'b'\n\n'c'\n", "'a'\r'b'\r\r'c'\r", "'a'\r\n'b'\r\n\r\n'c'\r\n", "'a'\r\n'b'\n\r'c'"] {
        let lines: Vec<usize> = listed(list.as_bytes(), Settings::STANDARD).rows.iter().map(|row| row.line).collect();
        assert_eq!(lines, [1, 2, 4], "{list:?}");
    }
    // Other line ends of Unicode end no line.
    for list in ["'a'\u{85}'b'", "'a'\u{2028}'b'", "'a'\u{B}'b'", "'a'\u{C}'b'"] {
        let key = listed(list.as_bytes(), Settings::STANDARD).rows.pop().map(|row| row.key);
        assert_eq!(key, Some(Ok(Cow::Borrowed(&b"ab"[..]))), "{list:?}");
    }
}

#[test]
fn blank_lines_and_a_byte_order_mark_are_passed_over() {
    for line in ["", " ", "\t", "\u{C}", " \t \u{C} ", "--", "  -- a", "\t--'a'"] {
        assert_eq!(
            keys(&format!("{line}\n'a'\r{line}\r\n'b'\n{line}")).map(|said| said.lines().count()),
            Ok(2),
            "{line:?}"
        );
        assert_eq!(keys(&format!("\u{FEFF}{line}\n'a'")), Ok("     2  a\t'a'\n".to_string()), "{line:?}");
    }
    assert_eq!(keys("\u{FEFF}'a'"), Ok("     1  a\t'a'\n".to_string()));
    assert_eq!(keys("\u{FEFF}-- backslash on\n'\\%'"), Ok("     2  \\%\t'\\%'\n".to_string()));
    assert_eq!(keys("\u{FEFF}"), Ok(String::new()));
    // Anywhere else it is a part of a row.
    for list in ["\u{FEFF}\u{FEFF}'a'", "\n\u{FEFF}'a'", " \u{FEFF}'a'"] {
        assert!(keys(list).is_ok_and(|said| said.contains("refused")), "{list:?}");
    }
}

#[test]
fn case_and_spaces_do_not_count_in_a_setting() {
    for setting in
        ["-- backslash on", "-- backslash on ", "-- Backslash ON\u{C}", "\t--BACKSLASH On", "--  backslash on\t"]
    {
        let on = "     2  a\t'\\a'\n        with backslash off: \\a\n";
        assert_eq!(keys(&format!("{setting}\n'\\a'")), Ok(on.to_string()), "{setting:?}");
        let line = setting.to_lowercase().replace("on", "off");
        let off = "     3  \\a\t'\\a'\n        with backslash on: a\n";
        assert_eq!(keys(&format!("-- backslash on\n{line}\n'\\a'")), Ok(off.to_string()), "{line:?}");
    }
    // The row that is refused has three lines, and the one that depends on the setting two.
    assert_eq!(keys("-- back slash on\n-- the backslash is on\n-\n'\\a'").map(|said| said.lines().count()), Ok(5));
}

#[test]
fn a_setting_that_cannot_be_read_is_an_error() {
    for setting in ["-- backslash", "-- backslash  on", "-- Backslash one", "--backslashes on", " -- BACKSLASH: off"] {
        let due = format!("line 2: {setting:?} is neither -- backslash on nor -- backslash off");
        assert_eq!(keys(&format!("'a'\n{setting}\r\n'b'")), Err(due));
    }
}
