//! The example `keys` as an import check: what it makes of good and bad files, and the status that it ends with.

#[path = "common/run.rs"]
mod run;

use run::{Ran, file, program, run, start};
use std::os::unix::ffi::OsStrExt;
use std::process::Stdio;

/// What `keys` says of a list on its standard input, and its status.
fn keys(words: &[&str], list: impl AsRef<[u8]>) -> (Option<i32>, String) {
    let Ran { status, out, error } = run("keys", words, list.as_ref());
    assert_eq!(error, "", "{words:?}");
    (status, out)
}

/// Why `keys` says nothing of a list on its standard input.
fn failed(words: &[&str], list: impl AsRef<[u8]>) -> String {
    let Ran { status, out, error } = run("keys", words, list.as_ref());
    assert_eq!((status, &out[..]), (Some(2), ""), "{words:?}");
    error
}

fn summary(with_key: usize, different: usize, doubled: (usize, usize), refused: usize, depending: usize) -> String {
    format!(
        "rows with a key: {with_key}; different products: {different}; doubled products: {}, in {} rows; refused rows: {refused}; rows that depend on the setting: {depending}\n",
        doubled.0, doubled.1
    )
}

/// The page on lists shows a list, and what is said of it.
#[test]
fn the_pages_sample() {
    let page = std::fs::read_to_string("lists/README.md").expect("the page");
    let shown: Vec<&str> = page.split("```text\n").skip(1).filter_map(|rest| rest.split("```").next()).collect();
    let [list, said] = shown[..] else { panic!("{} samples", shown.len()) };
    assert_eq!(keys(&["--doubles"], list), (Some(3), said.to_owned() + &summary(5, 4, (1, 2), 1, 1)));
}

#[test]
fn a_status_for_doubles_and_one_for_refusals() {
    for (list, status, counts) in [
        ("'a'\n'b'\n", 0, summary(2, 2, (0, 0), 0, 0)),
        ("'a'\n'b\n", 1, summary(1, 1, (0, 0), 1, 0)),
        ("'a'\nE'\\x61'\n", 3, summary(2, 1, (1, 2), 0, 0)),
        ("'a'\n'b\nN'a'\n$$a$$\n'c'\n'c'", 3, summary(5, 2, (2, 5), 1, 0)),
        ("'1\\2'\n", 0, summary(1, 1, (0, 0), 0, 1)),
        ("'1\\'\\n'\n'b", 1, summary(0, 0, (0, 0), 2, 1)),
        ("'a '\n'a'\n", 0, summary(2, 2, (0, 0), 0, 0)),
        ("", 0, summary(0, 0, (0, 0), 0, 0)),
        ("\n \r\n-- none\n", 0, summary(0, 0, (0, 0), 0, 0)),
        ("\u{FEFF}", 0, summary(0, 0, (0, 0), 0, 0)),
    ] {
        let (ended, out) = keys(&[], list);
        assert!(out.ends_with(&counts), "{list:?}: {out}");
        assert_eq!(ended, Some(status), "{list:?}");
        assert_eq!(keys(&["-"], list), (ended, out));
    }
}

/// A file of CR alone is no single row whose literals are joined.
#[test]
fn line_ends_and_a_byte_order_mark() {
    for list in ["'a'\r'b'\r", "'a'\r\n'b'\r\n", "'a'\n'b'", "\u{FEFF}'a'\r'b'", "\u{FEFF}'a'\n'b'\r"] {
        let due = "     1  a\t'a'\n     2  b\t'b'\n".to_owned() + &summary(2, 2, (0, 0), 0, 0);
        assert_eq!(keys(&[], list), (Some(0), due), "{list:?}");
    }
}

#[test]
fn doubles_across_files() {
    let ward = file("keys ward.txt", b"'a'\n'b'\n'a'");
    let stock = file("keys stock\n.txt", b"\xEF\xBB\xBF-- stock\r'c'\rE'b'\r'c\r");
    let [ward, stock] = [&ward, &stock].map(|path| path.to_str().expect("UTF-8"));
    let (ward_shown, stock_shown) = (ward, stock.replace('\n', "‹0A›"));
    let rows = [
        format!("{ward_shown}\n     1  a\t'a'\n     2  b\t'b'\n     3  a\t'a'\n"),
        format!("{stock_shown}\n     2  c\t'c'\n     3  b\tE'b'\n"),
        "     4  refused: the text at 0..2 is not a readable string: reading stops at its byte 0 (number 6)\n        'c\n        ^\n".to_owned(),
    ];
    let doubled = format!(
        "doubled: a, on lines {ward_shown}:1, {ward_shown}:3\ndoubled: b, on lines {ward_shown}:2, {stock_shown}:3\n"
    );
    let counts = summary(5, 3, (2, 4), 1, 0);
    assert_eq!(keys(&[ward, stock], ""), (Some(3), rows.concat() + &doubled + &counts));
    let shown = format!("{ward_shown}\n{stock_shown}\n{}{doubled}{counts}", rows[2]);
    assert_eq!(keys(&["--doubles", ward, stock], ""), (Some(3), shown));
    let (status, out) = keys(&[ward, "-", "--doubles"], "'b'");
    assert_eq!(status, Some(3));
    assert!(out.contains(&format!("\ndoubled: b, on lines {ward_shown}:2, -:1\n")), "{out}");
    // Nothing is said of the others where one cannot be read.
    assert_eq!(failed(&[ward, "lists/none"], ""), "keys: lists/none: No such file or directory (os error 2)\n");
    let why = "line 1: \"-- backslash\" is neither -- backslash on nor -- backslash off";
    assert_eq!(failed(&[ward, "-"], "-- backslash\n"), format!("keys: -: {why}\n"));
}

#[test]
fn the_setting_is_no_trap() {
    let list = r"'Lancet 1\30 mm'";
    let counts = summary(1, 1, (0, 0), 0, 1);
    let off = format!("     1  Lancet 1\\30 mm\t{list}\n        with backslash on: Lancet 130 mm\n{counts}");
    let on = format!("     1  Lancet 130 mm\t{list}\n        with backslash off: Lancet 1\\30 mm\n{counts}");
    assert_eq!(keys(&["--doubles"], list), (Some(0), off));
    assert_eq!(keys(&["--doubles", "--backslash"], list), (Some(0), on));
    let help = keys(&["--help"], "").1;
    assert!(help.contains("standard_conforming_strings = on") && help.contains("NO_BACKSLASH_ESCAPES"), "{help}");
}

/// Every byte, and every two bytes: a line is refused or has a key, and nothing that a terminal would obey is printed.
#[test]
fn a_binary_file() {
    let bytes: Vec<u8> = (0..=u8::MAX).flat_map(|first| (0..=u8::MAX).flat_map(move |next| [first, next])).collect();
    for list in [&bytes[..], &[0; 4096], &[0xFF; 4096], b"\x7FELF\x02\x01\x01\0\0"] {
        for words in [&[][..], &["--json"], &["--spell", "escape"], &["--backslash"]] {
            let (status, out) = keys(words, list);
            assert_eq!(status, Some(1));
            let told = |next: char| next.is_control() && !matches!(next, '\n' | '\t');
            assert_eq!(out.find(told), None);
        }
    }
}

#[test]
fn a_huge_line() {
    let long = "x".repeat(8 << 20);
    let (status, out) = keys(&["--doubles"], format!("'{long}'\nE'{long}'\r'{long}"));
    assert_eq!(status, Some(3));
    let refused = format!("\n        '{}…\n        ^\n", &long[..39]);
    assert!(out.contains(&refused));
    assert!(out.ends_with(&format!("x, on lines 1, 2\n{}", summary(2, 1, (1, 2), 1, 0))));
    assert_eq!(keys(&[], format!("'{long}'")).0, Some(0));
    // Parts without end, and a row of quotes.
    assert_eq!(keys(&["--doubles"], "'a' ".repeat(1 << 20)).0, Some(0));
    assert_eq!(keys(&["--doubles"], "'".repeat((4 << 20) + 1)).0, Some(1));
}

/// A directory as standard input, and one that is open for writing alone.
#[test]
fn a_standard_input_that_cannot_be_read() {
    let written = std::fs::File::create(file("keys written", b"")).expect("a file");
    let folder = std::fs::File::open("lists").expect("a folder");
    for (input, why) in [(folder, "Is a directory (os error 21)"), (written, "Bad file descriptor (os error 9)")] {
        let child = start(program("keys").stdin(input).stdout(Stdio::piped()).stderr(Stdio::piped()));
        let output = child.wait_with_output().expect("a program that ends");
        assert_eq!((output.status.code(), &output.stdout[..]), (Some(2), &b""[..]));
        assert_eq!(String::from_utf8_lossy(&output.stderr), format!("keys: -: {why}\n"));
    }
}

#[test]
fn a_name_that_is_not_utf_8() {
    let name = std::ffi::OsStr::from_bytes(b"keys \xFF.txt");
    let path = std::path::Path::new(env!("CARGO_TARGET_TMPDIR")).join(name);
    std::fs::write(&path, b"'a'\n'a'").expect("a file");
    let ran = run("keys", &[path.as_os_str(), path.as_os_str(), "--json".as_ref()], b"");
    assert_eq!((ran.status, &ran.error[..]), (Some(3), ""));
    assert!(ran.out.contains("keys \u{FFFD}.txt\", \"line\": 2"), "{}", ran.out);
}

/// All of it, on texts that JSON has to escape.
#[test]
fn json() {
    let list = b"'a\"\\b'\n'\xE2\x80\xA8\x01\xC2\x85'\n'\xF0\x9F\xA9\xB9\xFF'\n'\xC3\xA9's'\n'a '\n-- backslash on\n'\\0'\n'a'\n'\\a '\n";
    let due = [
        r#"{"rows": ["#,
        r#"{"file": "-", "line": 1, "backslash": false, "literal": "'a\"\\b'", "key": "a\"\\b", "refusal": null, "other_setting": {"backslash": true, "key": "a\"\u0008"}},"#,
        r#"{"file": "-", "line": 2, "backslash": false, "literal": "'\u2028\u0001\u0085'", "key": "\u2028\u0001\u0085", "refusal": null, "other_setting": null},"#,
        r#"{"file": "-", "line": 3, "backslash": false, "literal": null, "literal_hex": "27f09fa9b9ff27", "key": null, "refusal": {"number": 4, "message": "the text at 0..7 is not UTF-8 (number 4)", "place": 5, "character": null}, "other_setting": null},"#,
        r#"{"file": "-", "line": 4, "backslash": false, "literal": "'é's'", "key": null, "refusal": {"number": 6, "message": "the text at 0..6 is not a readable string: reading stops at its byte 3 (number 6)", "place": 3, "character": 2}, "other_setting": null},"#,
        r#"{"file": "-", "line": 5, "backslash": false, "literal": "'a '", "key": "a ", "refusal": null, "other_setting": null},"#,
        r#"{"file": "-", "line": 7, "backslash": true, "literal": "'\\0'", "key": "\u0000", "refusal": null, "other_setting": {"backslash": false, "key": "\\0"}},"#,
        r#"{"file": "-", "line": 8, "backslash": true, "literal": "'a'", "key": "a", "refusal": null, "other_setting": null},"#,
        r#"{"file": "-", "line": 9, "backslash": true, "literal": "'\\a '", "key": "a ", "refusal": null, "other_setting": {"backslash": false, "key": "\\a "}}],"#,
        r#""doubled": ["#,
        r#"{"key": "a ", "rows": [{"file": "-", "line": 5}, {"file": "-", "line": 9}]}],"#,
        r#""look_alike": ["#,
        r#"{"differ_by": ["trailing white space"], "keys": [{"key": "a ", "spelled": "U&'a '", "rows": [{"file": "-", "line": 5}, {"file": "-", "line": 9}]}, {"key": "a", "spelled": "U&'a'", "rows": [{"file": "-", "line": 8}]}]}],"#,
        r#""counts": {"rows_with_a_key": 6, "different_products": 5, "doubled_products": 1, "rows_of_doubled_products": 2, "refused_rows": 2, "rows_that_depend_on_the_setting": 3}}"#,
    ];
    let (status, out) = keys(&["--json"], list);
    assert_eq!(out.lines().collect::<Vec<_>>(), due);
    assert_eq!(status, Some(3));
    // --doubles leaves out the same rows as without it.
    let (_, out) = keys(&["--json", "--doubles"], list);
    let kept = [&due[..2], &due[3..5], &due[6..7], &due[8..]].concat();
    assert_eq!(out.lines().collect::<Vec<_>>(), kept);
    let empty = "{\"rows\": [],\n\"doubled\": [],\n\"look_alike\": [],\n\"counts\": {";
    assert!(keys(&["--json"], "").1.starts_with(empty));
}

#[test]
fn json_with_spellings() {
    let (_, out) = keys(&["--json", "--spell", "escape", "--backslash"], "'é\\n'\n'\\0'\n");
    let rows: Vec<&str> = out.lines().skip(1).take(2).collect();
    assert!(rows[0].contains(r#""key": "é\u000a", "spelled": "E'é\\n'", "refusal""#), "{}", rows[0]);
    assert!(rows[0].contains(r#"{"backslash": false, "key": "é\\n", "spelled": "E'é\\\\n'"}"#), "{}", rows[0]);
    assert!(rows[1].contains(r#""key": "\u0000", "spelled": null, "refusal""#), "{}", rows[1]);
}
