//! The helpers on bare text.

mod common;

use common::whole;
use std::borrow::Cow;
use valdrabus::*;

#[test]
fn radix_prefixes() {
    assert_eq!(split_radix_prefix("0x1F"), (16, "1F"));
    assert_eq!(split_radix_prefix("0O17"), (8, "17"));
    assert_eq!(split_radix_prefix("0b"), (2, ""));
    assert_eq!(split_radix_prefix("12"), (10, "12"));
    assert_eq!(split_radix_prefix("é"), (10, "é"));
    assert_eq!(split_radix_prefix(""), (10, ""));
    assert_eq!(split_radix_prefix_bytes(b"0x\xFF"), (16, &b"\xFF"[..]));
}

#[test]
fn escape_characters() {
    for legal in ["'!'", "'g'", r"'\'", "'é'", "'\0'"] {
        assert!(uescape_argument_is_legal(legal), "{legal}");
    }
    for illegal in ["!", "''", "'!!'", "'a'", "'+'", "' '", "'\u{3000}'", "''''", "'\"'", " '!'"] {
        assert!(!uescape_argument_is_legal(illegal), "{illegal}");
    }
    assert!(!uescape_argument_is_legal(b"'\xFF'"));
}

#[test]
fn validators() {
    assert!(postgres_escape_string_is_valid("E''"));
    assert!(!postgres_escape_string_is_valid("E'a'b'"));
    assert!(postgres_escape_string_is_valid(r"'\0'"));
    assert!(!postgres_escape_string_is_valid(b"\xFF"));
    assert!(unicode_escape_string_is_valid(r"U&'\0041'"));
    assert!(!unicode_escape_string_is_valid("U&'!' UESCAPE '!'"));
    assert!(unicode_escape_string_is_valid(r"'\'"));
    assert!(!unicode_escape_string_is_valid(b"\xFF"));
}

/// Where the validators and reading part ways: a text, what its validator says, and whether it reads.
#[test]
fn validators_are_not_reading() {
    let reads = |text| whole(Kind::String, text).to_str(text).is_ok();
    for (text, valid, read) in [
        ("E'a' 'b'", false, true),
        ("E'a' 'b' ", true, true),
        ("E'a\0'", true, false),
        ("E'\\\0'", false, false),
        ("E'a", true, false),
        ("E'a' ", true, false),
        (r"E'\xC3'", false, false),
        (r"N'\400'", true, true),
    ] {
        assert_eq!((postgres_escape_string_is_valid(text), reads(text)), (valid, read), "{text:?}");
    }
    for (text, valid, read) in [
        ("U&'a' 'b'", true, true),
        (r"U&'\D800' 'b'", true, false),
        ("U&'a\0'", true, false),
        ("U&'\\\0'", false, false),
        (r"U&'\D800", true, false),
        (r"U&'\D800' UESCAPE '+'", true, false),
        (r"U&'\D800' UESCAPE '!'", true, true),
    ] {
        assert_eq!((unicode_escape_string_is_valid(text), reads(text)), (valid, read), "{text:?}");
    }
}

#[test]
fn nul_and_identifiers() {
    assert!(string_literal_embeds_nul(b"\xFF\0"));
    assert!(!string_literal_embeds_nul(""));
    assert!(is_unicode_ident("u&\"x"));
    assert!(!is_unicode_ident("U&'a'"));
    assert!(is_unicode_ident(b"U&\"\xFF"));
}

#[test]
fn identifier_texts() {
    let mut out = [0; 4];
    assert!(matches!(materialize_unicode_ident("U&\"a''b\"", &mut out), Ok(Text::Borrowed("a''b"))));
    assert!(matches!(materialize_unicode_ident("U&\"a\"\"b\"", &mut out), Ok(Text::Written("a\"b"))));
    assert!(matches!(materialize_unicode_ident_bytes(b"U&\"\\0041\"", &mut out), Ok(Text::Written(b"A"))));
    assert_eq!(to_unicode_ident("U&\"\\0000\"").unwrap_err().number(), 6);
    let long = format!("U&\"{}\"", "\\00e9".repeat(200));
    assert_eq!(to_unicode_ident(&long).unwrap(), "é".repeat(200));
    assert_eq!(to_unicode_ident_bytes(long.as_bytes()).unwrap(), "é".repeat(200).as_bytes());
    assert!(matches!(to_unicode_ident_bytes(b"U&\"a\""), Ok(Cow::Borrowed(b"a"))));
    assert_eq!(to_unicode_ident_bytes(b"U&\"\xFF\"").unwrap_err().number(), 4);
}
