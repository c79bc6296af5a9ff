//! Values as `E'..'` and `U&'..'`: what is written and refused, and that every character reads back, at both settings.

mod common;

use common::{LENT, values, whole};
use std::fmt::Write;
use valdrabus::*;

const BOTH: [Settings; 2] = [Settings::STANDARD, Settings::MYSQL];

/// One of the two spellings, with what is known of its texts.
struct Form {
    write: for<'b> fn(&[u8], &'b mut [u8]) -> Result<&'b str, Error>,
    opening: &'static str,
    /// Which bytes a text may have.
    shows: fn(u8) -> bool,
    /// The most bytes of the text for each byte of the value, besides the marks.
    most: usize,
    spelled: fn(char, &mut String),
}

const ESCAPE: Form = Form {
    write: |value, out| write_escape(value, out),
    opening: "E'",
    shows: |byte| byte >= 0x20,
    most: 4,
    spelled: escape,
};

const UNICODE: Form = Form {
    write: |value, out| write_unicode(value, out),
    opening: "U&'",
    shows: |byte| (0x20..=0x7E).contains(&byte),
    most: 5,
    spelled: unicode,
};

/// Puts a character into an E text, by the request's sentence.
fn escape(character: char, text: &mut String) {
    match character {
        '\\' => text.push_str(r"\\"),
        '\'' => text.push_str("''"),
        '\x08' => text.push_str(r"\b"),
        '\x0C' => text.push_str(r"\f"),
        '\n' => text.push_str(r"\n"),
        '\r' => text.push_str(r"\r"),
        '\t' => text.push_str(r"\t"),
        '\x01'..='\x1F' => write!(text, "\\{:03o}", u32::from(character)).expect("a String takes all"),
        _ => text.push(character),
    }
}

/// Puts a character into a U& text, by the request's sentence.
fn unicode(character: char, text: &mut String) {
    match character {
        '\\' => text.push_str(r"\\"),
        '\'' => text.push_str("''"),
        ' '..='~' => text.push(character),
        '\x01'..='\u{FFFF}' => write!(text, "\\{:04X}", u32::from(character)).expect("a String takes all"),
        _ => write!(text, "\\+{:06X}", u32::from(character)).expect("a String takes all"),
    }
}

impl Form {
    fn due(&self, value: &str) -> String {
        let mut text = self.opening.to_owned();
        value.chars().for_each(|character| (self.spelled)(character, &mut text));
        text.push('\'');
        text
    }
}

/// Whether a value is written as a text that shows what it may, that both validators take, and that is read as the value at both settings: a part of the text where nothing was escaped.
fn reads_back(form: &Form, value: &str, text: &str) -> bool {
    let plain = form.opening.len() + value.len() + 1;
    let mut out = [0; 16];
    text.bytes().all(form.shows)
        && text.len() <= form.most * value.len() + form.opening.len() + 1
        && postgres_escape_string_is_valid(text)
        && unicode_escape_string_is_valid(text)
        && BOTH.iter().all(|settings| {
            let read = whole(Kind::String, text).as_str_in(text, *settings, &mut out);
            read.is_ok_and(|read| *read == *value && read.is_borrowed() == (text.len() == plain))
        })
}

/// Every character but NUL: alone, and behind a quote and before digits that an escape must not draw in.
fn every_character_reads_back(form: &Form) {
    let (mut out, mut value, mut characters) = ([0; 32], String::new(), 0);
    for character in '\x01'..=char::MAX {
        for (before, behind) in [("", ""), ("'", "1A")] {
            value.clear();
            value.push_str(before);
            value.push(character);
            value.push_str(behind);
            let text = (form.write)(value.as_bytes(), &mut out).expect("a value that can be written");
            assert_eq!(text, form.due(&value));
            assert!(reads_back(form, &value, text), "{value:?} as {text:?}");
        }
        characters += 1;
    }
    assert_eq!(characters, 0x11_0000 - 0x800 - 1);
}

#[test]
fn every_character_reads_back_from_an_e_text() {
    every_character_reads_back(&ESCAPE);
}

#[test]
fn every_character_reads_back_from_a_u_text() {
    every_character_reads_back(&UNICODE);
}

#[test]
fn characters_in_company_read_back() {
    let alphabet = ['a', '1', 'F', '+', '\'', '\\', '"', '\x01', '\n', '\x1F', '\x7F', 'é', '\u{FFFF}', '😀'];
    let values = values(&alphabet, 3);
    assert_eq!(values.len(), 1 + 14 + 196 + 2744);
    for (form, value) in [ESCAPE, UNICODE].iter().flat_map(|form| values.iter().map(move |value| (form, value))) {
        let mut out = [LENT; 64];
        let text = (form.write)(value.as_bytes(), &mut out).expect("a value that can be written");
        assert_eq!(text, form.due(value));
        assert!(reads_back(form, value, text), "{value:?} as {text:?}");
    }
}

/// The numbers for both forms in a buffer of so many bytes, which must stay as it is lent.
fn refusals(value: &[u8], room: usize) -> [Error; 2] {
    [ESCAPE, UNICODE].map(|form| {
        let mut out = vec![LENT; room];
        let error = (form.write)(value, &mut out).expect_err("a refusal");
        assert!(out.iter().all(|&byte| byte == LENT), "{error}");
        error
    })
}

#[test]
fn the_longest_value_is_measured_and_a_longer_one_is_not_read() {
    let mut value = vec![0; LONGEST_VALUE + 1];
    for byte in [0x00, 0xFF, b'a'] {
        value.fill(byte);
        assert_eq!(refusals(&value, 16), [Error::OverLimit; 2]);
    }
    let last = LONGEST_VALUE - 1;
    for (byte, error) in [(0xFF, Error::NotUtf8 { span: None }), (0x00, Error::HoldsNul)] {
        value[last] = byte;
        assert_eq!(refusals(&value[..=last], 16), [error; 2]);
    }
    for (byte, needed) in [(b'a', [268_435_459, 268_435_460]), (0x01, [1_073_741_827, 1_342_177_284])] {
        value.fill(byte);
        assert_eq!(refusals(&value[..=last], 0), needed.map(|needed| Error::NoRoom { needed }));
    }
}
