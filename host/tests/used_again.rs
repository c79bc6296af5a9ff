//! Strings into a text that is used again: the value of `to_str`, in place of what the text held; on a refusal, what it held.

mod common;

use common::{list, table, unhex, whole};
use valdrabus::*;

/// What a text of each of these capacities, holding what fits of "before", has behind the call: the value or what it held, and nothing else.
fn replaces(literal: Literal, source: &[u8], settings: Settings, name: &str) {
    let asked = literal.in_bytes(source);
    let due = asked.to_str_in(settings);
    for capacity in [0, 1, 3, 8, 200] {
        let mut bytes = Vec::with_capacity(capacity);
        bytes.extend_from_slice(&b"before"[..capacity.min(6)]);
        let held = bytes.clone();
        let answer = asked.read_str_in(settings, &mut bytes).map(<[u8]>::to_vec);
        assert_eq!(answer.as_deref(), due.as_deref(), "{name}");
        assert_eq!(bytes, *due.as_deref().unwrap_or(&held), "{name}");
    }
    let Ok(text) = std::str::from_utf8(source) else { return };
    let (mut string, due) = ("before".to_owned(), literal.to_str_in(text, settings));
    assert_eq!(literal.read_str_in(text, settings, &mut string), due.as_deref().map_err(|error| *error), "{name}");
    assert_eq!(string, due.as_deref().unwrap_or("before"), "{name}");
}

/// Every string of the files that are read as one, at both settings.
#[test]
fn the_strings_of_the_vectors() {
    let mut count = 0;
    for file in ["oracle", "clarified", "places"] {
        for row in table(file).iter().filter(|row| row[1].starts_with("string")) {
            let (source, [start, end]) = (unhex(&row[6]), [&row[4], &row[5]].map(|at| at.parse().expect("a place")));
            let literal = Literal::at(Kind::String, Span { start, end });
            for settings in [Settings::STANDARD, Settings::MYSQL] {
                replaces(literal, &source, settings, &row[0]);
            }
            count += 1;
        }
    }
    assert!(count > 1_000, "{count}");
}

#[test]
fn one_text_for_a_list() {
    let (text, rows) = list("wholesale");
    let (mut string, mut bytes) = (String::new(), Vec::new());
    for row in &rows {
        let due = row.literal.to_str_in(&text, row.settings).expect("a name");
        assert_eq!(row.literal.read_str_in(&text, row.settings, &mut string), Ok(&*due));
        let in_bytes = row.literal.in_bytes(text.as_bytes());
        assert_eq!(in_bytes.read_str_in(row.settings, &mut bytes), Ok(due.as_bytes()));
    }
    assert_eq!(string.as_bytes(), bytes);
}

/// The value ends where it ends, not where a longer one did that stood there before.
#[test]
fn a_shorter_value_leaves_nothing_of_a_longer_one() {
    let mut name = String::new();
    for (source, due) in [
        ("'Paracetamol' ' 500 mg'", "Paracetamol 500 mg"),
        ("'it''s'", "it's"),
        ("'é'", "é"),
        ("'' ''", ""),
        ("''", ""),
    ] {
        assert_eq!(whole(Kind::String, source).read_str(source, &mut name), Ok(due));
        assert_eq!(name, due);
    }
}

#[test]
fn refusals_leave_the_text() {
    let mut name = "Bob's balm, of which there is some".to_owned();
    let held = name.clone();
    let source = "'Balm' 'Balm";
    for (literal, number) in [
        (Literal::new(Kind::Date, 0..6), 1),
        (Literal::synthetic(Kind::String), 2),
        (Literal::new(Kind::String, 7..13), 3),
        (Literal::at(Kind::String, Span { start: 6, end: 0 }), 3),
        (Literal::new(Kind::String, 7..12), 6),
        (Literal::new(Kind::String, 0..12), 6),
    ] {
        assert_eq!(literal.read_str(source, &mut name).unwrap_err().number(), number);
        assert_eq!(name, held);
    }
    let mut bytes = b"\xFF\xFE".to_vec();
    let latin = Literal::new(Kind::String, 0..3).in_bytes(b"'\xE9'").read_str(&mut bytes).unwrap_err();
    assert_eq!((latin.number(), bytes), (4, b"\xFF\xFE".to_vec()));
}
