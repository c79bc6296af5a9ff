//! What several tests use.
#![allow(dead_code)] // each test uses a part

#[path = "../../examples/keys/places.rs"]
pub mod places;

use places::Place;
use valdrabus::{BitStringRadix, Error, Item, Kind, Literal, Settings, Span, Text, TimeZone};

/// What a buffer holds before a call, so that a changed byte shows.
pub const LENT: u8 = 0xA5;

pub const BINARY: Kind = Kind::BitString { radix: BitStringRadix::Binary };
pub const HEX: Kind = Kind::BitString { radix: BitStringRadix::Hex };

/// Each kind at its code less one, without data.
pub const KINDS: [Kind; 14] = [
    Kind::Integer,
    Kind::Float,
    Kind::Decimal,
    Kind::String,
    Kind::Boolean(true),
    Kind::Boolean(false),
    Kind::Null,
    Kind::Date,
    Kind::Time { time_zone: TimeZone::Unspecified },
    Kind::Timestamp { time_zone: TimeZone::Unspecified },
    Kind::Interval { fields: None, precision: None },
    BINARY,
    HEX,
    Kind::Money,
];

/// All values of up to so many characters of an alphabet, in the order of their lengths.
pub fn values(alphabet: &[char], most: usize) -> Vec<String> {
    let mut values = vec![String::new()];
    for len in 1..=most {
        let shorter = values.iter().filter(|value| value.chars().count() == len - 1).cloned().collect::<Vec<_>>();
        values.extend(shorter.iter().flat_map(|value| alphabet.iter().map(move |next| format!("{value}{next}"))));
    }
    values
}

pub fn whole(kind: Kind, source: impl AsRef<[u8]>) -> Literal {
    Literal::whole(kind, source).expect("a short text")
}

/// A literal of this text, which stands at a place of a longer source.
pub fn inside(kind: Kind, start: usize, text: &str) -> Literal {
    Literal::at(kind, Span::try_from(start..start + text.len()).expect("a short text"))
}

/// A file of the repository, by its path from this crate.
pub fn read(path: &str) -> String {
    let path = format!("{}/{path}", env!("CARGO_MANIFEST_DIR"));
    std::fs::read_to_string(&path).unwrap_or_else(|why| panic!("{path}: {why}"))
}

/// The rows of a file of `vectors/`, each by its columns.
pub fn table(name: &str) -> Vec<Vec<String>> {
    let text = read(&format!("../vectors/{name}.tsv"));
    let rows = text.lines().filter(|line| !line.starts_with('#'));
    rows.map(|row| row.split('\t').map(str::to_owned).collect()).collect()
}

pub fn unhex(text: &str) -> Vec<u8> {
    let digits = if text == "-" { "" } else { text };
    (0..digits.len()).step_by(2).map(|at| u8::from_str_radix(&digits[at..at + 2], 16).expect("hex")).collect()
}

/// Where a part stands in the whole that begins here.
pub fn place(whole: *const u8, part: &[u8]) -> usize {
    part.as_ptr().addr() - whole.addr()
}

/// An answer with whether it is borrowed, which equality of texts does not look at.
pub fn told<'t, T: ?Sized>(answer: Result<Text<'t, 't, T>, Error>) -> Result<(bool, &'t T), Error> {
    answer.map(|text| (text.is_borrowed(), text.into_ref()))
}

/// What an item is made of.
#[derive(Clone, Copy, Debug)]
pub struct Asked {
    pub literal: Literal,
    pub settings: Settings,
}

pub fn items(asked: &[Asked]) -> Vec<Item> {
    asked.iter().map(|asked| Item::new(asked.literal, asked.settings)).collect()
}

/// A sample list, and its rows.
pub fn list(name: &str) -> (String, Vec<Asked>) {
    let list = read(&format!("lists/{name}.txt"));
    let places = places::places(list.as_bytes(), Settings::STANDARD).expect("settings that can be read");
    let rows = places.into_iter().map(asked).collect();
    (list, rows)
}

fn asked(Place { bytes, settings, .. }: Place) -> Asked {
    let span = Span::try_from(bytes).expect("a short list");
    Asked { literal: Literal::at(Kind::String, span), settings }
}
