//! Every text of up to so many pieces between an opening and a closing, for each of several choices of pieces.

use crate::comparing::{Comparing, Outcome};
use crate::question::{Asked, Question};
use Question::*;

/// What is asked of a text: a question and a literal's kind. Strings are asked at both settings.
type Set = &'static [(Question, u32)];

struct Frame {
    name: &'static str,
    open: &'static str,
    pieces: &'static [&'static str],
    close: &'static str,
    /// How many pieces more than the run's number are taken.
    more: isize,
    set: Set,
}

const fn frame(
    name: &'static str,
    open: &'static str,
    pieces: &'static [&'static str],
    close: &'static str,
    more: isize,
    set: Set,
) -> Frame {
    Frame { name, open, pieces, close, more, set }
}

const STRINGS: Set = &[(Str, 4), (EscapeValid, 0), (UnicodeValid, 0)];
const STRINGS_ALONE: Set = &[(Str, 4)];
const BITS: Set = &[(Bits, 12), (Bits, 13), (Packed, 12), (Packed, 13)];
const EVERYTHING: Set = &[
    (Str, 4),
    (Plain, 4),
    (Charset, 4),
    (Temporal, 8),
    (Date, 8),
    (Source, 4),
    (Ident, 0),
    (IsIdent, 0),
    (EscapeValid, 0),
    (UnicodeValid, 0),
    (Uescape, 0),
    (Nul, 0),
];

const FRAMES: [Frame; 21] = [
    frame("any text", "", &["'", "\"", "\\", "E", "U", "&", "N", "_", "x", "$", " ", "0", "é"], "", 0, EVERYTHING),
    frame("'..'", "'", &["'", "\"", "\\", "0", "n", "Z", "%", "_", "é", "a", "\0"], "'", 0, STRINGS_ALONE),
    frame("\"..\"", "\"", &["'", "\"", "\\", "0", "b", "%", "é", "\0"], "\"", 0, STRINGS_ALONE),
    frame("E'..'", "E'", &["\\", "0", "1", "4", "7", "x", "C", "3", "u", "'", "n", "é"], "'", 0, STRINGS),
    frame(
        "E'..' of bytes",
        "e'",
        &[
            "\\xC3",
            "\\xA9",
            "\\251",
            "\\u00e9",
            "\\U0001F600",
            "\\xE2",
            "\\x82",
            "\\xF0",
            "\\x9F",
            "\\x8F",
            "\\xED",
            "\\xA0",
            "\\xF4",
            "\\x90",
            "\\x80",
            "é",
            "a",
        ],
        "'",
        -1,
        STRINGS,
    ),
    frame("U&'..'", "U&'", &["\\", "+", "0", "1", "D", "8", "'", "é"], "'", 1, STRINGS),
    frame(
        "U&'..' of halves",
        "u&'",
        &["\\D83D", "\\DE00", "\\+00DE00", "\\+01F600", "\\0041", "\\\\", "\\", "+", "''", "'", "\"", "0"],
        "'",
        0,
        STRINGS,
    ),
    frame(
        "U&'.. UESCAPE",
        "U&'!0041",
        &["'", " ", "\u{3000}", "UESCAPE", "uescape", "'!'", "!", "\"", "+", "a", "é'"],
        "",
        0,
        STRINGS,
    ),
    frame(
        "U&\"..",
        "U&\"",
        &["\\0041", "\"", "'", " UESCAPE ", "'!'", "!0041", "\0", "\\", "é"],
        "",
        0,
        &[(Ident, 0), (IsIdent, 0)],
    ),
    frame("U&\"..\"", "u&\"", &["\\", "+", "0", "1", "D", "8", "\"", "é"], "\"", 1, &[(Ident, 0)]),
    frame(
        "joined",
        "'a'",
        &[" ", "\u{3000}", "'b'", "\"c\"", "'", "E'\\n'", "N'd'", "_x'e'", "U&'\\0041'", "B'0'", "$$f$$", "\\", "x"],
        "",
        0,
        STRINGS,
    ),
    frame("dollar", "", &["$", "a", "_", "1", "é", "'", " ", "-"], "", 1, &[(Str, 4), (Temporal, 9), (Date, 8)]),
    frame(
        "numbers",
        "",
        &["0", "1", "7", "9", "f", "x", "o", "b", "_", "-", "+", "."],
        "",
        0,
        &[(I64, 1), (Decimal, 1), (Radix, 0)],
    ),
    frame(
        "numbers at the limits",
        "",
        &[
            "-",
            "+",
            "0x",
            "0o",
            "0B",
            "_",
            "0",
            "7FFFFFFFFFFFFFFF",
            "8000000000000000",
            "ffffffffffffffff",
            "9223372036854775807",
            "9223372036854775808",
            "777777777777777777777",
            "1000000000000000000000",
        ],
        "",
        0,
        &[(I64, 1), (Decimal, 3)],
    ),
    frame("bits", "", &["B", "x", "'", "0", "1", "f", " ", "\u{2028}", "\""], "", 1, BITS),
    frame("packed bits", "X'", &["0", "1", "10110", "0000000", "f", "8C", "' '", "'\n'"], "'", 0, BITS),
    frame(
        "temporal",
        "",
        &["DATE", " ", "'", "E", "e", "$", "\\", "a", "_", "é", "\""],
        "",
        0,
        &[(Temporal, 11), (Date, 8)],
    ),
    frame(
        "dates",
        "DATE '",
        &["2024", "2023", "0000", "1900", "-02", "-12", "-29", "-31", "-00", "0", "-", "' '", "''", "' E'", "\\x30"],
        "'",
        0,
        &[(Date, 8)],
    ),
    frame("money", "", &["$", "1", ".", ",", "é", "-", " "], "", -1, &[(Money, 14), (Source, 14)]),
    frame("charset names", "_", &["a", "9", "_", "'", "\"", " ", "é", "-"], "", 0, &[(Charset, 4), (Str, 4)]),
    frame(
        "UESCAPE arguments",
        "",
        &["'", "!", "a", "+", "\"", " ", "\u{3000}", "\u{200b}", "é", "\\", "\0"],
        "",
        -1,
        &[(Uescape, 0)],
    ),
];

/// What stands on both sides, in turn: a literal's meaning is its own text's.
pub const PADDING: [(&str, &str); 7] =
    [("", ""), ("'", "'"), ("é", "é"), ("E", " 'x'"), ("$$", "$$"), ("\\", "\\"), ("0x", "_1")];

/// A source that is built again and again: a literal with something on both sides.
#[derive(Default)]
pub struct Padded {
    source: String,
    turn: usize,
}

impl Padded {
    /// Asks everything of a set about a text, with the next padding.
    pub fn ask(&mut self, comparing: &mut Comparing, text: &str, set: &[(Question, u32)]) -> Outcome {
        let (before, behind) = PADDING[self.turn % PADDING.len()];
        self.turn += 1;
        self.source.clear();
        self.source.extend([before, text, behind]);
        let (start, end) = (before.len(), before.len() + text.len());
        comparing.tally.texts += 1;
        for &(question, kind) in set {
            let asked = Asked {
                question,
                kind,
                synthetic: 0,
                start: start as u32,
                end: end as u32,
                setting: 0,
                variety: self.turn as u8,
            };
            let source = if question.is_bare() { text } else { &self.source };
            comparing.ask(&asked, source.as_bytes())?;
            if question.is_set() {
                comparing.ask(&Asked { setting: 1, ..asked }, source.as_bytes())?;
            }
        }
        Ok(())
    }
}

pub fn run(comparing: &mut Comparing, pieces: usize) -> Outcome {
    let mut padded = Padded::default();
    for frame in &FRAMES {
        let (texts, before) = (comparing.tally.texts, comparing.tally.comparisons());
        for count in 0..=pieces.saturating_add_signed(frame.more) {
            every(comparing, &mut padded, frame, count)?;
        }
        report(frame.name, comparing, texts, before);
    }
    if pieces == 0 {
        return Ok(());
    }
    let (texts, before) = (comparing.tally.texts, comparing.tally.comparisons());
    placed(comparing, &mut padded)?;
    report("one odd piece at each place of a run", comparing, texts, before);
    let (texts, before) = (comparing.tally.texts, comparing.tally.comparisons());
    broken(comparing)?;
    report("broken bytes at each place of a run", comparing, texts, before);
    Ok(())
}

pub fn report(name: &str, comparing: &Comparing, texts: u64, before: u64) {
    println!(
        "{name:40}{:>10} texts {:>10} comparisons",
        comparing.tally.texts - texts,
        comparing.tally.comparisons() - before
    );
}

/// Every text of just so many pieces, counted through like a number with a digit for each.
fn every(comparing: &mut Comparing, padded: &mut Padded, frame: &Frame, count: usize) -> Outcome {
    let mut places = vec![0; count];
    let mut text = String::new();
    loop {
        text.clear();
        text.push_str(frame.open);
        text.extend(places.iter().map(|&place: &usize| frame.pieces[place]));
        text.push_str(frame.close);
        padded.ask(comparing, &text, frame.set)?;
        let Some(last) = places.iter().rposition(|&place| place + 1 < frame.pieces.len()) else {
            return Ok(());
        };
        places[last] += 1;
        places[last + 1..].fill(0);
    }
}

/// Runs longer than any block that code may take at once, with one odd piece at each place.
fn placed(comparing: &mut Comparing, padded: &mut Padded) -> Outcome {
    const SPELLINGS: [(&str, &str, Set); 8] = [
        ("'", "'", STRINGS_ALONE),
        ("\"", "\"", STRINGS_ALONE),
        ("E'", "'", STRINGS),
        ("U&'", "'", STRINGS),
        ("$$", "$$", STRINGS_ALONE),
        ("'' '", "'", STRINGS_ALONE),
        ("U&\"", "\"", &[(Ident, 0), (Nul, 0)]),
        ("DATE '", "' ", &[(Temporal, 10), (Date, 8)]),
    ];
    const ODD: [&str; 10] = ["'", "''", "\"", "\"\"", "\\", "\\n", "\0", "é", "😀", "\\0041"];
    for (open, close, set) in SPELLINGS {
        for odd in ODD {
            for (before, behind) in runs() {
                let text = format!("{open}{}{odd}{}{close}", "a".repeat(before), "b".repeat(behind));
                padded.ask(comparing, &text, set)?;
            }
        }
    }
    Ok(())
}

/// The same with bytes that are not UTF-8: cut short, overlong, a half, too large, or no part of any character.
fn broken(comparing: &mut Comparing) -> Outcome {
    const ODD: [&[u8]; 11] = [
        b"\x80",
        b"\xBF",
        b"\xC0\x80",
        b"\xC3",
        b"\xE2\x82",
        b"\xE0\x9F\xBF",
        b"\xED\xA0\x80",
        b"\xF0\x9F\x98",
        b"\xF0\x8F\xBF\xBF",
        b"\xF4\x90\x80\x80",
        b"\xFF",
    ];
    for odd in ODD {
        for (before, behind) in runs() {
            let source = [b"'", "a".repeat(before).as_bytes(), odd, "b".repeat(behind).as_bytes(), b"'"].concat();
            let end = source.len() as u32;
            comparing.tally.texts += 1;
            for question in [Str, Charset, Source, Ident, EscapeValid, UnicodeValid] {
                let asked = Asked { question, kind: 4, synthetic: 0, start: 0, end, setting: 0, variety: 0 };
                comparing.ask(&asked, &source)?;
            }
            // a span that ends before the broken bytes
            let early = Asked {
                question: Source,
                kind: 4,
                synthetic: 0,
                start: 0,
                end: 1 + before as u32,
                setting: 0,
                variety: 0,
            };
            comparing.ask(&early, &source)?;
        }
    }
    Ok(())
}

/// How many bytes stand before and behind the odd ones.
fn runs() -> impl Iterator<Item = (usize, usize)> {
    (0..72).chain([95, 96, 97, 127, 128, 129]).flat_map(|all| (0..=all).map(move |before| (before, all - before)))
}
