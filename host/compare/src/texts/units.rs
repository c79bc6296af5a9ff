//! What the bodies of strings are made of: characters, marks, escapes good and bad, and the UESCAPE clause.

use super::Texts;

const CODES: [u32; 20] = [
    0x0, 0x1, 0x27, 0x41, 0x5C, 0x7F, 0x80, 0x7FF, 0x800, 0xD7FF, 0xD800, 0xDBFF, 0xDC00, 0xDFFF, 0xE000, 0xFFFF,
    0x10000, 0x1F600, 0x10FFFF, 0x110000,
];
/// Sequences of bytes for an E string to expand to: whole characters, overlong forms, halves, what is too large or unfinished.
const BYTES: [&[u8]; 21] = [
    &[0xC3, 0xA9],
    &[0xE2, 0x82, 0xAC],
    &[0xF0, 0x9F, 0x98, 0x80],
    &[0xC0, 0x80],
    &[0xC1, 0xBF],
    &[0xE0, 0x9F, 0xBF],
    &[0xE0, 0xA0, 0x80],
    &[0xED, 0x9F, 0xBF],
    &[0xED, 0xA0, 0x80],
    &[0xF0, 0x8F, 0xBF, 0xBF],
    &[0xF0, 0x90, 0x80, 0x80],
    &[0xF4, 0x8F, 0xBF, 0xBF],
    &[0xF4, 0x90, 0x80, 0x80],
    &[0xF5, 0x80, 0x80, 0x80],
    &[0x80],
    &[0xC3],
    &[0xE2, 0x82],
    &[0xFF],
    &[0xF0, 0x9F, 0x98],
    &[0xC3, 0x41],
    &[0xC3, 0xC3, 0xA9],
];

impl Texts {
    pub(super) fn standard_unit(&mut self, mark: &str) -> String {
        match self.rng.below(1000) {
            0..140 => mark.repeat(2),
            140..400 => format!("\\{}", self.standard_escape(mark)),
            400..480 => Texts::other(mark),
            480..500 => "\0".into(),
            500..525 => mark.into(),
            _ => self.plain(),
        }
    }

    pub(super) fn standard_escape(&mut self, mark: &str) -> String {
        let rest = ["é", "😀", mark, &mark.repeat(2), ""];
        if self.odds(800) { self.letter("0bnrtZ%_zNBRTf'\"\\x8") } else { self.one(&rest) }
    }

    pub(super) fn standard_body(&mut self, mark: &str, most: usize) -> String {
        self.many(0, most, |t| t.standard_unit(mark))
    }

    pub(super) fn escape_unit(&mut self) -> String {
        match self.rng.below(1000) {
            0..100 => "''".into(),
            100..220 => {
                let rest = self.one(&["é", "😀", "\u{3000}", ""]);
                format!("\\{}", if self.odds(850) { self.letter("bfnrtvxXuU'\"\\a89NZ%_") } else { rest })
            }
            220..360 => self.octal(),
            360..480 => {
                let value = self.rng.one(&[0, 1, 4, 0x41, 0x7f, 0xc3, 0xa9, 0xff]);
                let width = self.rng.within(1, 2);
                format!("\\x{}{}", self.hexes(value, width), self.one(&["", "", "4", "g", "f"]))
            }
            480..600 => self.bytewise(),
            600..780 => self.scalar(),
            780..800 => self.one(&["\0", "\\\0"]),
            800..820 => "'".into(),
            820..860 => "\"".into(),
            _ => self.plain(),
        }
    }

    fn octal(&mut self) -> String {
        let value = self.rng.one(&[0, 1, 7, 0o12, 0o101, 0o177, 0o303, 0o251, 0o377, 0o400, 0o401, 0o477, 0o777]);
        let width = self.rng.one(&[1, 3]);
        format!("\\{value:0width$o}{}", self.one(&["", "", "0", "8", "g"]))
    }

    fn bytewise(&mut self) -> String {
        let bytes = self.rng.one(&BYTES);
        bytes
            .iter()
            .map(
                |&byte| {
                    if self.odds(600) { format!("\\x{}", self.hexes(byte.into(), 2)) } else { format!("\\{byte:03o}") }
                },
            )
            .collect()
    }

    fn scalar(&mut self) -> String {
        let (letter, width) = self.rng.one(&[("u", 4), ("U", 8)]);
        let code = self.rng.one(&CODES);
        let text = self.hexes(if width == 4 { code % 0x10000 } else { code }, width);
        let short = &text[..text.len() - 1];
        match self.rng.below(33) {
            0 => format!("\\{letter}{short}"),
            1 => format!("\\{letter}{short}g"),
            2 => format!("\\{letter}{}", &text[..2]),
            3 => format!("\\{letter}"),
            _ => format!("\\{letter}{text}"),
        }
    }

    pub(super) fn unicode_unit(&mut self, mark: &str, escape: &str) -> String {
        match self.rng.below(1000) {
            0..80 => mark.repeat(2),
            80..160 => escape.repeat(2),
            160..380 => {
                let code = self.rng.one(&CODES) % 0x10000;
                format!("{escape}{}{}", self.hexes(code, 4), self.one(&["", "", "1", "g"]))
            }
            380..540 => {
                let code = self.rng.one(&CODES);
                format!("{escape}+{}{}", self.hexes(code, 6), self.one(&["", "", "1", "g"]))
            }
            540..660 => self.halves(escape),
            660..710 => format!("{escape}{}", self.one(&["", "x", "004", "+0041", "004g", "+00004", "00", "n", "+"])),
            710..730 => self.one(&["\0", "\\", "!"]),
            730..750 => mark.into(),
            750..800 => Texts::other(mark),
            _ => self.plain(),
        }
    }

    fn halves(&mut self, escape: &str) -> String {
        let (high, low) =
            (self.rng.one(&[0xD800, 0xD83D, 0xDBFF]), self.rng.one(&[0xDC00, 0xDE00, 0xDFFF, 0xD800, 0xE000, 0x41]));
        let between = self.one(&["", "", "", "", " ", escape]);
        let wide = self.one(&["", "", "", "", "+00"]);
        format!("{escape}{}{between}{escape}{wide}{}", self.hexes(high, 4), self.hexes(low, 4))
    }

    pub(super) fn uescape_argument(&mut self, escape: &str) -> String {
        match self.rng.below(56) {
            0 => format!("\"{escape}\""),
            1 => escape.into(),
            2 => format!("'{escape}"),
            3 => "''".into(),
            4 => "''''".into(),
            5 => format!("'{escape}{escape}'"),
            6 => format!("'{escape}' "),
            7 => String::new(),
            _ => format!("'{escape}'"),
        }
    }

    pub(super) fn escape_character(&mut self) -> String {
        if self.odds(800) {
            return self.one(&["!", "\\", "_", "x", "g", "$", "é", "😀", "\u{200b}", "&"]);
        }
        self.one(&["a", "F", "9", "+", "'", "\"", " ", "\u{3000}", "\u{85}", "\0", "ab", "９"])
    }

    pub(super) fn clause(&mut self, escape: &str) -> String {
        let word = if self.odds(920) {
            self.case("uescape")
        } else {
            self.one(&["uescap", "escape", "UEſCAPE", "UESCAPEE", "UESCAPé"])
        };
        format!("{}{word}{}{}", self.gap(), self.gap(), self.uescape_argument(escape))
    }
}
