//! Texts to ask about: each family's grammar with its corners, long runs, and damaged copies. All are UTF-8.

mod dates;
mod spellings;
mod units;
mod values;

use crate::rng::Rng;

/// The ends of White_Space's ten ranges, and characters beside them that are none.
const SPACES: [&str; 16] = [
    "\t", "\r", "\n", " ", "\x0b", "\x0c", "\u{85}", "\u{a0}", "\u{1680}", "\u{2000}", "\u{200a}", "\u{2028}",
    "\u{2029}", "\u{202f}", "\u{205f}", "\u{3000}",
];
const NO_SPACES: [&str; 12] = [
    "\x08", "\x0e", "\x1c", "\x1f", "\u{84}", "\u{a1}", "\u{180e}", "\u{200b}", "\u{2060}", "\u{3001}", "\u{feff}",
    "\0",
];
const WIDE: [&str; 14] = [
    "é",
    "ß",
    "\u{80}",
    "\u{7ff}",
    "\u{800}",
    "\u{d7ff}",
    "\u{e000}",
    "\u{ffff}",
    "\u{10000}",
    "😀",
    "\u{10ffff}",
    "９",
    "ſ",
    "\u{212a}",
];
const PLAIN: &str = "abcXYZeEnNuU0189fFgGxo_%+-!$&;,.()#|/ \t\n\x01\x7f";

pub struct Texts {
    pub rng: Rng,
}

impl Texts {
    fn odds(&mut self, thousandths: usize) -> bool {
        self.rng.odds(thousandths)
    }

    fn one(&mut self, of: &[&str]) -> String {
        self.rng.one(of).to_string()
    }

    fn letter(&mut self, of: &str) -> String {
        let at = self.rng.below(of.len());
        of[at..at + 1].to_string()
    }

    fn many(&mut self, low: usize, high: usize, mut make: impl FnMut(&mut Texts) -> String) -> String {
        (0..self.rng.within(low, high)).map(|_| make(self)).collect()
    }

    fn case(&mut self, text: &str) -> String {
        text.chars().map(|c| if self.rng.odds(500) { c.to_ascii_uppercase() } else { c.to_ascii_lowercase() }).collect()
    }

    fn hexes(&mut self, value: u32, width: usize) -> String {
        self.case(&format!("{value:0width$x}"))
    }

    fn plain(&mut self) -> String {
        if self.odds(120) {
            self.one(&WIDE)
        } else if self.odds(60) {
            self.one(&SPACES)
        } else {
            self.letter(PLAIN)
        }
    }

    fn gap(&mut self) -> String {
        if self.odds(60) {
            return self.one(&NO_SPACES);
        }
        self.many(0, 2, |t| if t.odds(400) { " ".into() } else { t.one(&SPACES) })
    }

    fn some_gap(&mut self) -> String {
        let gap = self.gap();
        if gap.is_empty() { self.one(&["", " ", "\n"]) } else { gap }
    }

    fn other(mark: &str) -> String {
        if mark == "'" { "\"".into() } else { "'".into() }
    }

    pub fn damaged(&mut self, text: &str) -> String {
        let mut characters: Vec<char> = text.chars().collect();
        for _ in 0..self.rng.one(&[1, 1, 1, 2]) {
            let at = self.rng.within(0, characters.len());
            let new = self.rng.one(&['\'', '"', '\\', '\0', ' ', '$', '_', 'E', 'a', '0', '\u{3000}', 'é']);
            match self.rng.below(100) {
                0..35 if at < characters.len() => {
                    characters.remove(at);
                }
                35..70 => characters.insert(at, new),
                70..90 if at < characters.len() => characters[at] = new,
                _ => characters.truncate(at),
            }
        }
        characters.into_iter().collect()
    }

    pub fn any(&mut self) -> String {
        match self.rng.below(8) {
            0..3 => self.string(),
            3 => self.bits(),
            4 => self.money(),
            5 => self.temporal(),
            6 => self.date(),
            _ => self.decimal(),
        }
    }

    pub fn value(&mut self) -> String {
        let most = self.rng.one(&[3, 12, 12, 150]);
        let nul = self.rng.one(&[0, 0, 30]);
        self.many(0, most, |t| match t.rng.below(1000) {
            0..120 => "'".into(),
            120..240 => "\\".into(),
            240..360 => t.one(&WIDE),
            360..460 => char::from(t.rng.within(0x01, 0x1F) as u8).into(),
            at if at < 460 + nul => "\0".into(),
            _ => t.plain(),
        })
    }

    pub fn padding(&mut self) -> String {
        match self.rng.below(8) {
            0..3 => String::new(),
            3..6 => self
                .many(1, 3, |t| if t.odds(300) { t.one(&["'", "\"", "\\", "$", "E", "_x", "\0"]) } else { t.plain() }),
            6 => self.one(&["é", "😀", "\u{3000}", "€"]),
            _ => self.any(),
        }
    }
}
