//! Strings in every spelling, alone and joined.

use super::{Texts, WIDE};

impl Texts {
    pub fn unicode(&mut self, mark: &str, most: usize, clauses: usize) -> String {
        let start = self.one(&["U&", "u&"]);
        if self.odds(clauses) {
            let escape = self.escape_character();
            let body = self.many(0, most, |t| t.unicode_unit(mark, &escape));
            return format!("{start}{mark}{body}{mark}{}", self.clause(&escape));
        }
        let body = self.many(0, most, |t| t.unicode_unit(mark, "\\"));
        let gap = if self.odds(150) { self.gap() } else { String::new() };
        format!("{start}{mark}{body}{mark}{gap}")
    }

    pub fn single(&mut self, most: usize) -> String {
        format!("'{}'", self.standard_body("'", most))
    }

    pub fn double(&mut self, most: usize) -> String {
        format!("\"{}\"", self.standard_body("\"", most))
    }

    pub fn escaped(&mut self, most: usize) -> String {
        let body = self.many(0, most, Texts::escape_unit);
        format!("{}'{body}'", self.letter("Ee"))
    }

    pub fn national(&mut self, most: usize) -> String {
        format!("{}{}", self.letter("Nn"), self.single(most))
    }

    pub fn charset(&mut self, most: usize) -> String {
        let mark = self.letter("''\"");
        let good = ["utf8mb4", "latin1", "a", "_", "0", "B_2", "Utf8", "binary", "z9", "A", "Z"];
        let name = if self.odds(900) { self.one(&good) } else { self.one(&["", "é", "a ", "a-b", "a$", "ａ"]) };
        let close = if self.odds(950) { mark.clone() } else { String::new() };
        format!("_{name}{mark}{}{close}", self.standard_body(&mark, most))
    }

    pub fn dollar(&mut self) -> String {
        let good = ["", "", "", "a", "A", "_", "é", "ab1", "tag", "\u{3000}", "z_9", "Z"];
        let tag = if self.odds(900) { self.one(&good) } else { self.one(&["1", "a b", "-", "a-", "9a"]) };
        let close = if self.odds(900) { tag.clone() } else { self.one(&["a", "", "A", &format!("{tag}1")]) };
        let inner = ["$", "$$", &format!("${tag}$"), "'", "\"", "\\n", "\\", "x", "é"];
        let body = self.many(0, 5, |t| if t.odds(400) { t.one(&inner) } else { t.plain() });
        let behind = if self.odds(140) { self.one(&[" ", "x"]) } else { String::new() };
        format!("${tag}${body}${close}${behind}")
    }

    fn first_segment(&mut self) -> String {
        match self.rng.below(7) {
            0 | 1 => self.single(3),
            2 => self.double(3),
            3 => self.escaped(3),
            4 => self.national(3),
            5 => self.charset(3),
            _ => self.unicode("'", 3, 60),
        }
    }

    fn later_segment(&mut self) -> String {
        if self.odds(780) {
            return if self.odds(667) { self.single(3) } else { self.double(3) };
        }
        match self.rng.below(6) {
            0 => self.escaped(2),
            1 => self.national(2),
            2 => self.charset(2),
            3 => self.unicode("'", 2, 60),
            4 => self.bit(2),
            _ => self.dollar(),
        }
    }

    pub fn joined(&mut self) -> String {
        let mut text = self.first_segment();
        for at in 0..self.rng.within(1, 3) {
            text += &self.some_gap();
            text += &if at == 0 && self.odds(750) { self.single(3) } else { self.later_segment() };
        }
        text + &self.one(&["", "", "", " ", "\n", "\u{3000}", "x"])
    }

    pub fn long(&mut self) -> String {
        let (open, close) = self.rng.one(&[
            ("'", "'"),
            ("\"", "\""),
            ("E'", "'"),
            ("N'", "'"),
            ("_utf8'", "'"),
            ("U&'", "'"),
            ("U&'", "' UESCAPE '!'"),
            ("$$", "$$"),
            ("$tag$", "$tag$"),
            ("'a' '", "'"),
            ("'", "' 'b' \"c\""),
            ("DATE '", "' "),
            ("U&\"", "\""),
        ]);
        let (wide, odd) = (self.rng.one(&[0, 0, 100, 900]), self.rng.one(&[0, 3, 3, 10, 40]));
        let most = if self.odds(990) { 200 } else { 5000 };
        let body = self.many(0, most, |t| match t.rng.below(1000) {
            at if at < odd => {
                t.one(&["''", "\"\"", "'", "\"", "\\", "\\\\", "\\n", "\\xC3\\xA9", "\\0041", "!0041", "\0", "$", "$$"])
            }
            at if at < odd + wide => t.one(&WIDE),
            _ => t.letter("abcdefghijklmnopqrstuvwxyz 0123456789"),
        });
        format!("{open}{body}{close}")
    }

    pub fn string(&mut self) -> String {
        match self.rng.below(10) {
            0 => self.single(6),
            1 => self.double(6),
            2 | 3 => self.escaped(4),
            4 => self.national(5),
            5 => self.charset(5),
            6 => self.unicode("'", 4, 500),
            7 => self.dollar(),
            8 => self.joined(),
            _ => self.long(),
        }
    }
}
