//! Numbers, bit strings, money, temporal texts, and what the helpers are asked.

use super::{NO_SPACES, SPACES, Texts, WIDE};

impl Texts {
    fn bit_digit(&mut self) -> String {
        if self.odds(50) {
            return self.one(&["g", "G", "''", "\"", "\\", " ", "_", "\0", "é", "２"]);
        }
        if self.odds(800) { self.letter("01") } else { self.letter("23456789abcdefABCDEF") }
    }

    pub fn bit(&mut self, most: usize) -> String {
        let digits = self.many(0, most, Texts::bit_digit);
        format!("{}'{digits}'", self.letter("BbXx"))
    }

    pub fn bits(&mut self) -> String {
        let mut text = self.bit(6);
        if self.odds(550) {
            return text;
        }
        for _ in 0..self.rng.within(0, 2) {
            text += &self.some_gap();
            text += &match self.rng.below(30) {
                0 => self.bit(2),
                1 => self.double(2),
                2 => self.escaped(2),
                _ => format!("'{}'", self.many(0, 3, Texts::bit_digit)),
            };
        }
        text + &self.one(&["", "", " ", "\u{2028}", "x"])
    }

    /// Digits of one base, up to some hundreds, in segments that end anywhere.
    pub fn many_bits(&mut self) -> String {
        let digits = self.rng.one(&["01", "01", "0123456789abcdefABCDEF"]);
        let most = self.rng.one(&[20, 80, 400]);
        let cuts = self.rng.one(&[0, 20, 200]);
        let body =
            self.many(0, most, |t| if t.odds(cuts) { format!("'{}'", t.one(&SPACES)) } else { t.letter(digits) });
        format!("{}'{body}'{}", self.letter("BbXx"), self.one(&["", "", "", " ", "\u{3000}\n"]))
    }

    fn digits(&mut self, base: usize, low: usize, high: usize) -> String {
        let mut text = String::new();
        for _ in 0..self.rng.within(low, high) {
            if !text.is_empty() && self.odds(60) {
                text.push('_');
            }
            let digit = self.rng.below(base);
            text += &self.case(&"0123456789abcdef"[digit..digit + 1]);
        }
        text
    }

    fn edge(&mut self, base: u128, bits: u32) -> String {
        let mut value = (1_u128 << bits) - 2 + self.rng.below(4) as u128;
        let mut digits = String::new();
        while value > 0 {
            digits.insert(0, char::from_digit((value % base) as u32, base as u32).expect("a digit"));
            value /= base;
        }
        let zeros = if self.odds(300) { self.rng.one(&[1, 2, 40]) } else { 0 };
        digits = "0".repeat(zeros) + &digits;
        if self.odds(300) && digits.len() > 3 {
            digits.insert(digits.len() - 3, '_');
        }
        self.case(&digits)
    }

    fn sign(&mut self) -> String {
        self.one(&["", "", "", "", "-", "-", "+"])
    }

    pub fn number(&mut self, bits: u32) -> String {
        let (base, prefix) = self.rng.one(&[(10, ""), (10, ""), (16, "0x"), (16, "0x"), (8, "0o"), (2, "0b")]);
        let prefix = self.case(prefix);
        let second = if base == 10 { String::new() } else { self.one(&["", "", "", "", "-", "+", "--", "_"]) };
        let most = self.rng.one(&[3, 9, 20, 70]);
        let body = if self.odds(600) { self.digits(base, 0, most) } else { self.edge(base as u128, bits) };
        format!("{}{prefix}{second}{body}", self.sign())
    }

    pub fn decimal(&mut self) -> String {
        match self.rng.below(10) {
            0..5 => self.number(127),
            5..8 => {
                let (whole, point, rest) =
                    (self.digits(10, 0, 6), self.one(&["", ".", "._", "_."]), self.digits(10, 0, 4));
                let (exponent, last) = (self.one(&["", "", "e", "E-", "e+", "_e"]), self.digits(10, 0, 3));
                format!("{}{whole}{point}{rest}{exponent}{last}", self.sign())
            }
            _ => {
                self.many(0, 6, |t| if t.odds(80) { t.one(&["é", "\0"]) } else { t.letter("0123456789abxoXBO_+-.eE ") })
            }
        }
    }

    pub fn money(&mut self) -> String {
        let body =
            self.many(0, 5, |t| if t.odds(150) { t.one(&[" ", "é", "\0", "'"]) } else { t.letter("0123456789.,_-$") });
        format!("{}{body}", self.one(&["$", "$", "$", "$$", "", " $", "€"]))
    }

    pub fn temporal(&mut self) -> String {
        let leads = [
            "",
            "DATE ",
            "DATE",
            "date\n",
            "TIME ",
            "TIMESTAMP ",
            "INTERVAL ",
            "INTERVAL(3) ",
            "TIMESTAMP WITH TIME ZONE ",
            "\u{3000}",
            "é",
            "(",
            "_",
            "0",
            "\0",
            "\"",
        ];
        let lead = self.one(&leads);
        let value = match self.rng.below(8) {
            0 => format!("'{}'", self.one(&["2001-02-03", "12:30", "1-2", "90", "\\n", "''", "x\"y", "$$", ""])),
            1 => self.single(4),
            2 => self.escaped(3),
            3 => self.joined(),
            4 => self.dollar(),
            5 => format!("{}{}", self.one(&["$", "$a$", "$1$", "$$"]), self.single(2)),
            6 => format!(
                "{}{}",
                self.one(&["N", "U&", "_x", "B", "X", "EE", "aE", "_e", "1e", " e", ")E"]),
                self.single(3)
            ),
            _ => self.double(3),
        };
        let behind = ["", "", "", " DAY", " YEAR TO MONTH", " ", "'", " $$", " 'x'", "é", "\0"];
        format!("{lead}{value}{}", self.one(&behind))
    }

    pub fn prefix(&mut self) -> String {
        let starts = ["0x", "0X", "0o", "0O", "0b", "0B", "0", "00x", "-0x", "", "1x", "0z", "0_", "x", "0é", " 0x"];
        format!("{}{}", self.one(&starts), self.digits(16, 0, 4))
    }

    pub fn argument(&mut self) -> String {
        match self.rng.below(10) {
            0 => format!("'{}'", self.one(&SPACES)),
            1 => format!("'{}'", self.one(&NO_SPACES)),
            2 => format!("'{}'", self.one(&WIDE)),
            3..6 => format!("'{}'", char::from(self.rng.below(0x80) as u8)),
            _ => {
                let escape = self.escape_character();
                self.uescape_argument(&escape)
            }
        }
    }
}
