//! Date literals: days, and what is almost one, in every spelling that a temporal text has.

use super::Texts;

/// Words before the token and behind it, which nobody looks at; a mark among them is.
const LEADS: [&str; 9] = ["", "", "DATE ", "DATE ", "DATE", "date\n", "TIMESTAMP ", "é", "\0"];
const BEHIND: [&str; 8] = ["", "", "", "", " DAY", " ", "é", "'"];

impl Texts {
    pub fn date(&mut self) -> String {
        let value = self.date_value();
        let token = match self.rng.below(12) {
            0..3 => format!("'{value}'"),
            3..5 => self.date_by_escapes(&value),
            5 => format!("$${value}$$"),
            6 => format!("$d${value}$d$"),
            7..11 => self.date_in_parts(&value),
            _ => format!("'{value}' {}", self.one(&["''", "'' ''", "'x'", "E'\\0'", "'x' E'\\400'", "E''", "\"\""])),
        };
        format!("{}{token}{}", self.one(&LEADS), self.one(&BEHIND))
    }

    fn date_value(&mut self) -> String {
        let near_end = self.rng.one(&[1, 28, 29, 30, 31]);
        let (month, day) = (self.rng.within(1, 12), if self.odds(400) { near_end } else { self.rng.within(1, 28) });
        let known = self.rng.one(&[1, 4, 100, 400, 1500, 1582, 1900, 1970, 2000, 2023, 2024, 2100, 9999]);
        let year = if self.odds(400) { known } else { self.rng.within(1, 9999) };
        match self.rng.below(16) {
            0 => format!("{:04}-{month:02}-{day:02}", self.rng.one(&[0, 10_000, 20_240])),
            1 => format!("{year:04}-{:02}-{day:02}", self.rng.one(&[0, 13, 99])),
            2 => format!("{year:04}-{month:02}-{:02}", self.rng.one(&[0, 32, 99])),
            3 => format!("{year}-{month}-{day}"),
            4 => format!(
                "{year:04}{}{month:02}{}{day:02}",
                self.one(&["/", ".", "-", ""]),
                self.one(&["/", " ", "-", ""])
            ),
            5 | 6 => self.almost(&format!("{year:04}-{month:02}-{day:02}")),
            _ => format!("{year:04}-{month:02}-{day:02}"),
        }
    }

    /// A byte for another, one more, or one less.
    fn almost(&mut self, date: &str) -> String {
        let at = self.rng.below(date.len());
        let new = self.one(&["0", "9", "-", "+", " ", "''", "\"", "\\", "T", "é", "٢", ":", "/", "\0"]);
        match self.rng.below(4) {
            0 => format!("{}{new}{}", &date[..at], &date[at..]),
            1 => format!("{}{}", &date[..at], &date[at + 1..]),
            _ => format!("{}{new}{}", &date[..at], &date[at + 1..]),
        }
    }

    /// As `E'..'`, some characters by escapes.
    fn date_by_escapes(&mut self, value: &str) -> String {
        let body: String = value.chars().map(|next| self.date_unit(next)).collect();
        format!("{}'{body}'", self.letter("Ee"))
    }

    fn date_unit(&mut self, next: char) -> String {
        let number = u32::from(next);
        match self.rng.below(12) {
            0 if number < 0x80 => format!("\\x{number:02x}"),
            1 if number < 0x80 => format!("\\{number:03o}"),
            2 => format!("\\u{number:04X}"),
            3 if next == '-' => "\\-".into(),
            _ => next.into(),
        }
    }

    /// Joined from two or three segments.
    fn date_in_parts(&mut self, value: &str) -> String {
        let mut rest: Vec<char> = value.chars().collect();
        let mut text = String::new();
        for _ in 0..self.rng.within(1, 2) {
            let behind = rest.split_off(self.rng.within(0, rest.len()));
            text += &self.date_part(&rest.into_iter().collect::<String>());
            text += &self.some_gap();
            rest = behind;
        }
        text + &self.date_part(&rest.into_iter().collect::<String>())
    }

    fn date_part(&mut self, part: &str) -> String {
        match self.rng.below(10) {
            0 | 1 => self.date_by_escapes(part),
            2 => format!("\"{part}\""),
            3 => format!("N'{part}'"),
            _ => format!("'{part}'"),
        }
    }
}
