//! The writers, which the Rust has not: what they write is due by the sentences of document 01 and of the requests on them, and the Rust has to read it back.

use crate::comparing::{Comparing, Difference, Outcome, hex};
use crate::question::{Asked, NO_ROOM, Question, Said};
use crate::tally::{Row, writer_outcome};
use crate::{ours, rust};
use std::fmt::Write;
use std::str::from_utf8;

pub const MOST: usize = 268_435_456;

/// How a value is written.
#[derive(Clone, Copy, Debug)]
pub enum Spelling {
    /// In parts if there is a part size.
    Plain {
        part: Option<usize>,
        setting: u32,
    },
    Escape,
    Unicode,
}

/// A value to write.
pub struct Writing<'a> {
    pub value: &'a [u8],
    pub spelling: Spelling,
}

impl Comparing {
    /// Writes with buffers empty, one short, exact and long; then both read what is due back at the same setting, or at either where none goes in.
    pub fn write(&mut self, writing: &Writing<'_>) -> Outcome {
        let long = self.rng.within(1, 40);
        let text = match writing.due() {
            Err(number) => return [0, long].iter().try_for_each(|&room| self.write_with(writing, number, &[], room)),
            Ok(text) => text,
        };
        for room in [0, text.len() - 1, text.len(), text.len() + long] {
            let number = if text.len() <= room { 0 } else { NO_ROOM };
            self.write_with(writing, number, &text, room)?;
        }
        match writing.spelling {
            Spelling::Plain { setting, .. } => self.read_back(writing, &text, setting),
            Spelling::Escape | Spelling::Unicode => {
                self.validate(writing, &text)?;
                [0, 1].iter().try_for_each(|&setting| self.read_back(writing, &text, setting))
            }
        }
    }

    fn write_with(&mut self, writing: &Writing<'_>, number: u32, text: &[u8], room: usize) -> Outcome {
        let told = ours::written(writing.value, writing.spelling, self.lent.out(room));
        let due = (number, text.len());
        let written = if number == 0 { text } else { &[] };
        if told != due || !self.lent.holds_only(written, room) {
            return Err(self.writer_difference(
                "written",
                writing,
                room,
                format!("{due:?} {}", hex(text)),
                format!("{told:?}"),
            ));
        }
        self.tally.count(Row::Written(writing.spelling), writer_outcome(number));
        Ok(())
    }

    fn read_back(&mut self, writing: &Writing<'_>, text: &[u8], setting: u32) -> Outcome {
        let asked = whole(Question::Str, text, setting);
        let said = rust::said(&asked, from_utf8(text).expect("UTF-8"));
        let value = match &said {
            Said::Borrowed(first, second) => &text[*first..*second],
            Said::Written(value) => value,
            _ => return Err(self.writer_difference("read back", writing, 0, hex(writing.value), format!("{said:?}"))),
        };
        if value != writing.value {
            return Err(self.writer_difference("read back", writing, 0, hex(writing.value), format!("{said:?}")));
        }
        self.ask(&asked, text)
    }

    /// Both validators say yes, ours and the Rust's.
    fn validate(&mut self, writing: &Writing<'_>, text: &[u8]) -> Outcome {
        for question in [Question::EscapeValid, Question::UnicodeValid] {
            let asked = whole(question, text, 0);
            let said = rust::said(&asked, from_utf8(text).expect("UTF-8"));
            if said != Said::Truth(true) {
                return Err(self.writer_difference(question.name(), writing, 0, hex(text), format!("{said:?}")));
            }
            self.ask(&asked, text)?;
        }
        Ok(())
    }

    fn writer_difference(
        &mut self,
        what: &str,
        writing: &Writing<'_>,
        room: usize,
        due: String,
        told: String,
    ) -> Box<Difference> {
        let what = format!("the writer, {:?}: {what}", writing.spelling);
        let (before, after) = self.lent.both(room);
        let (before, after) = (before.to_vec(), after.to_vec());
        self.lent.refill();
        Box::new(Difference { what, asked: None, source: writing.value.to_vec(), room, due, told, before, after })
    }
}

/// A question on all of a text.
fn whole(question: Question, text: &[u8], setting: u32) -> Asked {
    Asked { question, kind: 4, synthetic: 0, start: 0, end: text.len() as u32, setting, variety: 0 }
}

impl Writing<'_> {
    /// The text that is due, or the refusal's number: 10, then 12, 4 and 11.
    fn due(&self) -> Result<Vec<u8>, u32> {
        let (part, setting) = match self.spelling {
            Spelling::Plain { part, setting } => (part, setting),
            Spelling::Escape | Spelling::Unicode => (None, 0),
        };
        if setting > 1 {
            return Err(10);
        }
        if self.value.len() > MOST || part.is_some_and(|part| part < 4) {
            return Err(12);
        }
        let value = from_utf8(self.value).map_err(|_| 4_u32)?;
        if setting == 0 && value.contains('\0') {
            return Err(11);
        }
        Ok(match self.spelling {
            Spelling::Plain { .. } => plain(value, part.unwrap_or(usize::MAX), setting == 1),
            Spelling::Escape => formed("E'", value, escaped),
            Spelling::Unicode => formed("U&'", value, numbered),
        })
    }
}

/// As many whole characters in each part as fit so many bytes of the value, a line feed between parts.
fn plain(value: &str, part: usize, on: bool) -> Vec<u8> {
    let mut text = String::from("'");
    let mut used = 0;
    for character in value.chars() {
        if character.len_utf8() > part - used {
            text.push_str("'\n'");
            used = 0;
        }
        used += character.len_utf8();
        match character {
            '\'' => text.push_str("''"),
            '\\' if on => text.push_str("\\\\"),
            '\0' if on => text.push_str("\\0"),
            _ => text.push(character),
        }
    }
    text.push('\'');
    text.into_bytes()
}

/// An opening, each character but backslash and quote as a form puts it, and the closing mark.
fn formed(opening: &str, value: &str, put: fn(char, &mut String)) -> Vec<u8> {
    let mut text = String::from(opening);
    for character in value.chars() {
        match character {
            '\\' | '\'' => text.extend([character, character]),
            _ => put(character, &mut text),
        }
    }
    text.push('\'');
    text.into_bytes()
}

/// E: five codes by their letters, the others below 20 hex by three octal digits.
fn escaped(character: char, text: &mut String) {
    match (character, "\x08\x0C\n\r\t".find(character)) {
        (_, Some(at)) => text.extend(["\\", &"bfnrt"[at..at + 1]]),
        ('\0'..' ', None) => write!(text, "\\{:03o}", u32::from(character)).expect("a String takes all"),
        _ => text.push(character),
    }
}

/// U&: what is outside 20 to 7E hex by four hex digits, above FFFF by six.
fn numbered(character: char, text: &mut String) {
    match u32::from(character) {
        0x20..=0x7E => text.push(character),
        number @ ..=0xFFFF => write!(text, "\\{number:04X}").expect("a String takes all"),
        number => write!(text, "\\+{number:06X}").expect("a String takes all"),
    }
}
