//! What is read, and what is written.

use crate::rng::Rng;
use std::borrow::Cow;
use std::fmt::Write;
use valdrabus::{Kind, Literal, Settings};

#[derive(Clone, Copy, PartialEq, Debug)]
pub enum Question {
    Str,
    /// A string that cannot be read.
    Refused,
    Decimal,
    I64,
    Temporal,
    Date,
    /// A bit string's digits.
    Bits(Base),
    /// The same, packed.
    Packed(Base),
}

impl Question {
    /// The code of the literals' kind.
    pub fn kind(self) -> u32 {
        match self {
            Question::Str | Question::Refused => 4,
            Question::Decimal | Question::I64 => 1,
            Question::Temporal | Question::Date => 8,
            Question::Bits(base) | Question::Packed(base) => base.kind(),
        }
    }
}

/// The base of a bit string's digits.
#[derive(Clone, Copy, PartialEq, Debug)]
pub enum Base {
    Binary,
    Hex,
}

impl Base {
    /// The code of the literals' kind.
    pub fn kind(self) -> u32 {
        match self {
            Base::Binary => 12,
            Base::Hex => 13,
        }
    }

    /// How many bits a digit is.
    pub fn bits(self) -> u32 {
        match self {
            Base::Binary => 1,
            Base::Hex => 4,
        }
    }

    pub fn opening(self) -> &'static str {
        match self {
            Base::Binary => "B'",
            Base::Hex => "X'",
        }
    }
}

/// How a value is written; plain is at the setting 0.
#[derive(Clone, Copy, PartialEq, Debug)]
pub enum Spelling {
    Plain,
    Escape,
    Unicode,
}

const SPELLINGS: [(Spelling, &str); 3] =
    [(Spelling::Plain, "plain"), (Spelling::Escape, "E"), (Spelling::Unicode, "U&")];

#[derive(Clone, Copy)]
pub enum Task {
    Read(Question),
    Write(Spelling),
    /// The day of a number, each number a text of the source.
    Days,
    /// Packed bytes as a bit string; what they are packed from is in the source.
    Bits(Base),
}

/// Where a literal, or a value to write, stands in the source, and at which setting it is read.
#[derive(Clone, Copy)]
pub struct Place {
    pub start: u32,
    pub end: u32,
    pub setting: u32,
}

pub struct Case {
    pub name: String,
    pub task: Task,
    pub source: String,
    pub places: Vec<Place>,
}

impl Case {
    /// Literals or values one behind the other, a line feed between.
    fn of(name: &str, task: Task, setting: u32, texts: impl IntoIterator<Item = String>) -> Case {
        let mut case = Case { name: name.into(), task, source: String::new(), places: Vec::new() };
        for text in texts {
            let start = case.source.len() as u32;
            case.source.push_str(&text);
            case.places.push(Place { start, end: case.source.len() as u32, setting });
            case.source.push('\n');
        }
        case
    }

    fn numbers(name: &str, question: Question, mut make: impl FnMut(&mut Rng) -> String) -> Case {
        let mut rng = Rng::new(127);
        Case::of(name, Task::Read(question), 0, (0..NUMBERS).map(|_| make(&mut rng)))
    }

    /// A product list, the literals as they stand in its file: a line that begins with -- is none, and may set backslash escapes off or on.
    fn list(name: &str, file: &str) -> Case {
        let mut places = Vec::new();
        let (mut start, mut setting) = (0, 0);
        for line in file.split_inclusive('\n') {
            let text = line.trim_end_matches('\n');
            match text {
                "-- backslash off" => setting = 0,
                "-- backslash on" => setting = 1,
                _ if text.is_empty() || text.starts_with("--") => {}
                _ => places.push(Place { start, end: start + text.len() as u32, setting }),
            }
            start += line.len() as u32;
        }
        Case { name: name.into(), task: Task::Read(Question::Str), source: file.into(), places }
    }

    /// The same values, written in each spelling.
    fn written(name: &str, values: &[String]) -> [Case; 3] {
        SPELLINGS.map(|(spelling, form)| {
            Case::of(&format!("write {form}: {name}"), Task::Write(spelling), 0, values.iter().cloned())
        })
    }

    /// The value of a string at a place.
    pub fn value(&self, place: &Place) -> Cow<'_, str> {
        let settings = Settings::STANDARD.with_backslash(place.setting == 1);
        Literal::new(Kind::String, place.start..place.end).to_str_in(&self.source, settings).expect("a string")
    }

    /// The values of a case of strings.
    fn values(&self) -> Vec<String> {
        self.places.iter().map(|place| self.value(place).into_owned()).collect()
    }

    /// How many bytes the literals or values have together.
    pub fn bytes(&self) -> u64 {
        self.places.iter().map(|place| u64::from(place.end - place.start)).sum()
    }
}

/// The two cases of one text; tools/speed.py knows them by these names.
const TEMPORAL: &str = "temporal text";
const DATE: &str = "date";
/// The three cases of one bit string begin so; tools/speed.py knows them by these beginnings.
const BITS: &str = "bit text: ";
const PACKED: &str = "packed bits: ";
const UNPACKED: &str = "write bits: ";
/// Joined bit strings have segments of so many digits.
const SEGMENT: usize = 64;

const LONG: usize = 65_536;
const NUMBERS: usize = 1000;
const SHORT_VALUES: usize = 1000;
const REFUSED: usize = 1000;

const PLAIN: [&str; 9] = ["a", "b", "c", "x", "y", "z", " ", "0", "-"];
const WIDE: [&str; 9] = ["é", "ß", "ł", "€", "日", "本", "😀", "a", " "];
/// In each of these half of the pieces or more are escapes.
const ESCAPES: [&str; 15] = [
    "a",
    "b",
    "c",
    "d",
    " ",
    "é",
    "''",
    "\\n",
    "\\t",
    "\\\\",
    "\\'",
    "\\xC3\\xA9",
    "\\303\\251",
    "\\u20ac",
    "\\U0001F600",
];
const BACKSLASHES: [&str; 15] =
    ["a", "b", "c", "d", " ", "é", "''", "\\n", "\\t", "\\\\", "\\'", "\\\"", "\\0", "\\%", "\\q"];
const UNICODE: [&str; 12] =
    ["a", "b", "c", "d", " ", "é", "''", "\\\\", "\\0041", "\\20ac", "\\+01F600", "\\D83D\\DE00"];
/// Three in four are below 20 hex, some of them with a letter of their own in an E string.
const CONTROLS: [&str; 12] = ["\x01", "\x02", "\x07", "\x08", "\t", "\n", "\x0B", "\x1B", "\x1F", "a", "0", "'"];

pub fn all() -> Vec<Case> {
    let mut cases = read();
    cases.extend(written());
    cases
}

pub fn ward() -> Case {
    Case::list("ward list", include_str!("../../lists/ward.txt"))
}

pub fn wholesale() -> Case {
    Case::list("wholesale list", include_str!("../../lists/wholesale.txt"))
}

fn read() -> Vec<Case> {
    let string = |name, setting, text| Case::of(name, Task::Read(Question::Str), setting, [text]);
    let mut cases = vec![
        ward(),
        wholesale(),
        string("plain name, 64 KiB", 0, long("'", &PLAIN)),
        string("multi-byte name, 64 KiB", 0, long("'", &WIDE)),
        string("E escapes, 64 KiB", 0, long("E'", &ESCAPES)),
        string("MySQL escapes, 64 KiB", 1, long("'", &BACKSLASHES)),
        string("U& escapes, 64 KiB", 0, long("U&'", &UNICODE)),
        string("name joined from 100 parts", 0, joined(100)),
        refused("refused strings"),
        Case::numbers("radix decimals", Question::Decimal, radix_decimal),
        Case::numbers("i64, any length", Question::I64, signed),
        Case::numbers("i64, hex", Question::I64, |rng| format!("0x{:x}", rng.next() >> (1 + rng.below(62)))),
    ];
    cases.extend(dates());
    cases.extend(bits());
    cases.extend(sparse());
    cases.extend(
        [1, 3, 6, 9, 12, 15, 18, 19].map(|digits| {
            Case::numbers(&format!("i64, digits: {digits}"), Question::I64, |rng| digit_text(rng, digits))
        }),
    );
    cases
}

/// One text read as a temporal text and as a date, so that their times can be compared; dates and numbers of any day.
fn dates() -> [Case; 4] {
    let one = |name, question| {
        let texts = std::iter::repeat_n("DATE '2027-01-31'".to_owned(), NUMBERS);
        Case::of(name, Task::Read(question), 0, texts)
    };
    let any =
        |rng: &mut Rng| format!("DATE '{:04}-{:02}-{:02}'", rng.within(1, 9999), rng.within(1, 12), rng.within(1, 28));
    let mut rng = Rng::new(127);
    let numbers = (0..NUMBERS).map(|_| rng.within(1, 3_652_059).to_string());
    [
        one(TEMPORAL, Question::Temporal),
        one(DATE, Question::Date),
        Case::numbers("date, any day", Question::Date, any),
        Case::of("day of a number", Task::Days, 0, numbers),
    ]
}

/// The same bit strings read as their digits, packed, and written back from packed bytes: short ones of one segment, and long ones that are joined.
fn bits() -> impl Iterator<Item = Case> {
    const KINDS: [(Base, &str, usize); 4] = [
        (Base::Binary, "8 binary digits", 8),
        (Base::Hex, "32 hex digits", 32),
        (Base::Binary, "4096 binary digits, joined", 4096),
        (Base::Hex, "4096 hex digits, joined", 4096),
    ];
    KINDS.into_iter().flat_map(|(base, name, digits)| {
        let count = if digits > SEGMENT { 1 } else { NUMBERS };
        let tasks = [
            (BITS, Task::Read(Question::Bits(base))),
            (PACKED, Task::Read(Question::Packed(base))),
            (UNPACKED, Task::Bits(base)),
        ];
        tasks.map(|(begin, task)| {
            let mut rng = Rng::new(127);
            Case::of(&format!("{begin}{name}"), task, 0, (0..count).map(|_| bit_string(&mut rng, base, digits)))
        })
    })
}

/// So many digits, in upper case, in segments with a line feed between.
fn bit_string(rng: &mut Rng, base: Base, digits: usize) -> String {
    let mut text = base.opening().to_owned();
    for at in 0..digits {
        if at > 0 && at % SEGMENT == 0 {
            text.push_str("'\n'");
        }
        text.push(char::from(b"0123456789ABCDEF"[rng.below(1 << base.bits())]));
    }
    text + "'"
}

/// Names with a quote that is not doubled, some 20 bytes before it and as many behind: reading stops halfway.
fn refused(name: &str) -> Case {
    let mut rng = Rng::new(20);
    let mut half = || filled("", 20, &mut rng, &PLAIN);
    let mut row = |_| format!("'{}'s{}'", half(), half());
    Case::of(name, Task::Read(Question::Refused), 0, (0..REFUSED).map(&mut row))
}

/// Long bodies with one short escape in so many bytes.
fn sparse() -> impl Iterator<Item = Case> {
    const SHORT: [&str; 5] = ["\\n", "\\t", "\\\\", "\\'", "''"];
    const KINDS: [(&str, &str, u32, &[&str]); 3] =
        [("E", "E'", 0, &SHORT), ("MySQL", "'", 1, &SHORT), ("doubled marks", "'", 0, &["''"])];
    KINDS.into_iter().flat_map(|(name, open, setting, escapes)| {
        [8, 20, 50, 200].map(|every| {
            let name = format!("{name}, one in {every} bytes");
            Case::of(&name, Task::Read(Question::Str), setting, [thin(open, every, escapes)])
        })
    })
}

/// A text of 64 KiB: runs of ASCII, on the average so long that an escape stands once in `every` bytes.
fn thin(open: &str, every: usize, escapes: &[&str]) -> String {
    let mut rng = Rng::new(64);
    let mut text = String::from(open);
    while text.len() < LONG {
        for _ in 0..rng.within(0, 2 * (every - 2)) {
            text.push_str(rng.one(&PLAIN));
        }
        text.push_str(rng.one(escapes));
    }
    text + "'"
}

fn written() -> impl Iterator<Item = Case> {
    let long = |pieces| [filled("", LONG, &mut Rng::new(64), pieces)];
    [
        Case::written("names", &wholesale().values()),
        Case::written("ASCII name, 64 KiB", &long(&PLAIN)),
        Case::written("control characters", &short_values(&CONTROLS)),
        Case::written("control characters, 64 KiB", &long(&CONTROLS)),
        Case::written("multi-byte name, 64 KiB", &long(&WIDE)),
    ]
    .into_iter()
    .flatten()
}

/// A text of 64 KiB or a few bytes more, made of pieces.
fn long(open: &str, pieces: &[&str]) -> String {
    filled(open, LONG, &mut Rng::new(64), pieces) + "'"
}

/// As long as the names of a list.
fn short_values(pieces: &[&str]) -> Vec<String> {
    let mut rng = Rng::new(127);
    let mut value = || {
        let least = rng.within(10, 40);
        filled("", least, &mut rng, pieces)
    };
    (0..SHORT_VALUES).map(|_| value()).collect()
}

/// A text of so many bytes or a few more.
fn filled(open: &str, least: usize, rng: &mut Rng, pieces: &[&str]) -> String {
    let mut text = String::from(open);
    while text.len() < least {
        text.push_str(rng.one(pieces));
    }
    text
}

fn joined(parts: usize) -> String {
    let parts: Vec<String> = (0..parts).map(|at| format!("'part {at:03} of a long name, '")).collect();
    parts.join("\n")
}

fn radix_decimal(rng: &mut Rng) -> String {
    let value = (u128::from(rng.next()) << 64 | u128::from(rng.next())) >> (1 + rng.below(120));
    let sign = rng.one(&["", "", "-"]);
    match rng.below(4) {
        0 => format!("{sign}0o{value:o}"),
        1 => format!("{sign}0b{value:b}"),
        _ => format!("{sign}0x{value:x}"),
    }
}

fn signed(rng: &mut Rng) -> String {
    let (sign, digits) = (rng.one(&["", "", "-"]), rng.within(1, 18));
    format!("{sign}{}", digit_text(rng, digits))
}

/// So many digits; nineteen are at most 2^63 - 1 since the first is below 9.
fn digit_text(rng: &mut Rng, digits: usize) -> String {
    let mut text = rng.within(1, 8).to_string();
    (1..digits).for_each(|_| write!(text, "{}", rng.below(10)).expect("a string"));
    text
}
