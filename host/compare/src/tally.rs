//! Counts what was compared, so that a reader sees that no part of it was empty.

use crate::dates::{Dates, NO_DATE};
use crate::places::Places;
use crate::question::{ALL, Question, Said};
use crate::writer::Spelling;

/// What can come out: the answers, then the refusals by their numbers.
const OUTCOMES: [&str; 20] = [
    "borrowed", "written", "value", "yes", "no", "nothing", "1", "2", "3", "4", "5", "6", "7", "8", "9", "10", "11",
    "12", "14", "16",
];
const WRITTEN: usize = 1;
pub const VALUE: usize = 2;
const REFUSALS: usize = 5;

/// The writers, with what each can give.
const WRITERS: [(&str, &str); 5] = [
    ("write_literal", "written 4 9 10 11 12"),
    ("write_parts", "written 4 9 10 11 12"),
    ("write_escape", "written 4 9 11 12"),
    ("write_unicode", "written 4 9 11 12"),
    ("write_bit_literal", "written 9 10 12 16"),
];
/// The items of blocks, which are never synthetic.
const BLOCK: (&str, &str) = ("read_block", "borrowed written 1 3 4 6 9 10");
/// The day of a number, which the Rust has not.
const DAY: (&str, &str) = ("date_of_day", "value 14");
const ROWS: usize = ALL.len() + WRITERS.len() + 2;

#[derive(Default)]
pub struct Tally {
    counts: [[u64; OUTCOMES.len()]; ROWS],
    pub texts: u64,
    pub rust: u64,
    pub alone: u64,
    pub rules: u64,
    pub left_out: u64,
    pub places: Places,
    pub dates: Dates,
}

#[derive(Clone, Copy)]
pub enum Row {
    Asked(Question),
    Written(Spelling),
    /// Bytes and a bit count.
    BitLiteral,
    /// A day's number.
    Day,
    /// An item of a block.
    Block,
}

impl Row {
    fn at(self) -> usize {
        match self {
            Row::Asked(question) => question as usize,
            Row::Written(Spelling::Plain { part: None, .. }) => ALL.len(),
            Row::Written(Spelling::Plain { part: Some(_), .. }) => ALL.len() + 1,
            Row::Written(Spelling::Escape) => ALL.len() + 2,
            Row::Written(Spelling::Unicode) => ALL.len() + 3,
            Row::BitLiteral => ALL.len() + 4,
            Row::Day => ALL.len() + 5,
            Row::Block => ROWS - 1,
        }
    }
}

/// What came of an answer with so much room.
pub fn outcome(said: &Said, room: usize) -> usize {
    match said {
        Said::Borrowed(..) => 0,
        Said::Written(text) | Said::Packed(text, _) if text.len() <= room => WRITTEN,
        Said::Written(_) | Said::Packed(..) => refusal(9),
        Said::Integer(_) | Said::Day(_) | Said::Prefix(..) => VALUE,
        Said::Truth(true) => 3,
        Said::Truth(false) => 4,
        Said::Nothing => 5,
        Said::Refused(number, ..) => refusal(*number),
    }
}

/// No refusal here has the number 13 or 15.
pub fn refusal(number: u32) -> usize {
    REFUSALS
        + match number {
            NO_DATE => 13,
            16 => 14,
            _ => number as usize,
        }
}

/// What came of a writer's number.
pub fn writer_outcome(number: u32) -> usize {
    if number == 0 { WRITTEN } else { refusal(number) }
}

impl Tally {
    pub fn count(&mut self, row: Row, outcome: usize) {
        self.counts[row.at()][outcome] += 1;
    }

    pub fn comparisons(&self) -> u64 {
        self.counts.iter().flatten().sum()
    }

    /// All but those in blocks.
    pub fn one_by_one(&self) -> u64 {
        self.comparisons() - self.counts[Row::Block.at()].iter().sum::<u64>()
    }

    pub fn print(&self) {
        print!("{:32}", "");
        OUTCOMES.iter().for_each(|name| print!("{name:>10}"));
        println!();
        for ((name, counts), possible) in names().zip(&self.counts).zip(possible()) {
            print!("{name:32}");
            for (at, count) in counts.iter().enumerate() {
                if *count == 0 && !possible.contains(&at) { print!("{:>10}", "-") } else { print!("{count:>10}") }
            }
            println!();
        }
    }

    /// What a question can give and none gave.
    pub fn unseen(&self) -> Vec<String> {
        let mut unseen = Vec::new();
        for ((name, counts), possible) in names().zip(&self.counts).zip(possible()) {
            unseen.extend(
                possible.into_iter().filter(|&at| counts[at] == 0).map(|at| format!("{name}: {}", OUTCOMES[at])),
            );
        }
        unseen
    }
}

fn names() -> impl Iterator<Item = &'static str> {
    ALL.iter().map(|question| question.name()).chain(WRITERS.map(|(name, _)| name)).chain([DAY.0, BLOCK.0])
}

/// For each row what it can give, as the header says.
fn possible() -> impl Iterator<Item = Vec<usize>> {
    let rows = ALL.iter().map(|question| match question {
        Question::Str | Question::Plain | Question::Temporal => "borrowed written 1 2 3 4 6 9 10",
        Question::Date => "value 1 2 3 4 6 10 14",
        Question::Decimal => "borrowed written 1 2 3 4 5 9 10",
        Question::Bits => "borrowed written 1 2 3 4 7 9 10",
        Question::Packed => "written 1 2 3 4 7 9 10",
        Question::Source => "borrowed 2 3 4 10",
        Question::Money => "borrowed 1 2 3 4 8 10",
        Question::Charset => "borrowed nothing 1 2 3 4 10",
        Question::I64 => "value 1 2 3 4 5 10",
        Question::Bool => "yes no 1 10",
        Question::Null => "nothing 1 10",
        Question::Ident => "borrowed written 4 6 9",
        Question::Radix => "value",
        _ => "yes no",
    });
    let outcomes = |names: &str| {
        names.split(' ').map(|name| OUTCOMES.iter().position(|known| *known == name).expect("an outcome")).collect()
    };
    rows.chain(WRITERS.map(|(_, possible)| possible)).chain([DAY.1, BLOCK.1]).map(outcomes)
}
