//! A case asked of ours, and of the Rust with and without its check of UTF-8.

use crate::cases::{Base, Case, Place, Question, Task};
use crate::packing::{self, Packed, Sides};
use crate::timing::Timed;
use crate::{dates, writing};
use original::ast::literal::Literal;
use original::codes;
use original::dialect::StringLiteralSyntax;
use original::vocab::{Meta, Span};
use std::hint::black_box;
use std::str::from_utf8;
use valdrabus::{BitStringRadix, Kind, sys};

#[derive(Clone, Copy, PartialEq, Debug)]
pub enum Side {
    Ours,
    /// The Rust on bytes: `from_utf8` of the literal's text, then the question.
    Rust,
    /// The Rust on a `str`.
    RustStr,
}

pub const SIDES: [(Side, &str); 3] = [(Side::Ours, "ours"), (Side::Rust, "rust"), (Side::RustStr, "rust-str")];

/// A case with what each side needs.
pub struct Ready {
    case: Case,
    /// Lent to ours; the Rust allocates for each text that it writes.
    out: Vec<u8>,
    /// The literals in the source, and each in a text of its own; none where values are written.
    within: Vec<Literal>,
    alone: Vec<Literal>,
    /// The numbers whose days are asked for.
    numbers: Vec<u32>,
    /// What is written back as bit strings.
    packed: Vec<Packed>,
}

impl Ready {
    pub fn new(case: Case) -> Ready {
        let longest = case.places.iter().map(|place| place.end - place.start).max().unwrap_or(0) as usize;
        let none = Ready {
            out: Vec::new(),
            within: Vec::new(),
            alone: Vec::new(),
            numbers: Vec::new(),
            packed: Vec::new(),
            case,
        };
        let case = &none.case;
        match case.task {
            Task::Read(question) => {
                let kind = codes::kind(question.kind());
                let over = |start, end| Literal { kind: kind.clone(), meta: Meta { span: Span::over(start, end) } };
                let within = case.places.iter().map(|place| over(place.start, place.end)).collect();
                let alone = case.places.iter().map(|place| over(0, place.end - place.start)).collect();
                Ready { out: vec![0; longest.max(40)], within, alone, ..none }
            }
            Task::Write(_) => Ready { out: vec![0; writing::most(longest)], ..none },
            Task::Days => {
                Ready { numbers: case.source.lines().map(|text| text.parse().expect("a number")).collect(), ..none }
            }
            Task::Bits(base) => {
                let radix = if base == Base::Hex { BitStringRadix::Hex } else { BitStringRadix::Binary };
                let literal =
                    |place: &Place| valdrabus::Literal::new(Kind::BitString { radix }, place.start..place.end);
                let packed = |place| literal(place).to_packed_bits(&case.source).expect("packed bits");
                Ready { out: vec![0; longest], packed: case.places.iter().map(packed).collect(), ..none }
            }
        }
    }

    fn read(&mut self, side: Side, question: Question) -> u64 {
        match (side, question) {
            (Side::Ours, Question::I64) => self.ours_i64(),
            (Side::Ours, Question::Refused) => self.ours_refused(),
            (Side::Ours, Question::Date) => dates::ours(&self.case),
            (side, Question::Packed(base)) => {
                let mut sum = 0;
                self.each_packed(side, base, |bytes, bits| sum += digest(black_box(bytes)) + black_box(bits));
                sum
            }
            (Side::Ours, question) => self.ours_text(question),
            (Side::Rust, question) => self.rust(question),
            (Side::RustStr, question) => self.rust_str(question),
        }
    }

    fn each_packed(&mut self, side: Side, base: Base, shown: impl FnMut(&[u8], u64)) {
        let sides = match side {
            Side::Ours => Sides::Ours,
            Side::Rust => Sides::Rust(&self.alone),
            Side::RustStr => Sides::RustStr(&self.within),
        };
        packing::each_packed(&self.case, base, &sides, &mut self.out, shown);
    }

    fn ours_text(&mut self, question: Question) -> u64 {
        let (mut how, mut first, mut second, mut place) = (0, 0, 0, 0);
        let (source, kind) = (self.case.source.as_bytes(), question.kind());
        let (from, long, to, room) = (source.as_ptr(), source.len(), self.out.as_mut_ptr(), self.out.len());
        let mut sum = 0;
        for &Place { start, end, setting } in black_box(&self.case.places) {
            let (how_to, first_to, second_to) = (&raw mut how, &raw mut first, &raw mut second);
            let place_to = &raw mut place;
            // SAFETY: source and buffer are valid for their lengths; the numbers are ours alone.
            let number = unsafe {
                match question {
                    Question::Str => sys::valdrabus_as_str_in(
                        kind, 0, start, end, from, long, setting, to, room, how_to, first_to, second_to, place_to,
                    ),
                    Question::Temporal => sys::valdrabus_as_temporal_text(
                        kind, 0, start, end, from, long, to, room, how_to, first_to, second_to, place_to,
                    ),
                    Question::Bits(_) => sys::valdrabus_as_bit_text(
                        kind, 0, start, end, from, long, to, room, how_to, first_to, second_to,
                    ),
                    _ => sys::valdrabus_as_decimal_text(
                        kind, 0, start, end, from, long, to, room, how_to, first_to, second_to,
                    ),
                }
            };
            assert!(number == 0, "refused by {number}");
            let shown = if how == 1 { &source[first..second] } else { &self.out[..second] };
            sum += digest(black_box(shown));
        }
        sum
    }

    /// Every string has to be refused; its place, which the Rust does not tell, is looked at.
    fn ours_refused(&mut self) -> u64 {
        let (mut how, mut first, mut second, mut place) = (0, 0, 0, 0);
        let (source, kind) = (self.case.source.as_bytes(), Question::Refused.kind());
        let (from, long, to, room) = (source.as_ptr(), source.len(), self.out.as_mut_ptr(), self.out.len());
        let mut sum = 0;
        for &Place { start, end, setting } in black_box(&self.case.places) {
            let (how_to, first_to, second_to) = (&raw mut how, &raw mut first, &raw mut second);
            let place_to = &raw mut place;
            // SAFETY: source and buffer are valid for their lengths; the numbers are ours alone.
            let number = unsafe {
                sys::valdrabus_as_str_in(
                    kind, 0, start, end, from, long, setting, to, room, how_to, first_to, second_to, place_to,
                )
            };
            assert!(number == 6, "not refused by 6: {number}");
            black_box(place);
            sum += u64::from(black_box(number));
        }
        sum
    }

    fn ours_i64(&self) -> u64 {
        let (mut value, mut first, mut second) = (0, 0, 0);
        let (from, long) = (self.case.source.as_ptr(), self.case.source.len());
        let mut sum = 0_u64;
        for &Place { start, end, .. } in black_box(&self.case.places) {
            let (value_to, first_to, second_to) = (&raw mut value, &raw mut first, &raw mut second);
            // SAFETY: the source is valid for its length; the numbers are ours alone.
            let number = unsafe { sys::valdrabus_as_i64(1, 0, start, end, from, long, value_to, first_to, second_to) };
            assert!(number == 0, "refused by {number}");
            sum = sum.wrapping_add(black_box(value) as u64);
        }
        sum
    }

    fn rust(&self, question: Question) -> u64 {
        let source = self.case.source.as_bytes();
        let mut sum = 0_u64;
        for (literal, &Place { start, end, setting }) in black_box(&self.alone).iter().zip(&self.case.places) {
            let text = from_utf8(black_box(&source[start as usize..end as usize])).expect("UTF-8");
            sum = sum.wrapping_add(answer(literal, text, question, setting));
        }
        sum
    }

    fn rust_str(&self, question: Question) -> u64 {
        let mut sum = 0_u64;
        for (literal, place) in black_box(&self.within).iter().zip(&self.case.places) {
            sum = sum.wrapping_add(answer(literal, &self.case.source, question, place.setting));
        }
        sum
    }
}

impl Timed for Ready {
    type Side = Side;

    fn case(&self) -> &Case {
        &self.case
    }

    fn run(&mut self, side: Side) -> u64 {
        match self.case.task {
            Task::Read(question) => self.read(side, question),
            Task::Write(spelling) => {
                let mut sum = 0;
                writing::each(&self.case, spelling, side, &mut self.out, |text| sum += digest(black_box(text)));
                sum
            }
            Task::Days if side == Side::Ours => dates::ours_of_numbers(&self.numbers),
            Task::Days => dates::plain_of_numbers(&self.numbers),
            Task::Bits(base) => {
                let mut sum = 0;
                packing::each_written(&self.packed, base, side, &mut self.out, |text| sum += digest(black_box(text)));
                sum
            }
        }
    }

    fn agrees(&mut self) -> bool {
        let [ours, rust, rust_str] = SIDES.map(|(side, _)| match self.case.task {
            Task::Read(Question::Packed(base)) => {
                let mut all = Vec::new();
                self.each_packed(side, base, |bytes, bits| {
                    all.extend_from_slice(bytes);
                    all.extend_from_slice(&bits.to_le_bytes());
                });
                all
            }
            Task::Bits(base) => {
                let mut all = Vec::new();
                packing::each_written(&self.packed, base, side, &mut self.out, |text| all.extend_from_slice(text));
                all
            }
            Task::Read(_) | Task::Days => self.run(side).to_le_bytes().to_vec(),
            Task::Write(spelling) => {
                let mut all = Vec::new();
                writing::each(&self.case, spelling, side, &mut self.out, |text| all.extend_from_slice(text));
                all
            }
        });
        ours == rust && ours == rust_str
    }
}

#[inline]
fn answer(literal: &Literal, source: &str, question: Question, setting: u32) -> u64 {
    let syntax = StringLiteralSyntax { backslash_escapes: setting == 1 };
    let text = match question {
        Question::I64 => return black_box(literal.as_i64(source).expect("an integer")) as u64,
        Question::Refused => {
            let error = literal.as_str_in(source, syntax).expect_err("a refusal");
            return codes::refusal(black_box(&error)).0.into();
        }
        Question::Date => {
            let text = literal.as_temporal_text(source).expect("a text");
            return dates::seen(black_box(dates::of_text(&text).expect("a day")));
        }
        Question::Str => literal.as_str_in(source, syntax),
        Question::Decimal => literal.as_decimal_text(source),
        Question::Temporal => literal.as_temporal_text(source),
        Question::Bits(_) => literal.as_bit_text(source),
        Question::Packed(_) => unreachable!("packed by hand"),
    };
    digest(black_box(text.expect("a text").as_bytes()))
}

#[inline]
pub fn digest(bytes: &[u8]) -> u64 {
    bytes.len() as u64 + bytes.first().map_or(0, |&byte| byte.into())
}
