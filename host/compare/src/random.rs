//! Random texts by their grammar, damaged copies of them and of their bytes, with padding and odd spans.

use crate::comparing::{Comparing, Outcome};
use crate::packing::{BINARY, BitWriting, HEX};
use crate::question::{ALL, Asked, Question};
use crate::texts::Texts;
use crate::writer::{Spelling, Writing};
use Question::*;

/// A text with what is asked of it: a question and a literal's kind.
struct Chosen {
    text: String,
    asked: Vec<(Question, u32)>,
}

/// A literal in a source of its own length, so that a tool that watches memory sees a byte read past its end.
struct Placed {
    source: Box<[u8]>,
    start: u32,
    end: u32,
    synthetic: u32,
}

pub fn run(comparing: &mut Comparing, texts: &mut Texts, until: u64) -> Outcome {
    while comparing.tally.one_by_one() < until {
        if texts.rng.odds(90) {
            write(comparing, texts)?;
        } else if texts.rng.odds(15) {
            write_bits(comparing, texts)?;
        } else {
            let Chosen { text, asked } = chosen(texts);
            let text = if texts.rng.odds(150) { texts.damaged(&text) } else { text };
            ask(comparing, texts, &text, &asked)?;
        }
    }
    Ok(())
}

fn chosen(texts: &mut Texts) -> Chosen {
    match texts.rng.below(110) {
        0..44 => {
            let text = texts.string();
            let mut asked = vec![(Str, 4)];
            asked.extend(
                [(Plain, 4), (Charset, 4), (EscapeValid, 0), (UnicodeValid, 0), (Nul, 0)]
                    .into_iter()
                    .filter(|_| texts.rng.odds(250)),
            );
            Chosen { text, asked }
        }
        44..52 => {
            let kind = texts.rng.within(8, 11) as u32;
            Chosen { text: texts.temporal(), asked: vec![(Temporal, kind)] }
        }
        52..60 => Chosen { text: texts.number(63), asked: vec![(I64, 1), (Decimal, 1)] },
        60..68 => {
            let kind = texts.rng.within(1, 3) as u32;
            Chosen { text: texts.decimal(), asked: vec![(Decimal, kind), (I64, 1)] }
        }
        68..75 => Chosen { text: texts.bits(), asked: vec![(Bits, 12), (Bits, 13), (Packed, 12), (Packed, 13)] },
        75..77 => Chosen { text: texts.money(), asked: vec![(Money, 14)] },
        77..83 => Chosen { text: texts.unicode("\"", 4, 500), asked: vec![(Ident, 0), (IsIdent, 0)] },
        83..85 => Chosen { text: texts.prefix(), asked: vec![(Radix, 0)] },
        85..88 => Chosen { text: texts.argument(), asked: vec![(Uescape, 0)] },
        88..100 => Chosen { text: texts.date(), asked: vec![(Date, 8), (Temporal, 8)] },
        100..104 => Chosen { text: texts.many_bits(), asked: vec![(Packed, 12), (Packed, 13)] },
        _ => {
            let (question, kind) = (texts.rng.one(&ALL), texts.rng.within(1, 14) as u32);
            Chosen { text: texts.any(), asked: vec![(question, kind)] }
        }
    }
}

fn ask(comparing: &mut Comparing, texts: &mut Texts, text: &str, asked: &[(Question, u32)]) -> Outcome {
    let placed = placed(texts, text);
    let alone: Box<[u8]> = text.as_bytes().into();
    comparing.tally.texts += 1;
    for &(question, kind) in asked {
        let Placed { ref source, start, end, synthetic } = placed;
        let asked = Asked { question, kind, synthetic, start, end, setting: 0, variety: texts.rng.next() as u8 };
        if question.is_bare() && texts.rng.odds(700) {
            comparing.ask(&asked, &alone)?;
            continue;
        }
        comparing.ask(&asked, source)?;
        if question.is_set() {
            comparing.ask(&Asked { setting: 1, ..asked }, source)?;
        }
        if texts.rng.odds(4) {
            comparing.ask(&unknown(texts, asked), source)?;
        }
    }
    Ok(())
}

fn placed(texts: &mut Texts, text: &str) -> Placed {
    let (before, behind) = (texts.padding(), texts.padding());
    let mut source = [before.as_bytes(), text.as_bytes(), behind.as_bytes()].concat();
    let (mut start, mut end) = (before.len(), before.len() + text.len());
    if texts.rng.odds(70) {
        let had = source.len();
        let at = broken(texts, &mut source);
        // a change inside the literal moves its end, one before it moves both
        let by = source.len() as isize - had as isize;
        start = if at < start { start.saturating_add_signed(by) } else { start };
        end = if at < end { end.saturating_add_signed(by).max(start) } else { end };
    }
    let (mut start, mut end) = (start as u32, end as u32);
    if texts.rng.odds(60) {
        (start, end) = odd_span(texts, start, end, source.len() as u32);
    }
    Placed { source: source.into(), start, end, synthetic: texts.rng.odds(15).into() }
}

/// Changes bytes without a look at characters, and tells where.
fn broken(texts: &mut Texts, source: &mut Vec<u8>) -> usize {
    let at = texts.rng.within(0, source.len());
    let byte = texts.rng.one(&[0x80, 0xA9, 0xBF, 0xC0, 0xC3, 0xE2, 0xED, 0xF0, 0xF4, 0xF5, 0xFF, 0x00, 0x27]);
    match texts.rng.below(4) {
        0 if at < source.len() => {
            source.remove(at);
        }
        1 if at < source.len() => source[at] = byte,
        2 if at < source.len() => source[at] ^= 1 << texts.rng.below(8),
        _ => source.insert(at, byte),
    }
    at
}

fn odd_span(texts: &mut Texts, start: u32, end: u32, long: u32) -> (u32, u32) {
    let place = |texts: &mut Texts| texts.rng.below(long as usize + 3) as u32;
    match texts.rng.below(8) {
        0 => (place(texts), place(texts)),
        1 => (start, place(texts)),
        2 => (place(texts), end),
        3 => (end, start),
        4 => (start, long + 1),
        5 => (start, u32::MAX - texts.rng.below(2) as u32),
        6 => (u32::MAX, u32::MAX),
        _ => (start + 1, end.saturating_sub(1)),
    }
}

/// The same question with a number that names nothing.
fn unknown(texts: &mut Texts, asked: Asked) -> Asked {
    let number = texts.rng.one(&[2, 15, 16, 255, 256, 257, 260, 1 << 16, u32::MAX]);
    match texts.rng.below(3) {
        0 => Asked { kind: if number == 2 { 0 } else { number }, ..asked },
        1 => Asked { synthetic: number, ..asked },
        _ => Asked { setting: number, ..asked },
    }
}

fn write(comparing: &mut Comparing, texts: &mut Texts) -> Outcome {
    let mut value = if texts.rng.odds(700) { texts.value() } else { texts.any() }.into_bytes();
    if texts.rng.odds(50) {
        broken(texts, &mut value);
    }
    let spelling = spelling(texts, value.len());
    comparing.tally.texts += 1;
    let value: Box<[u8]> = value.into();
    comparing.write(&Writing { value: &value, spelling })
}

/// Bytes with a count that mostly goes with them.
fn write_bits(comparing: &mut Comparing, texts: &mut Texts) -> Outcome {
    let most = texts.rng.one(&[3, 9, 40, 300]);
    let mut bytes: Box<[u8]> = (0..texts.rng.within(0, most)).map(|_| texts.rng.next() as u8).collect();
    let all = 8 * bytes.len() as u64;
    let bits = match texts.rng.below(20) {
        0 => texts.rng.next(),
        1 => texts.rng.next() >> 32,
        2 => u64::MAX - texts.rng.below(9) as u64,
        3 => all + texts.rng.within(1, 16) as u64,
        4..8 => all,
        8..14 => all.saturating_sub(4),
        _ => all.saturating_sub(texts.rng.below(17) as u64),
    };
    let unused = all.saturating_sub(bits).min(7) as u32;
    if let Some(last) = bytes.last_mut()
        && texts.rng.odds(900)
    {
        *last = *last >> unused << unused;
    }
    comparing.tally.texts += 1;
    let kind =
        if texts.rng.odds(990) { texts.rng.one(&[BINARY, HEX]) } else { texts.rng.one(&[0, 4, 11, 14, 268, u32::MAX]) };
    comparing.write_bits(&BitWriting { bytes: &bytes, bits, kind })
}

/// How a value of a length is to be written.
fn spelling(texts: &mut Texts, long: usize) -> Spelling {
    let part = match texts.rng.below(14) {
        0..3 => None,
        3..6 => Some(texts.rng.within(3, 12)),
        6 => Some(texts.rng.within(0, long + 5)),
        7 => Some(texts.rng.one(&[0, 4, 64, 4096, usize::MAX])),
        8..11 => return Spelling::Escape,
        _ => return Spelling::Unicode,
    };
    Spelling::Plain { part, setting: texts.rng.one(&[0, 0, 0, 0, 1, 1, 1, 1, 1, 2]) }
}
