//! Every question with every kind, mark and setting, unknown ones too, and every span over short sources.

use crate::comparing::{Comparing, Outcome};
use crate::dates::NO_DATE;
use crate::ours;
use crate::packing::{BINARY, BitWriting, HEX};
use crate::question::{ALL, Asked, BORROWED, Question, WRITTEN};
use crate::tally::{Row, refusal};
use crate::writer::{MOST, Spelling, Writing};

const SOURCES: [&[u8]; 18] = [
    b"",
    "'é' 'b'".as_bytes(),
    b"E'\\xC3\\xA9'",
    b"'a\\nb'",
    "_é'x'".as_bytes(),
    b"_a'x'",
    "U&'\\00e9€'".as_bytes(),
    b"$$a$$b$$",
    b"0x1_f",
    b"-12",
    b"B'01' '1'",
    "$1.5€".as_bytes(),
    "DATE 'é'".as_bytes(),
    b"DATE '2024-02-29'",
    "é'2024' '-02-30'€".as_bytes(),
    b"U&\"\\0041\"",
    // not UTF-8: a character cut short inside marks; one that begins with a later byte
    b"'a\xC3'",
    b"\xA9'a'\xC3 \xFF",
];
const KINDS: [u32; 19] = [0, 1, 2, 3, 4, 5, 6, 7, 8, 9, 10, 11, 12, 13, 14, 15, 260, 1 << 31, u32::MAX];
const MARKS: [u32; 4] = [0, 1, 2, u32::MAX];
const SETTINGS: [u32; 4] = [0, 1, 2, 256];

pub fn run(comparing: &mut Comparing) -> Outcome {
    for source in SOURCES {
        comparing.tally.texts += 1;
        kinds(comparing, source)?;
        spans(comparing, source)?;
    }
    left_out(comparing)?;
    days(comparing);
    views(ours::view);
    too_long(comparing)
}

fn kinds(comparing: &mut Comparing, source: &[u8]) -> Outcome {
    for question in ALL {
        for kind in KINDS {
            for synthetic in MARKS {
                for setting in SETTINGS {
                    let end = source.len() as u32;
                    comparing.ask(
                        &Asked { question, kind, synthetic, start: 0, end, setting, variety: kind as u8 },
                        source,
                    )?;
                }
            }
        }
    }
    Ok(())
}

fn spans(comparing: &mut Comparing, source: &[u8]) -> Outcome {
    let places: Vec<u32> = (0..=source.len() as u32 + 2).chain([1 << 31, u32::MAX]).collect();
    for question in ALL.into_iter().filter(|question| question.reads()) {
        for kind in [1, 4, 8, 12, 13, 14] {
            for &start in &places {
                for &end in &places {
                    comparing.ask(
                        &Asked { question, kind, synthetic: 0, start, end, setting: kind & 1, variety: 0 },
                        source,
                    )?;
                }
            }
        }
    }
    Ok(())
}

/// Numbers that are no day's; the days that date literals have are asked for back by their numbers.
fn days(comparing: &mut Comparing) {
    const LAST: u32 = 3_652_059;
    for number in [0, LAST + 1, LAST + 2, LAST + 365, LAST + 366, 1 << 22, 1 << 24, 1 << 31, u32::MAX - 1, u32::MAX] {
        assert_eq!(ours::date_of_day(number), (NO_DATE, [0; 3]), "the day of {number}");
        comparing.tally.count(Row::Day, refusal(NO_DATE));
    }
}

/// The view of any range: shown if it fits, otherwise nothing.
fn views(view: impl Fn(u32, usize, usize, usize, usize) -> (u32, usize, usize)) {
    let lengths = [0, 1, 7, usize::MAX];
    let places = [0, 1, 6, 7, 8, usize::MAX - 1, usize::MAX];
    for how in [0, BORROWED, WRITTEN, 3, u32::MAX] {
        for (first, second) in places.iter().flat_map(|&first| places.map(|second| (first, second))) {
            for (source, out) in lengths.iter().flat_map(|&source| lengths.map(|out| (source, out))) {
                let fits = match how {
                    BORROWED => first <= second && second <= source,
                    WRITTEN => first <= second && second <= out,
                    _ => false,
                };
                let due = if fits { (how, first, second) } else { (0, 0, 0) };
                assert_eq!(
                    view(how, first, second, source, out),
                    due,
                    "the view of {how} {first} {second} for {source} and {out} bytes"
                );
            }
        }
    }
}

/// A minus, then a radix value of exactly -2^127, which has to be 5; and its neighbours, which have to be as the Rust reads them.
fn left_out(comparing: &mut Comparing) -> Outcome {
    const ASKED: [(Question, u32); 4] =
        [(Question::Decimal, 1), (Question::Decimal, 2), (Question::Decimal, 3), (Question::I64, 1)];
    let before = comparing.tally.left_out;
    for text in near_the_limit() {
        let source = format!("é{text}$");
        let (start, end) = (2, 2 + text.len() as u32);
        comparing.tally.texts += 1;
        for (question, kind) in ASKED {
            let asked = Asked { question, kind, synthetic: 0, start, end, setting: 0, variety: 0 };
            comparing.ask(&asked, source.as_bytes())?;
        }
    }
    assert!(comparing.tally.left_out > before, "the family was asked");
    Ok(())
}

/// 2^127 and one less in each base, with every sign before and behind the prefix, and with zeros.
fn near_the_limit() -> impl Iterator<Item = String> {
    const VALUES: [(&str, &str, &str, usize); 7] = [
        ("0x", "8", "0", 31),
        ("0X", "8", "0", 31),
        ("0o", "2", "0", 42),
        ("0b", "1", "0", 127),
        ("0x", "7", "f", 31),
        ("0o", "1", "7", 42),
        ("0B", "0", "1", 127),
    ];
    const SIGNS: [(&str, &str); 9] =
        [("", ""), ("", "-"), ("", "+"), ("-", ""), ("-", "-"), ("-", "+"), ("+", ""), ("+", "-"), ("+", "+")];
    const ZEROS: [&str; 5] = ["", "0", "0_0", "0_", "_"];
    let signed = VALUES.into_iter().flat_map(|value| SIGNS.map(|signs| (value, signs)));
    signed.flat_map(|((prefix, first, digit, count), (sign, second))| {
        ZEROS.map(|zeros| format!("{sign}{prefix}{second}{zeros}{first}{}", digit.repeat(count)))
    })
}

/// One byte more than the writers take, which is 12 before a byte of it is read, with any bit count too; and just as many as they take, which is 11 since they
/// are NUL.
fn too_long(comparing: &mut Comparing) -> Outcome {
    let value = vec![0; MOST + 1];
    let plain = |part| Spelling::Plain { part, setting: 0 };
    for spelling in [plain(None), plain(Some(4)), Spelling::Escape, Spelling::Unicode] {
        comparing.write(&Writing { value: &value, spelling })?;
        comparing.write(&Writing { value: &value[..MOST], spelling })?;
    }
    for (bits, kind) in [(0, BINARY), (8 * MOST as u64 + 8, BINARY), (8 * MOST as u64, HEX), (u64::MAX, HEX)] {
        comparing.write_bits(&BitWriting { bytes: &value, bits, kind })?;
    }
    Ok(())
}

#[cfg(test)]
mod tests {
    use super::*;

    /// Ours, but for written ranges that it shows untested.
    fn untested(shown: impl Fn(usize, usize, usize) -> bool) {
        views(|how, first, second, source, out| match how {
            WRITTEN if shown(first, second, out) => (how, first, second),
            _ => ours::view(how, first, second, source, out),
        });
    }

    #[test]
    fn our_view_holds() {
        views(ours::view);
    }

    #[test]
    #[should_panic(expected = "the view of 2 1 6 for 0 and 0 bytes")]
    fn a_written_range_past_the_buffer_is_tried() {
        untested(|first, second, out| 0 < first && first < second && out < second);
    }

    #[test]
    #[should_panic(expected = "the view of 2 1 0 for 0 and 0 bytes")]
    fn a_written_range_that_ends_before_it_starts_is_tried() {
        untested(|first, second, _| second < first);
    }
}
