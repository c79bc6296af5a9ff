//! Our answers, through the C interface as it is.

use crate::packing::BitWriting;
use crate::question::{Asked, Question, Told};
use crate::writer::Spelling;
use valdrabus::sys;

/// The lent numbers before a call: what a call must write must not be there already.
const STALE: usize = 0x5A5A_5A5A_5A5A_5A5A;

struct Numbers {
    how: u32,
    first: usize,
    second: usize,
    place: usize,
    value: i64,
    day: [u32; 4],
    bits: u64,
}

impl Numbers {
    fn stale() -> Numbers {
        let (how, value, day) = (STALE as u32, STALE as i64, [STALE as u32; 4]);
        Numbers { how, first: STALE, second: STALE, place: STALE, value, day, bits: STALE as u64 }
    }
}

pub fn told(asked: &Asked, source: &[u8], out: &mut [u8]) -> Told {
    match asked.question {
        Question::Str | Question::Plain | Question::Decimal | Question::Bits | Question::Temporal | Question::Ident => {
            text(asked, source, out)
        }
        Question::Packed => packed(asked, source, out),
        Question::Date => date(asked, source),
        Question::Source | Question::Money | Question::Charset => part(asked, source),
        Question::I64 | Question::Bool | Question::Null => value(asked, source),
        _ => test(asked, source),
    }
}

fn text(asked: &Asked, source: &[u8], out: &mut [u8]) -> Told {
    let mut lent = Numbers::stale();
    let Asked { kind, synthetic, start, end, setting, .. } = *asked;
    let (from, long, to, room) = (source.as_ptr(), source.len(), out.as_mut_ptr(), out.len());
    let (how, first, second) = (&raw mut lent.how, &raw mut lent.first, &raw mut lent.second);
    let at = &raw mut lent.place;
    // SAFETY: both slices are valid for their lengths, and what is written through is ours alone.
    let returned = unsafe {
        match asked.question {
            Question::Str => sys::valdrabus_as_str_in(
                kind, synthetic, start, end, from, long, setting, to, room, how, first, second, at,
            ),
            Question::Plain => {
                sys::valdrabus_as_str_in(kind, synthetic, start, end, from, long, 0, to, room, how, first, second, at)
            }
            Question::Decimal => {
                sys::valdrabus_as_decimal_text(kind, synthetic, start, end, from, long, to, room, how, first, second)
            }
            Question::Bits => {
                sys::valdrabus_as_bit_text(kind, synthetic, start, end, from, long, to, room, how, first, second)
            }
            Question::Temporal => sys::valdrabus_as_temporal_text(
                kind, synthetic, start, end, from, long, to, room, how, first, second, at,
            ),
            _ => sys::valdrabus_materialize_unicode_ident(from, long, to, room, how, first, second),
        }
    };
    let place = if asked.question.is_placed() { lent.place } else { 0 };
    Told { returned, how: lent.how, first: lent.first, second: lent.second, place, ..Told::default() }
}

fn packed(asked: &Asked, source: &[u8], out: &mut [u8]) -> Told {
    let mut lent = Numbers::stale();
    let Asked { kind, synthetic, start, end, .. } = *asked;
    let (from, long, to, room) = (source.as_ptr(), source.len(), out.as_mut_ptr(), out.len());
    let (bits, how, first, second) = (&raw mut lent.bits, &raw mut lent.how, &raw mut lent.first, &raw mut lent.second);
    // SAFETY: as above.
    let returned = unsafe {
        sys::valdrabus_as_packed_bits(kind, synthetic, start, end, from, long, to, room, bits, how, first, second)
    };
    Told { returned, how: lent.how, first: lent.first, second: lent.second, bits: lent.bits, ..Told::default() }
}

fn date(asked: &Asked, source: &[u8]) -> Told {
    let mut lent = Numbers::stale();
    let Asked { kind, synthetic, start, end, .. } = *asked;
    let (first, second) = (&raw mut lent.first, &raw mut lent.second);
    let [year, month, day, number] = &mut lent.day;
    let (from, long) = (source.as_ptr(), source.len());
    // SAFETY: as above.
    let returned = unsafe {
        sys::valdrabus_as_date(kind, synthetic, start, end, from, long, year, month, day, number, first, second)
    };
    Told { returned, first: lent.first, second: lent.second, day: lent.day, ..Told::default() }
}

/// What is returned for a day's number, and year, month and day.
pub fn date_of_day(number: u32) -> (u32, [u32; 3]) {
    let [mut year, mut month, mut day] = [STALE as u32; 3];
    // SAFETY: the numbers are ours alone.
    let returned = unsafe { sys::valdrabus_date_of_day(number, &raw mut year, &raw mut month, &raw mut day) };
    (returned, [year, month, day])
}

fn part(asked: &Asked, source: &[u8]) -> Told {
    let mut lent = Numbers::stale();
    let Asked { kind, synthetic, start, end, .. } = *asked;
    let ask = match asked.question {
        Question::Source => sys::valdrabus_source_text,
        Question::Money => sys::valdrabus_as_money_text,
        _ => sys::valdrabus_charset_introducer,
    };
    let (how, first, second) = (&raw mut lent.how, &raw mut lent.first, &raw mut lent.second);
    // SAFETY: as above.
    let returned = unsafe { ask(kind, synthetic, start, end, source.as_ptr(), source.len(), how, first, second) };
    Told { returned, how: lent.how, first: lent.first, second: lent.second, ..Told::default() }
}

fn value(asked: &Asked, source: &[u8]) -> Told {
    let mut lent = Numbers::stale();
    let Asked { kind, synthetic, start, end, .. } = *asked;
    let (first, second) = (&raw mut lent.first, &raw mut lent.second);
    // SAFETY: as above.
    let returned = unsafe {
        match asked.question {
            Question::I64 => sys::valdrabus_as_i64(
                kind,
                synthetic,
                start,
                end,
                source.as_ptr(),
                source.len(),
                &raw mut lent.value,
                first,
                second,
            ),
            Question::Bool => {
                let returned = sys::valdrabus_as_bool(kind, &raw mut lent.how, first, second);
                lent.value = lent.how.into();
                returned
            }
            _ => {
                lent.value = 0;
                sys::valdrabus_as_null(kind, first, second)
            }
        }
    };
    Told { returned, first: lent.first, second: lent.second, value: lent.value, ..Told::default() }
}

fn test(asked: &Asked, bare: &[u8]) -> Told {
    let (from, long) = (bare.as_ptr(), bare.len());
    let mut start = STALE;
    // SAFETY: as above.
    let returned = unsafe {
        match asked.question {
            Question::IsNull => sys::valdrabus_is_null(asked.kind).into(),
            Question::IsIdent => sys::valdrabus_is_unicode_ident(from, long).into(),
            Question::EscapeValid => sys::valdrabus_postgres_escape_string_is_valid(from, long).into(),
            Question::UnicodeValid => sys::valdrabus_unicode_escape_string_is_valid(from, long).into(),
            Question::Uescape => sys::valdrabus_uescape_argument_is_legal(from, long).into(),
            Question::Nul => sys::valdrabus_string_literal_embeds_nul(from, long).into(),
            _ => sys::valdrabus_split_radix_prefix(from, long, &raw mut start),
        }
    };
    let first = if asked.question == Question::Radix { start } else { 0 };
    Told { returned, first, ..Told::default() }
}

/// A block's number, and a four for each item. More answers are lent, which must stay as they are.
pub fn block(items: &[Asked], source: &[u8], out: &mut [u8]) -> (u32, Vec<[u32; 4]>) {
    let items: Vec<u32> = items.iter().flat_map(|item| [item.kind, item.setting, item.start, item.end]).collect();
    let mut answers = vec![STALE as u32; items.len() + 5];
    // SAFETY: the slices are valid for their lengths, and what is written through is ours alone.
    let returned = unsafe {
        sys::valdrabus_read_block(
            items.as_ptr(),
            items.len(),
            source.as_ptr(),
            source.len(),
            answers.as_mut_ptr(),
            answers.len() - 1,
            out.as_mut_ptr(),
            out.len(),
        )
    };
    assert_eq!(answers.split_off(items.len()), [STALE as u32; 5], "answers past the items");
    (returned, answers.chunks_exact(4).map(|four| [four[0], four[1], four[2], four[3]]).collect())
}

/// What the view shows of an answer, as what it returns and its range.
pub fn view(how: u32, first: usize, second: usize, source_len: usize, out_len: usize) -> (u32, usize, usize) {
    let (mut from, mut until) = (STALE, STALE);
    // SAFETY: both numbers are ours alone.
    let shown = unsafe { sys::valdrabus_view(how, first, second, source_len, out_len, &raw mut from, &raw mut until) };
    (shown, from, until)
}

/// A writer's number and length.
pub fn written(value: &[u8], spelling: Spelling, out: &mut [u8]) -> (u32, usize) {
    let mut len = STALE;
    let (from, long, to, room) = (value.as_ptr(), value.len(), out.as_mut_ptr(), out.len());
    // SAFETY: both slices are valid for their lengths, and what is written through is ours alone.
    let returned = unsafe {
        match spelling {
            Spelling::Plain { part: None, setting } => {
                sys::valdrabus_write_literal(from, long, setting, to, room, &raw mut len)
            }
            Spelling::Plain { part: Some(part), setting } => {
                sys::valdrabus_write_parts(from, long, part, setting, to, room, &raw mut len)
            }
            Spelling::Escape => sys::valdrabus_write_escape(from, long, to, room, &raw mut len),
            Spelling::Unicode => sys::valdrabus_write_unicode(from, long, to, room, &raw mut len),
        }
    };
    (returned, len)
}

/// What the writer of bit literals returns, and the length that it tells.
pub fn bit_literal(writing: &BitWriting<'_>, out: &mut [u8]) -> (u32, usize) {
    let mut len = STALE;
    let BitWriting { bytes, bits, kind } = *writing;
    let (from, long, to, room) = (bytes.as_ptr(), bytes.len(), out.as_mut_ptr(), out.len());
    // SAFETY: as above.
    let returned = unsafe { sys::valdrabus_write_bit_literal(from, long, bits, kind, to, room, &raw mut len) };
    (returned, len)
}
