//! Each C function as a safe one on slices. All unsafe calls of the crate stand here.
//!
//! What the header asks of a caller, Rust's references give: a slice's pointer is never null and is valid for the slice's length, also when that is 0; a `&mut` is
//! aligned, valid for writing and overlaps nothing else that is borrowed. No function keeps a pointer. The `SAFETY` comments name this as "slices".
#![allow(
    clippy::borrow_as_ptr,
    reason = "the SAFETY comments rest on references, which become pointers in the call itself"
)]

use crate::items::{INVALID_STRING, Item, Told};
use crate::kinds::{BitStringRadix, Kind};
use crate::literal::Literal;
use crate::said::Said;
use crate::settings::Settings;
use crate::span::Span;
use crate::sys;

/// A question whose text is read at no setting.
#[derive(Clone, Copy)]
pub(crate) enum TextQuestion {
    Decimal,
    Bits,
    Temporal,
}

/// A question whose answer is a part of the source.
#[derive(Clone, Copy)]
pub(crate) enum PartQuestion {
    Source,
    Money,
    Charset,
}

pub(crate) fn as_str_in(literal: &Literal, source: &[u8], settings: Settings, out: &mut [u8]) -> Said {
    let mut said = Said::default();
    // SAFETY: slices.
    said.number = unsafe {
        sys::valdrabus_as_str_in(
            literal.kind.code(),
            literal.synthetic.into(),
            literal.span.start,
            literal.span.end,
            source.as_ptr(),
            source.len(),
            settings.number(),
            out.as_mut_ptr(),
            out.len(),
            &mut said.how,
            &mut said.first,
            &mut said.second,
            &mut said.place,
        )
    };
    said
}

/// The number of the whole call. On 0 as many answers are told as there are items, on any other nothing is changed.
pub(crate) fn read_block(items: &[Item], source: &[u8], answers: &mut [Told], out: &mut [u8]) -> u32 {
    // SAFETY: slices. An Item and a Told are four u32 each, in C's layout and so without padding: a slice of them is one of four times as many aligned numbers, and any numbers make a Told.
    unsafe {
        sys::valdrabus_read_block(
            items.as_ptr().cast(),
            4 * items.len(),
            source.as_ptr(),
            source.len(),
            answers.as_mut_ptr().cast(),
            4 * answers.len(),
            out.as_mut_ptr(),
            out.len(),
        )
    }
}

pub(crate) fn text(question: TextQuestion, literal: &Literal, source: &[u8], out: &mut [u8]) -> Said {
    let (kind, synthetic, Span { start, end }) = (literal.kind.code(), literal.synthetic.into(), literal.span);
    let (from, long, to, room) = (source.as_ptr(), source.len(), out.as_mut_ptr(), out.len());
    let mut said = Said::default();
    let Said { how, first, second, place, .. } = &mut said;
    // SAFETY: slices, in each call.
    said.number = unsafe {
        match question {
            TextQuestion::Decimal => {
                sys::valdrabus_as_decimal_text(kind, synthetic, start, end, from, long, to, room, how, first, second)
            }
            TextQuestion::Bits => {
                sys::valdrabus_as_bit_text(kind, synthetic, start, end, from, long, to, room, how, first, second)
            }
            TextQuestion::Temporal => sys::valdrabus_as_temporal_text(
                kind, synthetic, start, end, from, long, to, room, how, first, second, place,
            ),
        }
    };
    said
}

pub(crate) fn part(question: PartQuestion, literal: &Literal, source: &[u8]) -> Said {
    let ask = match question {
        PartQuestion::Source => sys::valdrabus_source_text,
        PartQuestion::Money => sys::valdrabus_as_money_text,
        PartQuestion::Charset => sys::valdrabus_charset_introducer,
    };
    let mut said = Said::default();
    // SAFETY: slices.
    said.number = unsafe {
        ask(
            literal.kind.code(),
            literal.synthetic.into(),
            literal.span.start,
            literal.span.end,
            source.as_ptr(),
            source.len(),
            &mut said.how,
            &mut said.first,
            &mut said.second,
        )
    };
    said
}

/// The value beside what is said; 0 on a refusal.
pub(crate) fn as_i64(literal: &Literal, source: &[u8]) -> (Said, i64) {
    let (mut said, mut value) = (Said::default(), 0);
    // SAFETY: slices.
    said.number = unsafe {
        sys::valdrabus_as_i64(
            literal.kind.code(),
            literal.synthetic.into(),
            literal.span.start,
            literal.span.end,
            source.as_ptr(),
            source.len(),
            &mut value,
            &mut said.first,
            &mut said.second,
        )
    };
    (said, value)
}

/// Year, month, day and the day's number beside what is said; each 0 on a refusal. The call tells no place: what it refuses by 6, the temporal question refuses
/// so with any buffer, and tells the place.
pub(crate) fn as_date(literal: &Literal, source: &[u8]) -> (Said, [u32; 4]) {
    let (mut said, [mut year, mut month, mut day, mut number]) = (Said::default(), [0; 4]);
    // SAFETY: slices.
    said.number = unsafe {
        sys::valdrabus_as_date(
            literal.kind.code(),
            literal.synthetic.into(),
            literal.span.start,
            literal.span.end,
            source.as_ptr(),
            source.len(),
            &mut year,
            &mut month,
            &mut day,
            &mut number,
            &mut said.first,
            &mut said.second,
        )
    };
    if said.number == INVALID_STRING {
        said.place = text(TextQuestion::Temporal, literal, source, &mut []).place;
    }
    (said, [year, month, day, number])
}

/// What is returned, and year, month and day beside it; each 0 on a refusal.
pub(crate) fn date_of_day(number: u32) -> (u32, [u32; 3]) {
    let [mut year, mut month, mut day] = [0; 3];
    // SAFETY: each lent number is a `&mut`.
    let returned = unsafe { sys::valdrabus_date_of_day(number, &mut year, &mut month, &mut day) };
    (returned, [year, month, day])
}

/// How many bits are packed beside what is said; 0 on a refusal.
pub(crate) fn as_packed_bits(literal: &Literal, source: &[u8], out: &mut [u8]) -> (Said, u64) {
    let (mut said, mut bits) = (Said::default(), 0);
    // SAFETY: slices.
    said.number = unsafe {
        sys::valdrabus_as_packed_bits(
            literal.kind.code(),
            literal.synthetic.into(),
            literal.span.start,
            literal.span.end,
            source.as_ptr(),
            source.len(),
            out.as_mut_ptr(),
            out.len(),
            &mut bits,
            &mut said.how,
            &mut said.first,
            &mut said.second,
        )
    };
    (said, bits)
}

/// Packed bytes as a bit string: the number, and the length.
pub(crate) fn write_bit_literal(bytes: &[u8], bits: u64, radix: BitStringRadix, out: &mut [u8]) -> (u32, usize) {
    let (kind, mut len) = (Kind::BitString { radix }.code(), 0);
    // SAFETY: slices.
    let number = unsafe {
        sys::valdrabus_write_bit_literal(bytes.as_ptr(), bytes.len(), bits, kind, out.as_mut_ptr(), out.len(), &mut len)
    };
    (number, len)
}

/// The value beside what is said; 0 on a refusal.
pub(crate) fn as_bool(literal: &Literal) -> (Said, u32) {
    let (mut said, mut value) = (Said::default(), 0);
    // SAFETY: each lent number is a `&mut`.
    said.number = unsafe { sys::valdrabus_as_bool(literal.kind.code(), &mut value, &mut said.first, &mut said.second) };
    (said, value)
}

pub(crate) fn as_null(literal: &Literal) -> Said {
    let mut said = Said::default();
    // SAFETY: each lent number is a `&mut`.
    said.number = unsafe { sys::valdrabus_as_null(literal.kind.code(), &mut said.first, &mut said.second) };
    said
}

pub(crate) fn is_null(literal: &Literal) -> bool {
    // SAFETY: no pointer is given.
    unsafe { sys::valdrabus_is_null(literal.kind.code()) }
}

pub(crate) fn identifier(text: &[u8], out: &mut [u8]) -> Said {
    let mut said = Said::default();
    // SAFETY: slices.
    said.number = unsafe {
        sys::valdrabus_materialize_unicode_ident(
            text.as_ptr(),
            text.len(),
            out.as_mut_ptr(),
            out.len(),
            &mut said.how,
            &mut said.first,
            &mut said.second,
        )
    };
    said
}

/// How a value is written.
#[derive(Clone, Copy)]
pub(crate) enum Spelling {
    Plain(Settings),
    /// Plain, in parts of at most so many bytes of the value.
    Parts(usize, Settings),
    Escape,
    Unicode,
}

/// A value as a literal: the number, and the length.
pub(crate) fn write(value: &[u8], spelling: Spelling, out: &mut [u8]) -> (u32, usize) {
    let (from, long, to, room) = (value.as_ptr(), value.len(), out.as_mut_ptr(), out.len());
    let mut len = 0;
    // SAFETY: slices, in each call.
    let number = unsafe {
        match spelling {
            Spelling::Plain(settings) => {
                sys::valdrabus_write_literal(from, long, settings.number(), to, room, &mut len)
            }
            Spelling::Parts(size, settings) => {
                sys::valdrabus_write_parts(from, long, size, settings.number(), to, room, &mut len)
            }
            Spelling::Escape => sys::valdrabus_write_escape(from, long, to, room, &mut len),
            Spelling::Unicode => sys::valdrabus_write_unicode(from, long, to, room, &mut len),
        }
    };
    (number, len)
}

/// The base, and where the digits begin.
pub(crate) fn split_radix_prefix(text: &[u8]) -> (u32, usize) {
    let mut start = 0;
    // SAFETY: slices.
    let base = unsafe { sys::valdrabus_split_radix_prefix(text.as_ptr(), text.len(), &mut start) };
    (base, start)
}

/// A test of a bare text.
#[derive(Clone, Copy)]
pub(crate) enum Test {
    UescapeArgument,
    EscapeString,
    UnicodeString,
    EmbedsNul,
    UnicodeIdent,
}

pub(crate) fn holds(what: Test, text: &[u8]) -> bool {
    let ask = match what {
        Test::UescapeArgument => sys::valdrabus_uescape_argument_is_legal,
        Test::EscapeString => sys::valdrabus_postgres_escape_string_is_valid,
        Test::UnicodeString => sys::valdrabus_unicode_escape_string_is_valid,
        Test::EmbedsNul => sys::valdrabus_string_literal_embeds_nul,
        Test::UnicodeIdent => sys::valdrabus_is_unicode_ident,
    };
    // SAFETY: slices.
    unsafe { ask(text.as_ptr(), text.len()) }
}
