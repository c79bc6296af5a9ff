//! Rows of `vectors/`, all that a caller of this crate can ask: the Rust original's own answers, how document 01 is read, and the facts of the writers' two
//! forms, of values in parts, of places, of dates, of printed numbers and of packed bits. `tests/blocks.rs` has those of blocks. docs/VECTORS.md says what a row holds.

mod common;

use common::{KINDS, LENT, place, table, unhex};
use std::borrow::Cow;
use std::fmt::Write;
use valdrabus::*;

#[derive(Default)]
struct Row {
    id: String,
    question: String,
    kind: String,
    setting: Settings,
    start: String,
    end: String,
    source: Vec<u8>,
    room: String,
    answer: String,
}

fn rows(name: &str) -> Vec<Row> {
    let read = if name == "forms" { form_row } else { row };
    table(name).into_iter().map(read).filter(|row| row.question != "record").collect()
}

/// A tenth column, where a file has one, says what the row is there for.
fn row(mut columns: Vec<String>) -> Row {
    columns.truncate(9);
    let [id, question, kind, setting, start, end, source, room, answer] = columns.try_into().expect("nine columns");
    let setting = Settings::STANDARD.with_backslash(setting == "1");
    Row { id, question, kind, setting, start, end, source: unhex(&source), room, answer }
}

/// A row of a value to write; its question is the form, and its room the buffer's length.
fn form_row(columns: Vec<String>) -> Row {
    let [id, question, value, room, answer] = columns.try_into().expect("five columns");
    Row { id, question, source: unhex(&value), room, answer, ..Row::default() }
}

fn hex(bytes: &[u8]) -> String {
    if bytes.is_empty() {
        return "-".to_owned();
    }
    bytes.iter().fold(String::new(), |mut text, byte| {
        write!(text, "{byte:02X}").unwrap();
        text
    })
}

impl Row {
    fn literal(&self) -> Literal {
        let kind = KINDS[self.kind.parse::<usize>().unwrap() - 1];
        let span = self.start.parse().unwrap()..self.end.parse().unwrap();
        Literal { synthetic: self.question.ends_with("/synthetic"), ..Literal::new(kind, span) }
    }

    /// The bytes that are written where there is room for them; behind packed ones stands how many bits they hold.
    fn value(&self) -> Option<Vec<u8>> {
        self.answer.strip_prefix("w ")?.split(' ').next().map(unhex)
    }

    /// The count and the base that packed bytes are written with.
    fn bits(&self) -> (u64, BitStringRadix) {
        let radix = if self.kind == "13" { BitStringRadix::Hex } else { BitStringRadix::Binary };
        (self.start.parse().expect("a count"), radix)
    }

    /// Whether a value is written; then the room is the buffer's length.
    fn is_writers(&self) -> bool {
        ["writer", "escape", "unicode", "unpack"].contains(&self.question.as_str())
    }

    /// The lengths of the buffers to lend. A borrowed answer and a refusal need none, and must leave any. A value that is written is also lent just what it needs, and a byte less.
    fn lengths(&self) -> Vec<usize> {
        if self.is_writers() {
            let room = self.room.parse().expect("a length");
            return self.value().map_or(vec![room], |value| vec![room, value.len(), value.len() - 1]);
        }
        match (self.room.parse(), self.value()) {
            (Ok(room), Some(value)) => vec![value.len().checked_add_signed(room).expect("a length")],
            _ => vec![0, 64],
        }
    }

    /// The answer that is due in a buffer of a length, and the buffer's bytes behind the call.
    fn due(&self, len: usize) -> (String, Vec<u8>) {
        match self.value() {
            Some(value) if value.len() <= len => {
                let rest = vec![LENT; len - value.len()];
                (self.answer.clone(), [value, rest].concat())
            }
            Some(value) => (format!("r 9 {}", value.len()), vec![LENT; len]),
            None => (self.answer.clone(), vec![LENT; len]),
        }
    }
}

fn refused(error: Error) -> String {
    match (error, error.span()) {
        (Error::WrongKind { expected, actual }, _) => format!("r 1 {} {}", expected.code(), actual.code()),
        (Error::NoRoom { needed }, _) => format!("r 9 {needed}"),
        (Error::InvalidString { place: Some(place), .. }, Some(span)) => {
            format!("r 6 {} {} {place}", span.start, span.end)
        }
        (_, Some(span)) => format!("r {} {} {}", error.number(), span.start, span.end),
        (_, None) => format!("r {}", error.number()),
    }
}

/// Where a part stands in the source that it is a part of.
fn borrowed(source: &[u8], part: &[u8]) -> String {
    let start = place(source.as_ptr(), part);
    format!("b {} {}", start, start + part.len())
}

fn told<T: AsRef<[u8]> + ?Sized>(source: &[u8], answer: Result<Text<'_, '_, T>, Error>) -> String {
    match answer {
        Ok(Text::Borrowed(part)) => borrowed(source, part.as_ref()),
        Ok(Text::Written(text)) => format!("w {}", hex(text.as_ref())),
        Err(error) => refused(error),
    }
}

fn told_part<T: AsRef<[u8]> + ?Sized>(source: &[u8], answer: Result<Option<&T>, Error>) -> String {
    match answer {
        Ok(Some(part)) => borrowed(source, part.as_ref()),
        Ok(None) => "n".to_owned(),
        Err(error) => refused(error),
    }
}

fn written(text: &str) -> String {
    format!("w {}", hex(text.as_bytes()))
}

fn packed(bytes: &[u8], bits: u64) -> String {
    format!("w {} {bits}", hex(bytes))
}

fn day(date: Date) -> String {
    format!("d {} {} {} {}", date.year(), date.month(), date.day(), date.day_number())
}

fn yes(truth: bool) -> String {
    if truth { "yes" } else { "no" }.to_owned()
}

/// The row asked over bytes.
fn in_bytes(row: &Row, out: &mut [u8]) -> String {
    let source = &row.source[..];
    let question = row.question.trim_end_matches("/synthetic");
    if let Some(answer) = on_bare_text(row, question, out) {
        return answer;
    }
    let literal = row.literal();
    let asked = literal.in_bytes(source);
    match question {
        "string" => told(source, asked.as_str_in(row.setting, out)),
        "plain" => told(source, asked.as_str(out)),
        "decimal" => told(source, asked.as_decimal_text(out)),
        "bits" => told(source, asked.as_bit_text(out)),
        "pack" => asked.as_packed_bits(out).map_or_else(refused, |bits| packed(bits.bytes(), bits.bits())),
        "temporal" => told(source, asked.as_temporal_text(out)),
        "money" => told_part(source, asked.as_money_text().map(Some)),
        "source" => told_part(source, asked.source_text().map(Some)),
        "charset" => told_part(source, asked.charset_introducer()),
        "i64" => asked.as_i64().map_or_else(refused, |value| format!("i {value}")),
        "date" => asked.as_date().map_or_else(refused, day),
        "bool" => literal.as_bool().map_or_else(refused, yes),
        "null" => literal.as_null().map_or_else(refused, |()| yes(literal.is_null())),
        other => panic!("no question {other}"),
    }
}

fn on_bare_text(row: &Row, question: &str, out: &mut [u8]) -> Option<String> {
    let source = &row.source[..];
    Some(match question {
        "ident" => told(source, materialize_unicode_ident_bytes(source, out)),
        "isident" => yes(is_unicode_ident(source)),
        "evalid" => yes(postgres_escape_string_is_valid(source)),
        "uvalid" => yes(unicode_escape_string_is_valid(source)),
        "uescape" => yes(uescape_argument_is_legal(source)),
        "nul" => yes(string_literal_embeds_nul(source)),
        // The start is the number; 14 comes without a literal here.
        "day" => Date::from_day_number(row.start.parse().expect("a number")).map_or("r 14".to_owned(), day),
        "radix" => {
            let (base, rest) = split_radix_prefix_bytes(source);
            format!("p {base} {}", source.len() - rest.len())
        }
        "writer" => match row.start.parse() {
            Ok(size) => write_parts(source, size, row.setting, out),
            Err(_) => write_literal(source, row.setting, out),
        }
        .map_or_else(refused, written),
        "escape" => write_escape(source, out).map_or_else(refused, written),
        "unicode" => write_unicode(source, out).map_or_else(refused, written),
        "unpack" => {
            let (bits, radix) = row.bits();
            write_bit_literal(source, bits, radix, out).map_or_else(refused, written)
        }
        _ => return None,
    })
}

/// The row asked over text, where that differs from bytes.
fn in_text(row: &Row, text: &str, out: &mut [u8]) -> Option<String> {
    let source = text.as_bytes();
    let literal = || row.literal();
    Some(match row.question.trim_end_matches("/synthetic") {
        "string" => told(source, literal().as_str_in(text, row.setting, out)),
        "plain" => told(source, literal().as_str(text, out)),
        "decimal" => told(source, literal().as_decimal_text(text, out)),
        "bits" => told(source, literal().as_bit_text(text, out)),
        "pack" => literal().as_packed_bits(text, out).map_or_else(refused, |bits| packed(bits.bytes(), bits.bits())),
        "temporal" => told(source, literal().as_temporal_text(text, out)),
        "money" => told_part(source, literal().as_money_text(text).map(Some)),
        "source" => told_part(source, literal().source_text(text).map(Some)),
        "charset" => told_part(source, literal().charset_introducer(text)),
        "i64" => literal().as_i64(text).map_or_else(refused, |value| format!("i {value}")),
        "date" => literal().as_date(text).map_or_else(refused, day),
        "ident" => told(source, materialize_unicode_ident(text, out)),
        "radix" => {
            let (base, rest) = split_radix_prefix(text);
            format!("p {base} {}", text.len() - rest.len())
        }
        _ => return None,
    })
}

/// The row asked over bytes for bytes of its own, or of any bytes for a text.
fn allocated_in_bytes(row: &Row) -> Option<String> {
    let source = &row.source[..];
    let asked = || row.literal().in_bytes(source);
    let answer = match row.question.trim_end_matches("/synthetic") {
        "string" => asked().to_str_in(row.setting),
        "plain" => asked().to_str(),
        "decimal" => asked().to_decimal_text(),
        "bits" => asked().to_bit_text(),
        "temporal" => asked().to_temporal_text(),
        "ident" => to_unicode_ident_bytes(source),
        "pack" => return Some(told_packed(asked().to_packed_bits())),
        "unpack" if !row.answer.starts_with("r 9") => {
            let (bits, radix) = row.bits();
            to_bit_literal(source, bits, radix).map(|text| Cow::Owned(text.into_bytes()))
        }
        _ => return None,
    };
    Some(told_cow(source, answer))
}

fn told_packed(answer: Result<(Vec<u8>, u64), Error>) -> String {
    answer.map_or_else(refused, |(bytes, bits)| packed(&bytes, bits))
}

fn told_cow<T>(source: &[u8], answer: Result<Cow<'_, T>, Error>) -> String
where
    T: AsRef<[u8]> + ToOwned<Owned: AsRef<[u8]>> + ?Sized,
{
    match answer {
        Ok(Cow::Borrowed(part)) => borrowed(source, part.as_ref()),
        Ok(Cow::Owned(text)) => format!("w {}", hex(text.as_ref())),
        Err(error) => refused(error),
    }
}

/// The row asked over text for a text of its own.
fn allocated(row: &Row, text: &str) -> Option<String> {
    let answer = match row.question.trim_end_matches("/synthetic") {
        "string" => row.literal().to_str_in(text, row.setting),
        "plain" => row.literal().to_str(text),
        "decimal" => row.literal().to_decimal_text(text),
        "bits" => row.literal().to_bit_text(text),
        "temporal" => row.literal().to_temporal_text(text),
        "ident" => to_unicode_ident(text),
        "pack" => return Some(told_packed(row.literal().to_packed_bits(text))),
        _ if row.answer.starts_with("r 9") => return None,
        "writer" => match row.start.parse() {
            Ok(size) => to_parts(text, size, row.setting),
            Err(_) => to_literal(text, row.setting),
        }
        .map(Cow::Owned),
        "escape" => to_escape(text).map(Cow::Owned),
        "unicode" => to_unicode(text).map(Cow::Owned),
        _ => return None,
    };
    Some(told_cow(text.as_bytes(), answer))
}

fn replay(name: &str) -> usize {
    let mut asked = 0;
    for row in rows(name) {
        let text = std::str::from_utf8(&row.source).ok();
        for len in row.lengths() {
            let (answer, buffer) = row.due(len);
            let mut out = vec![LENT; len];
            assert_eq!((in_bytes(&row, &mut out), &out), (answer.clone(), &buffer), "{name} {} in bytes", row.id);
            out.fill(LENT);
            if let Some(said) = text.and_then(|text| in_text(&row, text, &mut out)) {
                assert_eq!((said, &out), (answer, &buffer), "{name} {} in text", row.id);
            }
        }
        for said in text.and_then(|text| allocated(&row, text)).into_iter().chain(allocated_in_bytes(&row)) {
            assert_eq!(said, row.answer, "{name} {} allocated", row.id);
        }
        asked += 1;
    }
    asked
}

#[test]
fn the_rusts_own_answers() {
    assert_eq!(replay("oracle"), 2_690);
}

#[test]
fn how_document_01_is_read() {
    assert_eq!(replay("clarified"), 638 - 23);
}

/// The table of request T-04 has 78.
#[test]
fn the_facts_of_places() {
    assert_eq!(replay("places"), 250);
}

/// The tables of request T-05 have 87.
#[test]
fn the_facts_of_dates() {
    assert_eq!(replay("dates"), 495);
}

/// The table of request T-06 has 40.
#[test]
fn the_facts_of_printing() {
    assert_eq!(replay("printing"), 1_471);
}

/// The tables of request T-07 have 73 facts, 8 decisions and 7 premises.
#[test]
fn the_facts_of_packed_bits() {
    assert_eq!(replay("packing"), 2_481);
}

#[test]
fn the_facts_of_the_two_forms() {
    assert_eq!(replay("forms"), 2 * (60 + 28));
}

#[test]
fn the_facts_of_values_in_parts() {
    assert_eq!(replay("parts"), 31 + 11);
}
