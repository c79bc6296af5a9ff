//! Where reading stops. The Rust knows no place, but it reads and refuses: each place of ours is held to what it makes of the text cut there.
//!
//! A text is cut into its segments; the place has to be in the first one that the Rust refuses on its own, or at the start of what is no segment. In a segment's body it has to be where a unit begins
//! (a character, a doubled mark, an escape), and the Rust has to read the segment up to there, closed, and to refuse it up to behind that unit. Only one place is so: up to any unit before it the
//! segment is read, and behind it none is.

use crate::question::{Asked, Question, Said};
use crate::rust;
use std::ops::Range;

/// That a place is held, or what is wrong with it.
pub type Held = Result<(), &'static str>;

/// How many places were held, and how.
#[derive(Default)]
pub struct Places {
    /// At the start of the text, of a segment or of what is none.
    pub starts: u64,
    /// In a body: the Rust read the segment cut there, and refused it cut behind the unit there.
    pub units: u64,
    /// At the end of a body that is unfinished: the Rust read the segment once it was mended.
    pub ends: u64,
}

/// What an E segment may need to become UTF-8 where it is cut inside a sequence: the rest of one, behind each kind of first byte. Nothing else mends a segment.
const MENDED: [&str; 6] = ["", r"\x80", r"\x80\x80", r"\xA0\x80", r"\x80\x80\x80", r"\x90\x80\x80"];

impl Places {
    /// Holds the place of a refused text, counted from the text's start.
    pub fn hold(&mut self, asked: &Asked, text: &str, place: usize) -> Held {
        if place > 0 && place >= text.len() {
            return Err("the place is outside the text");
        }
        if !text.is_char_boundary(place) {
            return Err("the place is inside a character");
        }
        match asked.question {
            Question::Temporal => self.in_temporal(text, place),
            Question::Plain => self.in_string(text, false, place),
            _ => self.in_string(text, asked.setting == 1, place),
        }
    }

    /// A token's start is added; with no token the place is 0.
    fn in_temporal(&mut self, text: &str, place: usize) -> Held {
        let (quote, dollar) = (text.find('\''), text.find('$'));
        let first_dollar = dollar.filter(|dollar| quote.is_none_or(|quote| *dollar < quote));
        if let Some(start) = first_dollar {
            // A dollar token is refused for a NUL alone. A blank for it changes no token, and makes none.
            let token = reads(Question::Temporal, &text.replace('\0', " "), false);
            return self.at_start(place, if token { start } else { 0 });
        }
        let (Some(quote), Some(last)) = (quote, text.rfind('\'')) else { return self.at_start(place, 0) };
        let is_word = |byte: u8| byte == b'_' || byte.is_ascii_alphanumeric() || byte >= 0x80;
        let start = match text.as_bytes()[..quote] {
            [b'E' | b'e'] => quote - 1,
            [.., before, b'E' | b'e'] if !is_word(before) => quote - 1,
            _ => quote,
        };
        let place = place.checked_sub(start).ok_or("the place is before the token")?;
        if place > last - start {
            return Err("the place is behind the token");
        }
        self.in_string(&text[start..=last], false, place)
    }

    /// The first segment that is refused counts, also where what is no segment follows.
    fn in_string(&mut self, text: &str, on: bool, place: usize) -> Held {
        let (segments, rest) = cut(text, on);
        let refused = segments.into_iter().find(|segment| !reads(Question::Str, &text[segment.clone()], on));
        match (refused, rest) {
            (Some(segment), _) => {
                let within = place.checked_sub(segment.start).ok_or("the place is before the refused segment")?;
                self.in_segment(&text[segment], on, within)
            }
            (None, Some(rest)) => self.at_start(place, rest),
            (None, None) => Err("the Rust reads every segment"),
        }
    }

    fn in_segment(&mut self, segment: &str, on: bool, place: usize) -> Held {
        let Some(body) = Body::of(segment, on) else { return self.at_start(place, 0) };
        let mut unit = body.inside.start..body.inside.start;
        while unit.end < place && unit.end < body.inside.end {
            unit = body.unit(unit.end);
        }
        if unit.end != place {
            return Err("no unit of the segment begins at the place");
        }
        if !body.is_read_with(unit, on) {
            return Err("the Rust refuses the segment already where it ends at the place");
        }
        // At the body's end the segment itself is refused, and what was just read is it, mended.
        if place == body.inside.end {
            self.ends += 1;
            return Ok(());
        }
        if body.is_read_with(body.unit(place), on) {
            return Err("the Rust reads the segment where it ends behind the unit at the place");
        }
        self.units += 1;
        Ok(())
    }

    fn at_start(&mut self, place: usize, start: usize) -> Held {
        if place != start {
            return Err("the place is not the start of what holds a NUL, has no spelling or is no segment");
        }
        self.starts += 1;
        Ok(())
    }
}

/// Whether the Rust reads a text on its own.
fn reads(question: Question, text: &str, on: bool) -> bool {
    let kind = if question == Question::Temporal { 8 } else { 4 };
    let end = text.len() as u32;
    let asked = Asked { question, kind, synthetic: 0, start: 0, end, setting: on.into(), variety: 0 };
    !matches!(rust::said(&asked, text), Said::Refused(..))
}

/// The segments of a text, and where what is no segment begins. Text that is not joined is one segment, whatever it is.
fn cut(text: &str, on: bool) -> (Vec<Range<usize>>, Option<usize>) {
    let behind_gap = |at: usize| text.len() - text[at..].trim_start().len();
    if !first_end(text, on).is_some_and(|end| text[behind_gap(end)..].starts_with(['\'', '"'])) {
        return (std::iter::once(0..text.len()).collect(), None);
    }
    let (mut segments, mut at) = (Vec::new(), 0);
    while at < text.len() {
        let Some(long) = first_end(&text[at..], on) else { return (segments, Some(at)) };
        segments.push(at..at + long);
        at = behind_gap(at + long);
    }
    (segments, None)
}

/// Where a text's first segment ends, behind its closing mark.
fn first_end(text: &str, on: bool) -> Option<usize> {
    let (form, open) = opening(text)?;
    let (bytes, hides) = (text.as_bytes(), on || form == Form::Escape);
    let (mark, mut at) = (bytes[open - 1], open);
    while at < bytes.len() {
        match bytes[at] {
            b'\\' if hides => at += 2,
            byte if byte != mark => at += 1,
            _ if bytes.get(at + 1) == Some(&mark) => at += 2,
            _ => return Some(at + 1),
        }
    }
    None
}

#[derive(Clone, Copy, PartialEq)]
enum Form {
    Standard,
    Escape,
    Unicode,
    /// Cut as a segment, but no string.
    Bits,
}

/// What a segment begins as, and how long that is, the mark included.
fn opening(text: &str) -> Option<(Form, usize)> {
    match text.as_bytes() {
        [b'\'' | b'"', ..] => Some((Form::Standard, 1)),
        [b'N' | b'n', b'\'', ..] => Some((Form::Standard, 2)),
        [b'E' | b'e', b'\'', ..] => Some((Form::Escape, 2)),
        [b'U' | b'u', b'&', b'\'', ..] => Some((Form::Unicode, 3)),
        [b'B' | b'b' | b'X' | b'x', b'\'', ..] => Some((Form::Bits, 2)),
        _ => {
            let name = text.strip_prefix('_')?;
            let long = name.bytes().take_while(|&byte| byte == b'_' || byte.is_ascii_alphanumeric()).count();
            (long > 0 && name[long..].starts_with(['\'', '"'])).then_some((Form::Standard, long + 2))
        }
    }
}

/// A segment that has a spelling.
struct Body<'t> {
    segment: &'t str,
    inside: Range<usize>,
    mark: char,
    form: Form,
    /// What begins an escape, if anything does.
    escape: Option<char>,
}

impl<'t> Body<'t> {
    /// None where the segment holds a NUL or has no spelling; dollar strings have one, but nothing else is refused in them.
    fn of(segment: &'t str, on: bool) -> Option<Body<'t>> {
        let (form, open) = opening(segment).filter(|(form, _)| *form != Form::Bits && !segment.contains('\0'))?;
        if form == Form::Unicode {
            return Body::of_unicode(segment);
        }
        let mark = char::from(segment.as_bytes()[open - 1]);
        let end = segment.len().checked_sub(1).filter(|end| *end >= open && segment.ends_with(mark))?;
        let escape = (on || form == Form::Escape).then_some('\\');
        Some(Body { segment, inside: open..end, mark, form, escape })
    }

    /// It ends at the first mark that is not doubled; a clause behind it has to be one that the Rust takes.
    fn of_unicode(segment: &'t str) -> Option<Body<'t>> {
        const OPEN: usize = "U&'".len();
        let inside = OPEN..first_end(segment, false)? - 1;
        let clause = segment[inside.end + 1..].trim_start();
        let escape = match clause.chars().next() {
            None => '\\',
            Some('U' | 'u') if reads(Question::Str, &format!("U&''{clause}"), false) => clause.chars().rev().nth(1)?,
            Some(_) => return None,
        };
        Some(Body { segment, inside, mark: '\'', form: Form::Unicode, escape: Some(escape) })
    }

    /// Whether the Rust reads the segment where its body ends with a unit; if it is E, mended in some way. A backslash that has nothing behind it would take what mends for its own.
    fn is_read_with(&self, last: Range<usize>, on: bool) -> bool {
        let is_mended = self.form == Form::Escape && self.segment[last.clone()] != *"\\";
        let closed = |way: &&str| [&self.segment[..last.end], way, &self.segment[self.inside.end..]].concat();
        let ways = if is_mended { &MENDED[..] } else { &MENDED[..1] };
        ways.iter().any(|way| reads(Question::Str, &closed(way), on))
    }

    /// The unit at a place of the body: what is read in one piece, be it good or not.
    fn unit(&self, at: usize) -> Range<usize> {
        let rest = &self.segment[at..self.inside.end];
        let first = rest.chars().next().expect("a place in the body");
        let behind = &rest[first.len_utf8()..];
        let more = match self.form {
            _ if first == self.mark => behind.starts_with(self.mark).into(),
            _ if Some(first) != self.escape => 0,
            Form::Escape => escaped(behind),
            Form::Unicode => by_number(first, behind),
            _ => behind.chars().next().map_or(0, char::len_utf8),
        };
        at..at + first.len_utf8() + more
    }
}

/// How much of what stands behind a backslash of E belongs to it.
fn escaped(behind: &str) -> usize {
    match behind.chars().next() {
        None => 0,
        Some('0'..='7') => digits(behind, 3, 8),
        Some('x') => 1 + digits(&behind[1..], 2, 16),
        Some('u') => 1 + digits(&behind[1..], 4, 16),
        Some('U') => 1 + digits(&behind[1..], 8, 16),
        Some(character) => character.len_utf8(),
    }
}

/// How much of what stands behind U&'s escape character belongs to it; of a first half, the escape behind it too.
fn by_number(escape: char, behind: &str) -> usize {
    if behind.starts_with(escape) {
        return escape.len_utf8();
    }
    if let Some(number) = behind.strip_prefix('+') {
        return 1 + digits(number, 6, 16);
    }
    let one = digits(behind, 4, 16);
    let is_first_half = one == 4 && matches!(u32::from_str_radix(&behind[..4], 16), Ok(0xD800..=0xDBFF));
    match behind[one..].strip_prefix(escape) {
        Some(second) if is_first_half => one + escape.len_utf8() + digits(second, 4, 16),
        _ => one,
    }
}

/// How many digits of a base a text begins with, at most so many.
fn digits(text: &str, most: usize, base: u32) -> usize {
    text.chars().take(most).take_while(|digit| digit.is_digit(base)).count()
}

#[cfg(test)]
mod tests {
    use super::*;

    fn held(question: Question, setting: u32, text: &str) -> Vec<usize> {
        let asked = Asked { question, kind: 4, synthetic: 0, start: 0, end: 0, setting, variety: 0 };
        let holds = |place: &usize| Places::default().hold(&asked, text, *place).is_ok();
        (0..=text.len() + 1).filter(holds).collect()
    }

    /// Facts of request T-04's table, at the setting 0, and further ones.
    const FACTS: [(&str, usize); 38] = [
        ("'a'b'", 2),
        ("'a''", 2),
        ("'''''", 3),
        ("\"a\"b\"", 2),
        ("'é'b'", 3),
        ("_x'a'b'", 4),
        ("'a' E'c'", 2),
        ("E'a''b'c'", 6),
        ("", 0),
        ("'a' x", 0),
        (r"E'\400", 0),
        ("$$a$$b", 0),
        ("U&'a'b'", 0),
        (r"U&'\zz' UESCAPE 'a'", 0),
        ("'a'b\0'", 0),
        (r"E'\400'", 2),
        (r"E'\'", 2),
        (r"E'a\u12'", 3),
        (r"E'\n\xzz\0'", 8),
        (r"E'\xC3'", 6),
        (r"E'\xC3a'", 6),
        (r"E'\xC3'''", 6),
        (r"E'\xE0\x80\x80'", 6),
        (r"E'\xE2\x82'", 10),
        (r"E'\é\xFF'", 5),
        (r"E'\xC3\400'", 6),
        (r"E'\xC3\'", 6),
        (r"U&'\004'", 3),
        (r"U&'\D83D\0041'", 3),
        (r"U&'\D83D\DE00\D83D\+00DE00'", 13),
        (r"U&'\0041\DE00'", 8),
        ("U&'é0041éx'UESCAPE'é'", 9),
        ("'a' 'b'c'", 7),
        ("'a' 'b' x", 8),
        (r"'a' 'b' E'\400'", 10),
        ("'a' '\0' x", 4),
        ("'a' 'b' B'0'", 8),
        (r"E'\xC3' '\xA9'", 6),
    ];

    /// Of all places just the one that is due is held.
    #[test]
    fn no_other_place_is_held() {
        for (text, due) in FACTS {
            assert_eq!(held(Question::Str, 0, text), [due], "{text:?}");
        }
        assert_eq!(held(Question::Str, 1, r"'a\''b'"), [4]);
        assert_eq!(held(Question::Str, 1, r"U&'a\' 'b'"), [0]);
    }

    #[test]
    fn no_other_place_is_held_in_a_temporal_text() {
        for (text, due) in [
            ("DATE 'a'b'", 7),
            ("DATE", 0),
            ("DATE $a$x", 0),
            ("DATE $$\0$$", 5),
            ("DATE $\0$$", 0),
            (r"DATE E'\400'", 7),
            (r"DATEE'\400''", 10),
            ("x'\0'", 1),
            ("DATE 'a' 'b", 9),
        ] {
            assert_eq!(held(Question::Temporal, 0, text), [due], "{text:?}");
        }
    }
}
