//! What document 01 decides without the Rust: the tests before a text is read, text that is not UTF-8, and the one family left out of equality.

use crate::question::{Asked, Question, Said};
use std::str::from_utf8;

/// The refusals 10, 1, 2 and 3, in this order.
pub fn refused_early(asked: &Asked, source: &[u8]) -> Option<Said> {
    let Asked { question, kind, start, end, .. } = *asked;
    let span = |number| Some(Said::Refused(number, start as usize, end as usize));
    if question.is_bare() || question == Question::IsNull {
        return None;
    }
    if names_nothing(asked) {
        return Some(Said::Refused(10, 0, 0));
    }
    if let Some((expected, fits)) = expected(question)
        && !fits.contains(&kind)
    {
        return Some(Said::Refused(1, expected, kind as usize));
    }
    if !question.reads() {
        return None;
    }
    if asked.synthetic == 1 {
        return span(2);
    }
    let cuts = |place: u32| source.get(place as usize).is_some_and(|byte| (0x80..=0xBF).contains(byte));
    if start > end || end as usize > source.len() || cuts(start) || cuts(end) { span(3) } else { None }
}

/// The refusal 4 of a literal whose span is good.
pub fn not_utf8(asked: &Asked, source: &[u8]) -> Option<Said> {
    let wrong = asked.question.reads() && from_utf8(asked.text(source)).is_err();
    wrong.then_some(Said::Refused(4, asked.start as usize, asked.end as usize))
}

/// The answers about a bare text that is not UTF-8.
pub fn of_broken(question: Question, text: &[u8]) -> Said {
    match question {
        Question::Ident => Said::Refused(4, 0, 0),
        Question::EscapeValid | Question::UnicodeValid | Question::Uescape => Said::Truth(false),
        Question::IsIdent => Said::Truth(matches!(text, [b'U' | b'u', b'&', b'"', ..])),
        Question::Nul => Said::Truth(text.contains(&0)),
        _ => prefix(text),
    }
}

fn prefix(text: &[u8]) -> Said {
    let base = match text.get(..2).map(<[u8]>::to_ascii_lowercase).as_deref() {
        Some(b"0x") => 16,
        Some(b"0o") => 8,
        Some(b"0b") => 2,
        _ => return Said::Prefix(10, 0),
    };
    Said::Prefix(base, 2)
}

/// Whether a decimal question asks a minus, then a radix value of exactly -2^127: ours is 5, the Rust's depends on the build. A misplaced `_` is 5 either way.
pub fn is_left_out(asked: &Asked, source: &[u8]) -> bool {
    if asked.question != Question::Decimal {
        return false;
    }
    let Some(unsigned) = asked.text(source).strip_prefix(b"-") else {
        return false;
    };
    let Said::Prefix(base, 2) = prefix(unsigned) else {
        return false;
    };
    let digits: String = unsigned[2..].iter().filter(|&&byte| byte != b'_').map(|&byte| char::from(byte)).collect();
    i128::from_str_radix(&digits, base) == Ok(i128::MIN)
}

fn names_nothing(asked: &Asked) -> bool {
    let kind = !(1..=14).contains(&asked.kind);
    let mark = asked.question.reads() && asked.synthetic > 1;
    kind || mark || (asked.question.is_set() && asked.setting > 1)
}

/// The family that a question expects, and the codes of the kinds that fit it.
fn expected(question: Question) -> Option<(usize, &'static [u32])> {
    match question {
        Question::I64 => Some((1, &[1])),
        Question::Decimal => Some((2, &[1, 2, 3])),
        Question::Str | Question::Plain | Question::Charset => Some((3, &[4])),
        Question::Bool => Some((4, &[5, 6])),
        Question::Null => Some((5, &[7])),
        Question::Temporal => Some((6, &[8, 9, 10, 11])),
        Question::Bits | Question::Packed => Some((7, &[12, 13])),
        Question::Money => Some((8, &[14])),
        Question::Date => Some((9, &[8])),
        _ => None,
    }
}

#[cfg(test)]
mod tests {
    use super::*;

    fn left_out(text: &str) -> bool {
        let end = text.len() as u32;
        let question = Question::Decimal;
        is_left_out(&Asked { question, kind: 1, synthetic: 0, start: 0, end, setting: 0, variety: 0 }, text.as_bytes())
    }

    #[test]
    fn one_family_is_left_out() {
        let power = format!("8{}", "0".repeat(31));
        assert!(left_out(&format!("-0x-{power}")));
        assert!(left_out(&format!("-0X-00{power}")));
        assert!(left_out(&format!("-0b-1{}", "0".repeat(127))));
        assert!(left_out(&format!("-0o-2{}", "0".repeat(42))));
        assert!(!left_out(&format!("0x-{power}")));
        assert!(!left_out(&format!("-0x{power}")));
        assert!(!left_out(&format!("-0x-{power}0")));
        assert!(!left_out("-0x-8"));
    }
}
