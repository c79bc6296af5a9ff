//! The Rust original's answers.

use crate::question::{Asked, Question, Said};
use crate::{dates, packing};
use original::ast::literal::{
    Literal, LiteralValueError, is_unicode_ident, materialize_unicode_ident, postgres_escape_string_is_valid,
    split_radix_prefix, string_literal_embeds_nul, uescape_argument_is_legal, unicode_escape_string_is_valid,
};
use original::ast::ty::{IntervalFields, TimeZone};
use original::codes;
use original::dialect::StringLiteralSyntax;
use original::vocab::{Meta, Span};
use std::borrow::Cow;

pub fn said(asked: &Asked, source: &str) -> Said {
    if asked.question.is_bare() { of_text(asked.question, source) } else { of_literal(asked, source) }
}

fn of_literal(asked: &Asked, source: &str) -> Said {
    let literal = literal(asked);
    let refused = |error: LiteralValueError| {
        let (number, first, second) = codes::refusal(&error);
        Said::Refused(number, first as usize, second as usize)
    };
    let text =
        |answer: Result<Cow<'_, str>, LiteralValueError>| answer.map_or_else(refused, |found| text(source, found));
    match asked.question {
        Question::Str => text(literal.as_str_in(source, StringLiteralSyntax { backslash_escapes: asked.setting == 1 })),
        Question::Plain => text(literal.as_str(source)),
        Question::Decimal => text(literal.as_decimal_text(source)),
        Question::Bits => text(literal.as_bit_text(source)),
        Question::Packed => packing::of_bits(asked, text(literal.as_bit_text(source)), source),
        Question::Temporal => text(literal.as_temporal_text(source)),
        Question::Date => dates::of_temporal(asked, text(literal.as_temporal_text(source)), source),
        Question::Money => text(literal.as_money_text(source)),
        Question::Source => text(literal.source_text(source).map(Cow::Borrowed)),
        Question::Charset => literal
            .charset_introducer(source)
            .map_or_else(refused, |name| name.map_or(Said::Nothing, |name| part(source, name))),
        Question::I64 => literal.as_i64(source).map_or_else(refused, Said::Integer),
        Question::Bool => literal.as_bool().map_or_else(refused, Said::Truth),
        Question::Null => literal.as_null().map_or_else(refused, |()| Said::Nothing),
        Question::IsNull => Said::Truth(literal.is_null()),
        _ => unreachable!("asks a bare text"),
    }
}

fn of_text(question: Question, bare: &str) -> Said {
    match question {
        Question::Ident => materialize_unicode_ident(bare).map_or(Said::Refused(6, 0, 0), |found| text(bare, found)),
        Question::IsIdent => Said::Truth(is_unicode_ident(bare)),
        Question::EscapeValid => Said::Truth(postgres_escape_string_is_valid(bare)),
        Question::UnicodeValid => Said::Truth(unicode_escape_string_is_valid(bare)),
        Question::Uescape => Said::Truth(uescape_argument_is_legal(bare)),
        Question::Nul => Said::Truth(string_literal_embeds_nul(bare)),
        Question::Radix => {
            let (base, rest) = split_radix_prefix(bare);
            Said::Prefix(base, bare.len() - rest.len())
        }
        _ => unreachable!("asks a literal"),
    }
}

fn literal(asked: &Asked) -> Literal {
    let zone = [TimeZone::Unspecified, TimeZone::With, TimeZone::Without][asked.variety as usize % 3];
    let fields = (asked.variety & 4 != 0).then_some(IntervalFields::Day);
    let precision = (asked.variety & 8 != 0).then_some(3);
    let span =
        if asked.synthetic == 1 { Span::detached(asked.start, asked.end) } else { Span::over(asked.start, asked.end) };
    Literal { kind: codes::kind_with(asked.kind, zone, fields, precision), meta: Meta { span } }
}

fn text(source: &str, found: Cow<'_, str>) -> Said {
    match found {
        Cow::Borrowed(found) => part(source, found),
        Cow::Owned(made) => Said::Written(made.into_bytes()),
    }
}

/// A part of the source, by its places.
fn part(source: &str, found: &str) -> Said {
    let first = found.as_ptr().addr() - source.as_ptr().addr();
    assert!(first + found.len() <= source.len(), "a part of the source");
    Said::Borrowed(first, first + found.len())
}
