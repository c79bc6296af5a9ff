//! Document 01's numbers for the Rust's kinds, expected families and errors.

use crate::ast::literal::{BitStringRadix, LiteralExpected, LiteralKind, LiteralValueError, LiteralValueErrorKind};
use crate::ast::ty::{IntervalFields, TimeZone};

/// The kind with a code 1 to 14; time zones unspecified, interval data absent.
pub fn kind(code: u32) -> LiteralKind {
    kind_with(code, TimeZone::Unspecified, None, None)
}

/// The same with data that a kind may carry.
pub fn kind_with(
    code: u32,
    time_zone: TimeZone,
    fields: Option<IntervalFields>,
    precision: Option<u32>,
) -> LiteralKind {
    match code {
        1 => LiteralKind::Integer,
        2 => LiteralKind::Float,
        3 => LiteralKind::Decimal,
        4 => LiteralKind::String,
        5 => LiteralKind::Boolean(true),
        6 => LiteralKind::Boolean(false),
        7 => LiteralKind::Null,
        8 => LiteralKind::Date,
        9 => LiteralKind::Time { time_zone },
        10 => LiteralKind::Timestamp { time_zone },
        11 => LiteralKind::Interval { fields, precision },
        12 => LiteralKind::BitString { radix: BitStringRadix::Binary },
        13 => LiteralKind::BitString { radix: BitStringRadix::Hex },
        14 => LiteralKind::Money,
        _ => panic!("no kind has the code {code}"),
    }
}

/// The code of a kind, whatever data it carries.
pub fn code(kind: &LiteralKind) -> u32 {
    match kind {
        LiteralKind::Integer => 1,
        LiteralKind::Float => 2,
        LiteralKind::Decimal => 3,
        LiteralKind::String => 4,
        LiteralKind::Boolean(true) => 5,
        LiteralKind::Boolean(false) => 6,
        LiteralKind::Null => 7,
        LiteralKind::Date => 8,
        LiteralKind::Time { .. } => 9,
        LiteralKind::Timestamp { .. } => 10,
        LiteralKind::Interval { .. } => 11,
        LiteralKind::BitString { radix: BitStringRadix::Binary } => 12,
        LiteralKind::BitString { radix: BitStringRadix::Hex } => 13,
        LiteralKind::Money => 14,
    }
}

fn family(expected: LiteralExpected) -> u32 {
    match expected {
        LiteralExpected::Integer => 1,
        LiteralExpected::DecimalText => 2,
        LiteralExpected::String => 3,
        LiteralExpected::Boolean => 4,
        LiteralExpected::Null => 5,
        LiteralExpected::Temporal => 6,
        LiteralExpected::BitString => 7,
        LiteralExpected::Money => 8,
    }
}

/// A refusal's number and its two values: for 1 the expected family and the actual kind's code, for the others the span.
pub fn refusal(error: &LiteralValueError) -> (u32, u32, u32) {
    let number = match error.kind() {
        LiteralValueErrorKind::WrongKind { expected, actual } => return (1, family(*expected), code(actual)),
        LiteralValueErrorKind::MissingSource => 2,
        LiteralValueErrorKind::InvalidSourceRange => 3,
        LiteralValueErrorKind::InvalidInteger => 5,
        LiteralValueErrorKind::InvalidString => 6,
        LiteralValueErrorKind::InvalidBitString => 7,
        LiteralValueErrorKind::InvalidMoney => 8,
    };
    (number, error.span().start(), error.span().end())
}

#[cfg(test)]
mod tests {
    use super::*;
    use crate::ast::literal::Literal;
    use crate::vocab::{Meta, Span};

    #[test]
    fn every_code_comes_back() {
        for number in 1..=14 {
            assert_eq!(code(&kind(number)), number);
            let with_data = kind_with(number, TimeZone::With, Some(IntervalFields::Day), Some(3));
            assert_eq!(code(&with_data), number);
        }
    }

    #[test]
    fn a_wrong_kind_is_the_one_that_the_error_names() {
        let literal = Literal { kind: kind(13), meta: Meta { span: Span::over(2, 5) } };
        assert_eq!(literal.as_null().map_err(|error| refusal(&error)), Err((1, 5, 13)));
    }
}
