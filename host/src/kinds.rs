//! What a literal is said to be, and what a question expects it to be.

use std::fmt;

/// The `WITH` or `WITHOUT TIME ZONE` of a `TIME` or `TIMESTAMP`.
#[derive(Clone, Copy, Debug, Default, PartialEq, Eq, PartialOrd, Ord, Hash)]
pub enum TimeZone {
    /// Nothing is said.
    #[default]
    Unspecified,
    /// `WITH TIME ZONE`
    WithTimeZone,
    /// `WITHOUT TIME ZONE`
    WithoutTimeZone,
}

/// The qualifier behind an `INTERVAL`. A new dialect can bring a new case.
#[derive(Clone, Copy, Debug, PartialEq, Eq, PartialOrd, Ord, Hash)]
#[non_exhaustive]
pub enum IntervalFields {
    /// `YEAR`
    Year,
    /// `MONTH`
    Month,
    /// `DAY`
    Day,
    /// `HOUR`
    Hour,
    /// `MINUTE`
    Minute,
    /// `SECOND`
    Second,
    /// `YEAR TO MONTH`
    YearToMonth,
    /// `DAY TO HOUR`
    DayToHour,
    /// `DAY TO MINUTE`
    DayToMinute,
    /// `DAY TO SECOND`
    DayToSecond,
    /// `HOUR TO MINUTE`
    HourToMinute,
    /// `HOUR TO SECOND`
    HourToSecond,
    /// `MINUTE TO SECOND`
    MinuteToSecond,
    /// `WEEK`
    Week,
    /// `QUARTER`
    Quarter,
    /// `DECADE`
    Decade,
    /// `CENTURY`
    Century,
    /// `MILLENNIUM`
    Millennium,
    /// `MILLISECOND`
    Millisecond,
    /// `MICROSECOND`
    Microsecond,
    /// `DAY_MICROSECOND`
    DayToMicrosecond,
    /// `HOUR_MICROSECOND`
    HourToMicrosecond,
    /// `MINUTE_MICROSECOND`
    MinuteToMicrosecond,
    /// `SECOND_MICROSECOND`
    SecondToMicrosecond,
}

/// The base of a bit string's digits.
#[derive(Clone, Copy, Debug, PartialEq, Eq, PartialOrd, Ord, Hash)]
pub enum BitStringRadix {
    /// 0 and 1
    Binary,
    /// 0 to 9 and A to F, in either case
    Hex,
}

/// What a literal is said to be. It is taken as given: no text is ever asked which kind it has.
///
/// Time zones and an interval's data decide no answer; they come back in [`Error::WrongKind`](crate::Error::WrongKind), but not from a block.
///
/// Kinds are ordered as they are listed here, and those of one case by its data, so `FALSE` before `TRUE`. A later version can add a kind.
#[derive(Clone, Copy, Debug, PartialEq, Eq, PartialOrd, Ord, Hash)]
#[non_exhaustive]
pub enum Kind {
    /// A whole number, as `42` or `0x2A`.
    Integer,
    /// A binary floating-point number, as `1.5e3`.
    Float,
    /// An exact number with a fraction, as `1.50`.
    Decimal,
    /// A string in any spelling.
    String,
    /// `TRUE` or `FALSE`.
    Boolean(bool),
    /// `NULL`
    Null,
    /// `DATE '..'`
    Date,
    /// `TIME '..'`
    Time {
        /// What is said of the time zone.
        time_zone: TimeZone,
    },
    /// `TIMESTAMP '..'`
    Timestamp {
        /// What is said of the time zone.
        time_zone: TimeZone,
    },
    /// `INTERVAL '..'`
    Interval {
        /// The qualifier, if there is one.
        fields: Option<IntervalFields>,
        /// The precision, if there is one.
        precision: Option<u32>,
    },
    /// `B'..'` or `X'..'`. Its digits go by this base, and not by the letter.
    BitString {
        /// The base of its digits.
        radix: BitStringRadix,
    },
    /// A price that begins with `$`.
    Money,
}

impl fmt::Display for Kind {
    fn fmt(&self, f: &mut fmt::Formatter<'_>) -> fmt::Result {
        f.write_str(match self {
            Kind::Integer => "an integer",
            Kind::Float => "a float",
            Kind::Decimal => "a decimal",
            Kind::String => "a string",
            Kind::Boolean(true) => "TRUE",
            Kind::Boolean(false) => "FALSE",
            Kind::Null => "NULL",
            Kind::Date => "a date",
            Kind::Time { .. } => "a time",
            Kind::Timestamp { .. } => "a timestamp",
            Kind::Interval { .. } => "an interval",
            Kind::BitString { radix: BitStringRadix::Binary } => "a binary bit string",
            Kind::BitString { radix: BitStringRadix::Hex } => "a hex bit string",
            Kind::Money => "a money text",
        })
    }
}

/// What a question expects a literal to be. A new question can bring a new case.
#[derive(Clone, Copy, Debug, PartialEq, Eq, Hash)]
#[non_exhaustive]
pub enum Expected {
    /// [`Kind::Integer`]
    Integer,
    /// [`Kind::Integer`], [`Kind::Float`] or [`Kind::Decimal`]
    DecimalText,
    /// [`Kind::String`]
    String,
    /// [`Kind::Boolean`]
    Boolean,
    /// [`Kind::Null`]
    Null,
    /// [`Kind::Date`], [`Kind::Time`], [`Kind::Timestamp`] or [`Kind::Interval`]
    Temporal,
    /// [`Kind::BitString`]
    BitString,
    /// [`Kind::Money`]
    Money,
    /// [`Kind::Date`] alone
    Date,
}

impl fmt::Display for Expected {
    fn fmt(&self, f: &mut fmt::Formatter<'_>) -> fmt::Result {
        f.write_str(match self {
            Expected::Integer => "an integer",
            Expected::DecimalText => "a number",
            Expected::String => "a string",
            Expected::Boolean => "TRUE or FALSE",
            Expected::Null => "NULL",
            Expected::Temporal => "a date, time, timestamp or interval",
            Expected::BitString => "a bit string",
            Expected::Money => "a money text",
            Expected::Date => "a date",
        })
    }
}
