//! The numbers that kinds and families have in `include/valdrabus.h`.

use crate::kinds::{BitStringRadix, Expected, Kind, TimeZone};
use std::fmt;

impl Kind {
    /// The kind's code, 1 to 14, as `include/valdrabus.h` lists them. [`Kind::try_from`] gives the kind back, without its data.
    ///
    /// ```
    /// use valdrabus::Kind;
    /// assert_eq!(Kind::String.code(), 4);
    /// assert_eq!(Kind::Boolean(false).code(), 6);
    /// ```
    #[must_use]
    pub const fn code(self) -> u32 {
        match self {
            Kind::Integer => 1,
            Kind::Float => 2,
            Kind::Decimal => 3,
            Kind::String => 4,
            Kind::Boolean(true) => 5,
            Kind::Boolean(false) => 6,
            Kind::Null => 7,
            Kind::Date => 8,
            Kind::Time { .. } => 9,
            Kind::Timestamp { .. } => 10,
            Kind::Interval { .. } => 11,
            Kind::BitString { radix: BitStringRadix::Binary } => 12,
            Kind::BitString { radix: BitStringRadix::Hex } => 13,
            Kind::Money => 14,
        }
    }

    /// The kind that has a code, without data.
    pub(crate) fn of_code(code: u32) -> Option<Kind> {
        const UNSPECIFIED: TimeZone = TimeZone::Unspecified;
        Some(match code {
            1 => Kind::Integer,
            2 => Kind::Float,
            3 => Kind::Decimal,
            4 => Kind::String,
            5 => Kind::Boolean(true),
            6 => Kind::Boolean(false),
            7 => Kind::Null,
            8 => Kind::Date,
            9 => Kind::Time { time_zone: UNSPECIFIED },
            10 => Kind::Timestamp { time_zone: UNSPECIFIED },
            11 => Kind::Interval { fields: None, precision: None },
            12 => Kind::BitString { radix: BitStringRadix::Binary },
            13 => Kind::BitString { radix: BitStringRadix::Hex },
            14 => Kind::Money,
            _ => return None,
        })
    }
}

/// By its [code](Kind::code), without data: the time zone is unspecified, and an interval has neither qualifier nor precision.
///
/// ```
/// use valdrabus::{Kind, TimeZone};
/// assert_eq!(Kind::try_from(4), Ok(Kind::String));
/// assert_eq!(Kind::try_from(9), Ok(Kind::Time { time_zone: TimeZone::Unspecified }));
/// assert_eq!(Kind::try_from(15).unwrap_err().to_string(), "15 is no kind's code");
/// ```
impl TryFrom<u32> for Kind {
    type Error = TryFromCodeError;

    /// # Errors
    ///
    /// [`TryFromCodeError`], where no kind has the code.
    fn try_from(code: u32) -> Result<Kind, TryFromCodeError> {
        Kind::of_code(code).ok_or(TryFromCodeError { code })
    }
}

/// That a number is no [`Kind`]'s code.
#[derive(Clone, Debug, PartialEq, Eq)]
pub struct TryFromCodeError {
    code: u32,
}

impl fmt::Display for TryFromCodeError {
    fn fmt(&self, f: &mut fmt::Formatter<'_>) -> fmt::Result {
        write!(f, "{} is no kind's code", self.code)
    }
}

impl std::error::Error for TryFromCodeError {}

impl Expected {
    const ALL: [Expected; 9] = [
        Expected::Integer,
        Expected::DecimalText,
        Expected::String,
        Expected::Boolean,
        Expected::Null,
        Expected::Temporal,
        Expected::BitString,
        Expected::Money,
        Expected::Date,
    ];

    /// The family's code, 1 to 9, as `include/valdrabus.h` lists them.
    #[must_use]
    pub const fn code(self) -> u32 {
        self as u32 + 1
    }

    /// The family that has a code.
    pub(crate) fn of_code(code: usize) -> Option<Expected> {
        Self::ALL.get(code.checked_sub(1)?).copied()
    }
}

#[cfg(test)]
mod tests {
    use super::*;

    #[test]
    fn a_kinds_code_gives_the_kind_back() {
        for code in 1..=14 {
            assert_eq!(Kind::of_code(code).map(Kind::code), Some(code));
            assert_eq!(Kind::try_from(code).ok(), Kind::of_code(code));
        }
        assert_eq!([0, 15, u32::MAX].map(Kind::of_code), [None; 3]);
        assert_eq!(Kind::try_from(0), Err(TryFromCodeError { code: 0 }));
    }

    /// In the order of their codes, but for `FALSE`, which is before `TRUE`.
    #[test]
    fn kinds_are_ordered() {
        let mut kinds: Vec<Kind> = (1..=14).rev().filter_map(Kind::of_code).collect();
        kinds.sort_unstable();
        let codes: Vec<u32> = kinds.into_iter().map(Kind::code).collect();
        assert_eq!(codes, [1, 2, 3, 4, 6, 5, 7, 8, 9, 10, 11, 12, 13, 14]);
        let time = |time_zone| Kind::Time { time_zone };
        assert!(time(TimeZone::Unspecified) < time(TimeZone::WithTimeZone));
    }

    #[test]
    fn a_familys_code_gives_the_family_back() {
        for expected in Expected::ALL {
            assert_eq!(Expected::of_code(expected.code() as usize), Some(expected));
        }
        assert_eq!([0, 10, usize::MAX].map(Expected::of_code), [None; 3]);
    }
}
