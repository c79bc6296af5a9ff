//! Days of the calendar.

use crate::calls;
use crate::errors::Error;
use crate::kinds::Kind;
use crate::literal::Literal;
use std::fmt;
use std::str::FromStr;

/// How many bytes `yyyy-mm-dd` has, and with a mark on each side.
const LONG: usize = 10;
const QUOTED: usize = LONG + 2;

/// The number of 1970-01-01.
const DAY_OF_1970: i32 = 719_163;

/// A day of the Gregorian calendar, before 1582 too as in ISO 8601, from 0001-01-01 to 9999-12-31. [`Literal::as_date`] gives that of a date literal.
///
/// Every `Date` is a day. Days are ordered by [number](Date::day_number), which is their order in time, and shown as `yyyy-mm-dd`, which is what [`str::parse`]
/// takes.
///
/// ```
/// use valdrabus::{Date, Kind, Literal};
///
/// let expiry = Literal::new(Kind::Date, 0..17).as_date("DATE '2027-01-31'")?;
/// assert_eq!((expiry.year(), expiry.month(), expiry.day()), (2027, 1, 31));
/// assert_eq!(expiry.day_number(), 740_012);
/// assert_eq!(expiry.to_string(), "2027-01-31");
/// assert_eq!("2027-01-31".parse(), Ok(expiry));
/// # Ok::<(), valdrabus::Error>(())
/// ```
///
/// # Other crates' dates
///
/// This crate needs none of them. Parts and numbers are the archive's; all that is counted here is [`days_since_1970`](Date::days_since_1970). Where `date` is
/// a `Date`, `n` its [number](Date::day_number) and `d` the other crate's date:
///
/// | for | it is | and back |
/// |---|---|---|
/// | `chrono` | `NaiveDate::from_num_days_from_ce_opt(n as i32)`, an `Option` | `Date::from_day_number(d.num_days_from_ce() as u32)` |
/// | `time` | `time::Date::from_julian_day(n as i32 + 1_721_425)`, a `Result` | `Date::from_day_number((d.to_julian_day() - 1_721_425) as u32)` |
/// | `jiff` | `jiff::civil::date(date.year() as i16, date.month() as i8, date.day() as i8)` | `Date::new(d.year() as u16, d.month() as u8, d.day() as u8)` |
/// | Python | `datetime.date.fromordinal(n)` | `d.toordinal()` is `n` |
/// | PostgreSQL | `DATE '0001-01-01' + (n - 1)` | `d - DATE '0001-01-01' + 1` is `n` |
/// | Unix time | [`days_since_1970`](Date::days_since_1970), times 86,400 for seconds | |
///
/// Each of these crates has every day of this one, so the `Option` and the `Result` hold a date, and `jiff`'s `date` does not panic. Their ways back answer an
/// `Option`, none for a day before 0001-01-01 or behind 9999-12-31: a number below 0 is too large as an unsigned one.
// The number is the first field: the derived order is by it.
#[derive(Clone, Copy, PartialEq, Eq, PartialOrd, Ord, Hash)]
pub struct Date {
    number: u32,
    year: u16,
    month: u8,
    day: u8,
}

impl Date {
    /// 0001-01-01, whose number is 1.
    ///
    /// ```
    /// use valdrabus::Date;
    /// assert_eq!(Date::FIRST.day_number(), 1);
    /// assert_eq!(Date::FIRST.to_string(), "0001-01-01");
    /// ```
    pub const FIRST: Date = Date { number: 1, year: 1, month: 1, day: 1 };

    /// 9999-12-31, whose number is 3,652,059.
    ///
    /// ```
    /// use valdrabus::Date;
    /// assert_eq!(Date::LAST.day_number(), 3_652_059);
    /// assert_eq!(Date::LAST.to_string(), "9999-12-31");
    /// ```
    pub const LAST: Date = Date { number: 3_652_059, year: 9999, month: 12, day: 31 };

    /// The day of a year, month and day, each counted from 1; none where the calendar has no such day, or the year is not 1 to 9999.
    ///
    /// ```
    /// use valdrabus::Date;
    /// assert_eq!(Date::new(2024, 2, 29).map(Date::day_number), Some(738_945));
    /// assert_eq!(Date::new(1900, 2, 29), None);
    /// assert_eq!(Date::new(0, 1, 1), None);
    /// ```
    #[must_use]
    pub fn new(year: u16, month: u8, day: u8) -> Option<Date> {
        // What has more digits than yyyy-mm-dd is no day; all else is asked.
        if year > 9999 || month > 99 || day > 99 { None } else { Date::of_text(&spelled(year, month, day)) }
    }

    /// The day that has a number; none but for 1 to 3,652,059.
    ///
    /// ```
    /// use valdrabus::Date;
    /// assert_eq!(Date::from_day_number(740_012), Date::new(2027, 1, 31));
    /// assert_eq!([0, 3_652_060].map(Date::from_day_number), [None; 2]);
    /// ```
    #[must_use]
    pub fn from_day_number(number: u32) -> Option<Date> {
        match calls::date_of_day(number) {
            (0, [year, month, day]) => Date::of_numbers([year, month, day, number]),
            _ => None,
        }
    }

    /// The year, 1 to 9999.
    #[must_use]
    pub const fn year(self) -> u16 {
        self.year
    }

    /// The month, 1 to 12.
    #[must_use]
    pub const fn month(self) -> u8 {
        self.month
    }

    /// The day of the month, 1 to 31.
    #[must_use]
    pub const fn day(self) -> u8 {
        self.day
    }

    /// The day's number: 0001-01-01 has 1, and each next day one more. The difference of two numbers is how many days lie between.
    ///
    /// ```
    /// use valdrabus::Date;
    /// let (sale, expiry) = (Date::new(2026, 11, 17).unwrap(), Date::new(2027, 1, 31).unwrap());
    /// assert_eq!(expiry.day_number() - sale.day_number(), 75);
    /// ```
    #[must_use]
    pub const fn day_number(self) -> u32 {
        self.number
    }

    /// How many days it is behind 1970-01-01, below 0 for a day before.
    ///
    /// ```
    /// use valdrabus::Date;
    /// assert_eq!(Date::new(1970, 1, 1).map(Date::days_since_1970), Some(0));
    /// assert_eq!(Date::new(1969, 12, 31).map(Date::days_since_1970), Some(-1));
    /// ```
    #[must_use]
    #[allow(clippy::cast_possible_wrap, reason = "no number is over 3,652,059")]
    pub const fn days_since_1970(self) -> i32 {
        self.number as i32 - DAY_OF_1970
    }

    /// The day of a date literal, or why it has none.
    pub(crate) fn of_literal(literal: &Literal, source: &[u8]) -> Result<Date, Error> {
        let (said, day) = calls::as_date(literal, source);
        said.accepted(Some(literal))?;
        Date::of_numbers(day).ok_or(Error::BadNumber)
    }

    /// The day that ten bytes spell, asked as a literal between two quote marks. Without a mark among them they are the literal's value as they stand.
    fn of_text(text: &[u8; LONG]) -> Option<Date> {
        if text.contains(&b'\'') {
            return None;
        }
        let mut quoted = [b'\''; QUOTED];
        quoted[1..=LONG].copy_from_slice(text);
        Date::of_literal(&Literal::whole(Kind::Date, quoted)?, &quoted).ok()
    }

    /// The day by year, month, day and number as the archive tells them; none where they do not fit, which the archive's own never do.
    fn of_numbers([year, month, day, number]: [u32; 4]) -> Option<Date> {
        Some(Date { number, year: year.try_into().ok()?, month: month.try_into().ok()?, day: day.try_into().ok()? })
    }
}

/// `yyyy-mm-dd` of numbers that have no more digits.
fn spelled(year: u16, month: u8, day: u8) -> [u8; LONG] {
    let digit = |number: u16| b'0' + (number % 10) as u8;
    let (month, day) = (u16::from(month), u16::from(day));
    [
        digit(year / 1000),
        digit(year / 100),
        digit(year / 10),
        digit(year),
        b'-',
        digit(month / 10),
        digit(month),
        b'-',
        digit(day / 10),
        digit(day),
    ]
}

/// As `yyyy-mm-dd`; width and fill are respected.
///
/// ```
/// use valdrabus::Date;
/// assert_eq!(format!("[{:>12}]", Date::FIRST), "[  0001-01-01]");
/// ```
impl fmt::Display for Date {
    fn fmt(&self, f: &mut fmt::Formatter<'_>) -> fmt::Result {
        let text = spelled(self.year, self.month, self.day);
        f.pad(std::str::from_utf8(&text).map_err(|_| fmt::Error)?)
    }
}

/// As it is displayed.
impl fmt::Debug for Date {
    fn fmt(&self, f: &mut fmt::Formatter<'_>) -> fmt::Result {
        fmt::Display::fmt(self, f)
    }
}

/// Takes exactly the ten bytes `yyyy-mm-dd` of a day, and no blank beside them.
///
/// ```
/// use valdrabus::Date;
/// assert_eq!("2024-02-29".parse::<Date>().map(Date::day_number), Ok(738_945));
/// for text in ["2023-02-29", "2024-2-29", " 2024-02-29", "2024-02-29 ", "20240229", "'024-02-29", ""] {
///     assert!(text.parse::<Date>().is_err(), "{text:?}");
/// }
/// ```
impl FromStr for Date {
    type Err = ParseDateError;

    fn from_str(text: &str) -> Result<Date, ParseDateError> {
        let text = text.as_bytes().try_into().map_err(|_| ParseDateError(()))?;
        Date::of_text(text).ok_or(ParseDateError(()))
    }
}

/// That a text does not spell a [`Date`].
///
/// ```
/// use valdrabus::Date;
/// let error = "31.01.2027".parse::<Date>().unwrap_err();
/// assert_eq!(error.to_string(), "not a date, yyyy-mm-dd from 0001-01-01 to 9999-12-31");
/// ```
#[derive(Clone, Debug, PartialEq, Eq)]
pub struct ParseDateError(());

impl fmt::Display for ParseDateError {
    fn fmt(&self, f: &mut fmt::Formatter<'_>) -> fmt::Result {
        f.write_str("not a date, yyyy-mm-dd from 0001-01-01 to 9999-12-31")
    }
}

impl std::error::Error for ParseDateError {}
