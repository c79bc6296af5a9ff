//! What can be asked, and what an answer looks like.

/// A question of the C interface that the Rust has too. `Plain` is the Rust's `as_str`, ours with the setting 0; of `Date` the Rust has the text alone, by
/// `as_temporal_text`, of `Packed` the digits, by `as_bit_text`.
#[derive(Clone, Copy, PartialEq, Eq, Debug)]
pub enum Question {
    Str,
    Plain,
    Decimal,
    Bits,
    Packed,
    Temporal,
    Date,
    Source,
    Money,
    Charset,
    I64,
    Bool,
    Null,
    IsNull,
    Ident,
    IsIdent,
    EscapeValid,
    UnicodeValid,
    Uescape,
    Nul,
    Radix,
}

use Question::*;

pub const ALL: [Question; 21] = [
    Str,
    Plain,
    Decimal,
    Bits,
    Packed,
    Temporal,
    Date,
    Source,
    Money,
    Charset,
    I64,
    Bool,
    Null,
    IsNull,
    Ident,
    IsIdent,
    EscapeValid,
    UnicodeValid,
    Uescape,
    Nul,
    Radix,
];

impl Question {
    /// Whether it reads the text of a literal.
    pub fn reads(self) -> bool {
        matches!(self, Str | Plain | Decimal | Bits | Packed | Temporal | Date | Source | Money | Charset | I64)
    }

    /// Whether it asks a bare text, without a literal.
    pub fn is_bare(self) -> bool {
        matches!(self, Ident | IsIdent | EscapeValid | UnicodeValid | Uescape | Nul | Radix)
    }

    /// Whether a buffer is lent.
    pub fn lends(self) -> bool {
        matches!(self, Str | Plain | Decimal | Bits | Packed | Temporal | Ident)
    }

    /// Whether a 6 has a place.
    pub fn is_placed(self) -> bool {
        matches!(self, Str | Plain | Temporal)
    }

    /// Whether a setting is given.
    pub fn is_set(self) -> bool {
        self == Str
    }

    pub fn name(self) -> &'static str {
        match self {
            Str => "as_str_in",
            Plain => "as_str",
            Decimal => "as_decimal_text",
            Bits => "as_bit_text",
            Packed => "as_packed_bits",
            Temporal => "as_temporal_text",
            Date => "as_date",
            Source => "source_text",
            Money => "as_money_text",
            Charset => "charset_introducer",
            I64 => "as_i64",
            Bool => "as_bool",
            Null => "as_null",
            IsNull => "is_null",
            Ident => "materialize_unicode_ident",
            IsIdent => "is_unicode_ident",
            EscapeValid => "postgres_escape_string_is_valid",
            UnicodeValid => "unicode_escape_string_is_valid",
            Uescape => "uescape_argument_is_legal",
            Nul => "string_literal_embeds_nul",
            Radix => "split_radix_prefix",
        }
    }
}

/// A question with the numbers that go with it; a bare text takes none of them.
#[derive(Clone, Copy, Debug)]
pub struct Asked {
    pub question: Question,
    pub kind: u32,
    pub synthetic: u32,
    pub start: u32,
    pub end: u32,
    pub setting: u32,
    /// Chooses the data of the Rust's kind (time zone, interval) that ours is not asked for.
    pub variety: u8,
}

impl Asked {
    pub fn text<'a>(&self, source: &'a [u8]) -> &'a [u8] {
        &source[self.start as usize..self.end as usize]
    }
}

/// An answer, whoever gave it, before it is known how long a buffer is.
#[derive(Clone, PartialEq, Eq, Debug)]
pub enum Said {
    Borrowed(usize, usize),
    Written(Vec<u8>),
    /// Packed bytes, which are written too, and how many bits they hold.
    Packed(Vec<u8>, u64),
    Integer(i64),
    /// Year, month, day and the day's number.
    Day([u32; 4]),
    Truth(bool),
    /// Answered, with nothing to tell: NULL is NULL, a string names no character set.
    Nothing,
    Prefix(u32, usize),
    Refused(u32, usize, usize),
}

impl Said {
    /// The same answer where the text stands at a place further on.
    pub fn moved(self, by: usize) -> Said {
        match self {
            Said::Borrowed(first, second) => Said::Borrowed(first + by, second + by),
            Said::Refused(number, first, second) if number != 1 => Said::Refused(number, first + by, second + by),
            other => other,
        }
    }

    /// The bytes that are written where there is room.
    pub fn written(&self) -> Option<&[u8]> {
        match self {
            Said::Written(bytes) | Said::Packed(bytes, _) => Some(bytes),
            _ => None,
        }
    }
}

/// What a call of the C interface gives: what it returns and what it writes into the lent numbers, with 0 for those it does not take.
#[derive(Clone, Copy, PartialEq, Eq, Default, Debug)]
pub struct Told {
    pub returned: u32,
    pub how: u32,
    pub first: usize,
    pub second: usize,
    pub place: usize,
    pub value: i64,
    pub day: [u32; 4],
    pub bits: u64,
}

pub const BORROWED: u32 = 1;
pub const WRITTEN: u32 = 2;
pub const UNREADABLE: u32 = 6;
pub const NO_ROOM: u32 = 9;

/// What a call with so much room is to give, by an answer. No answer knows a place: that of a 6 is held on its own.
pub fn due(question: Question, said: &Said, room: usize) -> Told {
    let none = Told::default();
    match *said {
        Said::Borrowed(first, second) => Told { how: BORROWED, first, second, ..none },
        Said::Written(ref text) if text.len() <= room => Told { how: WRITTEN, second: text.len(), ..none },
        Said::Packed(ref bytes, bits) if bytes.len() <= room => {
            Told { how: WRITTEN, second: bytes.len(), bits, ..none }
        }
        Said::Written(ref long) | Said::Packed(ref long, _) => Told { returned: NO_ROOM, second: long.len(), ..none },
        Said::Integer(value) => Told { value, ..none },
        Said::Day(day) => Told { day, ..none },
        Said::Truth(yes) if question == Bool => Told { value: yes.into(), ..none },
        Said::Truth(yes) => Told { returned: yes.into(), ..none },
        Said::Nothing => none,
        Said::Prefix(base, start) => Told { returned: base, first: start, ..none },
        Said::Refused(number, first, second) => Told { returned: number, first, second, ..none },
    }
}
