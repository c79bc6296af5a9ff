//! The rows of a list, each with its flags.

use crate::named::{Named, named};
use std::borrow::Cow;
use valdrabus::{BitStringRadix, Error, Kind, Literal, Span, to_bit_literal};

/// A row: its line, counted from 1, the product's name, and its flags.
pub struct Row<'s> {
    pub line: usize,
    pub name: Cow<'s, str>,
    pub flags: Result<Flags, Refused>,
}

/// Packed bytes, how many bits they hold, and the literal that they are written as.
#[derive(Clone, Debug, PartialEq)]
pub struct Flags {
    pub bytes: Vec<u8>,
    pub bits: u64,
    pub literal: String,
}

/// Why a row has no flags.
#[derive(Clone, Copy, Debug, PartialEq)]
pub enum Refused {
    NoTab,
    /// By its literal, whose span counts from the list's start.
    Literal(Error),
}

/// Finds each row and asks for its flags, the literal being a part of the list; none where the list is longer than a span can say. The list is read as bytes: a
/// literal that is not UTF-8 is refused, and the others are read.
pub fn rows(list: &[u8]) -> Option<Vec<Row<'_>>> {
    let row = |Named { line, name, literal }| {
        let flags = literal.ok_or(Refused::NoTab).and_then(|span| flags(span, list).map_err(Refused::Literal));
        Row { line, name, flags }
    };
    Some(named(list)?.into_iter().map(row).collect())
}

/// A dump says the kind by the letter.
fn flags(span: Span, list: &[u8]) -> Result<Flags, Error> {
    let is_binary = list.get(span.start as usize).is_some_and(|letter| letter.eq_ignore_ascii_case(&b'b'));
    let radix = if is_binary { BitStringRadix::Binary } else { BitStringRadix::Hex };
    let (bytes, bits) = Literal::at(Kind::BitString { radix }, span).in_bytes(list).to_packed_bits()?;
    let literal = to_bit_literal(&bytes, bits, radix)?;
    Ok(Flags { bytes, bits, literal })
}
