//! The rows of a stock list, each with its day.

use crate::named::{Named, named};
use std::borrow::Cow;
use valdrabus::{Date, Error, Kind, Literal};

/// A row: its line, counted from 1, the product's name, and the day that it expires.
pub struct Row<'s> {
    pub line: usize,
    pub name: Cow<'s, str>,
    pub expiry: Result<Date, Refused>,
}

/// Why a row has no day.
#[derive(Clone, Copy, Debug, PartialEq)]
pub enum Refused {
    NoTab,
    /// By its literal, whose span counts from the list's start.
    Literal(Error),
}

/// Finds each row and asks for its day, the literal being a part of the list; none where the list is longer than a span can say. The list is read as bytes: a
/// literal that is not UTF-8 is refused, and the others are read.
pub fn rows(list: &[u8]) -> Option<Vec<Row<'_>>> {
    let row = |Named { line, name, literal }| {
        let literal = literal.map(|span| Literal::at(Kind::Date, span)).ok_or(Refused::NoTab);
        let expiry = literal.and_then(|date| date.in_bytes(list).as_date().map_err(Refused::Literal));
        Row { line, name, expiry }
    };
    Some(named(list)?.into_iter().map(row).collect())
}
