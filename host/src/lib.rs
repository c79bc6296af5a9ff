//! Reads the literals of SQL dumps, dates as days and bit strings as packed bytes too, and writes values as literals.
//!
//! A string of a dump has many spellings: doubled quotes, `E'..'` and `U&'..'` escapes, dollar quotes, MySQL's backslashes, names that arrive in parts. This crate says what a
//! literal *means*, so that a table can be keyed by it:
//!
//! ```
//! use std::borrow::Cow;
//! use valdrabus::{Error, Kind, Literal};
//!
//! fn key(literal: &str) -> Result<Cow<'_, str>, Error> {
//!     Literal::whole(Kind::String, literal).expect("a row below 4 GiB").to_str(literal)
//! }
//!
//! let spellings = ["'Crème 5 g'", "'Crème' ' 5 g'", r"E'Cr\xC3\xA8me 5 g'", r"U&'Cr\00E8me 5 g'", "$$Crème 5 g$$"];
//! for literal in spellings {
//!     assert_eq!(key(literal)?, "Crème 5 g");
//! }
//! assert_eq!(key("'Crème").unwrap_err().number(), 6);
//! # Ok::<(), Error>(())
//! ```
//!
//! It is a thin layer: the code that decodes is Rattle, proved to end with the answer that its definitions give or a numbered refusal, on every input. This crate adds types and lifetimes, and
//! decides two answers alone, both of blocks: a string that stands in no source, for which a block has no mark, is told as 2, and [`to_block`] says 15 itself where all texts together would need
//! a buffer over the limit. It has no dependency and no state, and every function may be called from any thread.
//!
//! # Where to look
//!
//! - [`Literal`]: a [`Kind`] and a [`Span`]; the questions are its methods, those on strings at [`Settings`] that a dump goes by. [`InBytes`]: the same over bytes that may not be UTF-8.
//! - [`Text`]: an answer that is a part of the source, or written into the buffer that was lent. A buffer as long as a string's text always serves. [`Literal::to_str`] needs none, and
//!   [`Literal::read_str`] takes a `String` that is used again.
//! - [`Date`]: the day of a date literal, [`Literal::as_date`], with its number: for sorting, and for other crates' dates.
//! - [`Packed`]: a bit string's bits eight to a byte, [`Literal::as_packed_bits`], and how many they are. [`write_bit_literal`], [`to_bit_literal`]: back to `B'..'` or `X'..'`.
//! - [`read_block`]: many string literals of one source in one call, each an [`Item`]; [`Block`] shows their answers. [`to_block`]: the same with memory of its own.
//! - [`Error`]: why a call, or an item of a block, is refused, with its number. A refusal changes no byte of the buffer. That of a string has the [place](Error::place) where reading stops;
//!   [`Error::in_source`] tells the line and column of it.
//! - [`write_literal`], [`write_parts`]: values as plain literals, whole or in parts. [`write_escape`], [`write_unicode`]: values as `E'..'` and `U&'..'`, in which no byte is below 20 hex. [`to_literal`],
//!   [`to_parts`], [`to_escape`], [`to_unicode`]: the same into texts of their own.
//! - [`split_radix_prefix`] and the other functions: helpers on bare text.
//!
//! # Building
//!
//! The code that decodes is the archive `libvaldrabus.a`, on Linux on x86-64 or Arm. Where the environment's `VALDRABUS_ARCHIVE` names one, itself or by the folder that a package of this crate's
//! version unpacks to, it is linked; else `tools/archive` makes it, in the repository that this crate stands in, which proves the code and takes some minutes. A relative path counts from the root of that repository, the folder that this crate's own stands in.

#![deny(missing_docs)]
#![deny(unsafe_op_in_unsafe_fn)]

// The page that Cargo shows: its example is run with the others.
#[cfg(doctest)]
#[doc = include_str!("../README.md")]
struct Readme;

mod blocks;
mod calls;
mod codes;
mod dates;
mod errors;
mod helpers;
mod in_bytes;
mod items;
mod kinds;
mod lent_texts;
mod literal;
mod owned;
mod owned_blocks;
mod owned_texts;
mod packed;
mod positions;
mod questions;
mod room;
mod said;
mod same_texts;
mod settings;
mod source;
mod span;
#[allow(missing_docs)] // documented by the header
pub mod sys;
mod texts;
mod writer;

pub use blocks::{Block, LONGEST_BUFFER, Texts, read_block, read_block_bytes};
pub use codes::TryFromCodeError;
pub use dates::{Date, ParseDateError};
pub use errors::Error;
pub use helpers::{
    is_unicode_ident, materialize_unicode_ident, materialize_unicode_ident_bytes, postgres_escape_string_is_valid,
    split_radix_prefix, split_radix_prefix_bytes, string_literal_embeds_nul, to_unicode_ident, to_unicode_ident_bytes,
    uescape_argument_is_legal, unicode_escape_string_is_valid,
};
pub use in_bytes::InBytes;
pub use items::{Item, Told};
pub use kinds::{BitStringRadix, Expected, IntervalFields, Kind, TimeZone};
pub use literal::Literal;
pub use owned_blocks::{BlockBuf, to_block, to_block_bytes};
pub use packed::{Packed, to_bit_literal, write_bit_literal};
pub use positions::{InSource, Position};
pub use settings::Settings;
pub use span::{Span, TryFromRangeError};
pub use texts::Text;
pub use writer::{
    LEAST_PART, LONGEST_VALUE, to_escape, to_literal, to_parts, to_unicode, write_escape, write_literal, write_parts,
    write_unicode,
};

/// The repository's first page: its example is run with the others.
#[cfg(doctest)]
#[doc = include_str!("../../README.md")]
struct FirstPage;
