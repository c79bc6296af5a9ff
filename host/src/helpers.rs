//! Helpers on bare text: no literal, no setting. Those that take [`AsRef<[u8]>`](AsRef) read text and bytes alike.

use crate::calls::{self, Test};
use crate::errors::Error;
use crate::owned;
use crate::room;
use crate::source::Source;
use crate::texts::Text;
use std::borrow::Cow;

/// The base that a number's first two bytes choose, 2, 8, 10 or 16, and the text behind them. It looks at no sign.
///
/// ```
/// use valdrabus::split_radix_prefix;
/// assert_eq!(split_radix_prefix("0x1F"), (16, "1F"));
/// assert_eq!(split_radix_prefix("-0x1F"), (10, "-0x1F"));
/// ```
#[must_use]
pub fn split_radix_prefix(text: &str) -> (u32, &str) {
    split(text)
}

/// [`split_radix_prefix`] over bytes.
#[must_use]
pub fn split_radix_prefix_bytes(text: &[u8]) -> (u32, &[u8]) {
    split(text)
}

// A prefix is two ASCII bytes or none, so the rest is always there.
fn split<S: Source + ?Sized>(text: &S) -> (u32, &S) {
    let (base, start) = calls::split_radix_prefix(text.bytes());
    (base, text.part(start..text.bytes().len()).unwrap_or(text))
}

/// Whether a quoted argument holds a legal `UESCAPE` character and nothing else; no for what is not UTF-8.
///
/// ```
/// use valdrabus::uescape_argument_is_legal;
/// assert!(uescape_argument_is_legal("'!'"));
/// assert!(!uescape_argument_is_legal("'+'"));
/// ```
#[must_use]
pub fn uescape_argument_is_legal(argument: impl AsRef<[u8]>) -> bool {
    calls::holds(Test::UescapeArgument, argument.as_ref())
}

/// Whether the body of `E'..'`, from the first mark to the last, has only good escapes and no lone mark. A raw NUL is no fault, except straight after a backslash. True for text outside this
/// spelling (where it does not end with its mark too), false for what is not UTF-8.
///
/// So it can differ from reading: `E'a' 'b'` is false, and reads; a raw NUL is true, and is refused.
///
/// ```
/// use valdrabus::{Kind, Literal, postgres_escape_string_is_valid};
/// assert!(postgres_escape_string_is_valid(r"E'\xC3\xA9'"));
/// assert!(!postgres_escape_string_is_valid(r"E'\400'"));
///
/// let joined = "E'a' 'b'";
/// assert!(!postgres_escape_string_is_valid(joined));
/// assert_eq!(Literal::new(Kind::String, 0..8).to_str(joined)?, "ab");
/// # Ok::<(), valdrabus::Error>(())
/// ```
#[must_use]
pub fn postgres_escape_string_is_valid(text: impl AsRef<[u8]>) -> bool {
    calls::holds(Test::EscapeString, text.as_ref())
}

/// Whether the body of `U&'..'` has only good escapes by its escape character. A raw NUL outside an escape is no fault. True for text outside this spelling (joined, or with a bad `UESCAPE`
/// clause), false for what is not UTF-8. So what is true here can be refused in reading.
///
/// ```
/// use valdrabus::unicode_escape_string_is_valid;
/// assert!(unicode_escape_string_is_valid(r"U&'\00e9'"));
/// assert!(!unicode_escape_string_is_valid(r"U&'\D800'"));
/// assert!(unicode_escape_string_is_valid(r"U&'\D800' 'joined'"));
/// ```
#[must_use]
pub fn unicode_escape_string_is_valid(text: impl AsRef<[u8]>) -> bool {
    calls::holds(Test::UnicodeString, text.as_ref())
}

/// Whether a text holds a raw NUL.
///
/// ```
/// assert!(valdrabus::string_literal_embeds_nul("'a\0'"));
/// ```
#[must_use]
pub fn string_literal_embeds_nul(text: impl AsRef<[u8]>) -> bool {
    calls::holds(Test::EmbedsNul, text.as_ref())
}

/// Whether a text begins as a U& identifier.
///
/// ```
/// assert!(valdrabus::is_unicode_ident("U&\"name\""));
/// assert!(!valdrabus::is_unicode_ident("\"name\""));
/// ```
#[must_use]
pub fn is_unicode_ident(text: impl AsRef<[u8]>) -> bool {
    calls::holds(Test::UnicodeIdent, text.as_ref())
}

/// A U& identifier's text. A buffer as long as the text given always has room.
///
/// ```
/// use valdrabus::{Text, materialize_unicode_ident};
/// let mut out = [0; 8];
/// assert!(matches!(materialize_unicode_ident("U&\"plain\"", &mut out)?, Text::Borrowed("plain")));
/// assert!(matches!(materialize_unicode_ident("U&\"caf\\00e9\"", &mut out)?, Text::Written("café")));
/// # Ok::<(), valdrabus::Error>(())
/// ```
///
/// # Errors
///
/// [`Error::InvalidString`] (6), which has no place here, [`Error::NoRoom`] (9).
pub fn materialize_unicode_ident<'s, 'b>(text: &'s str, out: &'b mut [u8]) -> Result<Text<'s, 'b>, Error> {
    identifier(text, out)
}

/// [`materialize_unicode_ident`] over bytes.
///
/// # Errors
///
/// [`Error::NotUtf8`] (4), and those of [`materialize_unicode_ident`].
pub fn materialize_unicode_ident_bytes<'s, 'b>(text: &'s [u8], out: &'b mut [u8]) -> Result<Text<'s, 'b, [u8]>, Error> {
    identifier(text, out)
}

fn identifier<'s, 'b, S: Source + ?Sized>(text: &'s S, out: &'b mut [u8]) -> Result<Text<'s, 'b, S>, Error> {
    calls::identifier(text.bytes(), out).text(None, text, out)
}

/// As [`materialize_unicode_ident`], allocated where it is not a part of the text.
///
/// ```
/// assert_eq!(valdrabus::to_unicode_ident("U&\"!0041\" UESCAPE '!'")?, "A");
/// # Ok::<(), valdrabus::Error>(())
/// ```
///
/// # Errors
///
/// [`Error::InvalidString`] (6), which has no place here.
pub fn to_unicode_ident(text: &str) -> Result<Cow<'_, str>, Error> {
    owned_identifier(text)
}

/// [`to_unicode_ident`] over bytes.
///
/// # Errors
///
/// [`Error::NotUtf8`] (4), and those of [`to_unicode_ident`].
pub fn to_unicode_ident_bytes(text: &[u8]) -> Result<Cow<'_, [u8]>, Error> {
    owned_identifier(text)
}

fn owned_identifier<S: Source + ?Sized>(text: &S) -> Result<Cow<'_, S>, Error> {
    owned::cow(None, text, room::identifier(text.bytes()), |out| calls::identifier(text.bytes(), out))
}
