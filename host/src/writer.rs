//! Values as literals: plain, whole or in parts, and as `E'..'` and `U&'..'`.

use crate::calls::{self, Spelling};
use crate::errors::Error;
use crate::settings::Settings;

/// The longest value that is written, in bytes.
pub const LONGEST_VALUE: usize = 268_435_456;

/// The smallest part size: every character fits a part.
pub const LEAST_PART: usize = 4;

/// A value as one plain literal. What it writes reads back as the value at the same setting.
///
/// ```
/// use valdrabus::{Settings, write_literal};
/// let mut out = [0; 16];
/// assert_eq!(write_literal("Bob's", Settings::STANDARD, &mut out)?, "'Bob''s'");
/// assert_eq!(write_literal("a\0b", Settings::MYSQL, &mut out)?, r"'a\0b'");
/// # Ok::<(), valdrabus::Error>(())
/// ```
///
/// # Errors
///
/// Tested in this order: [`Error::OverLimit`] (12), [`Error::NotUtf8`] (4), [`Error::HoldsNul`] (11), [`Error::NoRoom`] (9).
pub fn write_literal(value: impl AsRef<[u8]>, settings: Settings, out: &mut [u8]) -> Result<&str, Error> {
    write(value.as_ref(), Spelling::Plain(settings), out)
}

/// A value in parts of at most `part_size` bytes of the value, cut between characters, with one line feed between each two, as PostgreSQL wants it. The parts read back as the whole value at the same
/// setting.
///
/// ```
/// use valdrabus::{Settings, write_parts};
/// let mut out = [0; 16];
/// assert_eq!(write_parts("éééé", 5, Settings::STANDARD, &mut out)?, "'éé'\n'éé'");
/// # Ok::<(), valdrabus::Error>(())
/// ```
///
/// So the text spans lines, and of a list of one literal a line, as the example `keys` reads it, each line would be taken for a row. Into such a list goes the text of [`write_escape`] or
/// [`write_unicode`], which holds no line feed and is read alike at both settings; or, if the value holds no line feed, that of [`write_literal`], or the parts on one line with a space for each
/// line feed, since any white space joins them: both are read as the value at the setting that they were written at.
///
/// ```
/// use valdrabus::{Kind, Literal, Settings, to_parts};
/// let row = to_parts("Paracetamol 500 mg", 8, Settings::STANDARD)?.replace('\n', " ");
/// assert_eq!(row, "'Paraceta' 'mol 500 ' 'mg'");
/// assert_eq!(Literal::whole(Kind::String, &row).expect("a short row").to_str(&row)?, "Paracetamol 500 mg");
/// # Ok::<(), valdrabus::Error>(())
/// ```
///
/// # Errors
///
/// Tested in this order: [`Error::OverLimit`] (12), [`Error::NotUtf8`] (4), [`Error::HoldsNul`] (11), [`Error::NoRoom`] (9).
pub fn write_parts(
    value: impl AsRef<[u8]>,
    part_size: usize,
    settings: Settings,
    out: &mut [u8],
) -> Result<&str, Error> {
    write(value.as_ref(), Spelling::Parts(part_size, settings), out)
}

/// As [`write_literal`], into a text of its own.
///
/// ```
/// use valdrabus::{Settings, to_literal};
/// assert_eq!(to_literal(r"5\10 ml", Settings::MYSQL)?, r"'5\\10 ml'");
/// # Ok::<(), valdrabus::Error>(())
/// ```
///
/// A `Cow`, which [`Literal::to_str`](crate::Literal::to_str) gives, is no `AsRef<[u8]>`: `&*` lends every writer the text in it.
///
/// ```
/// use valdrabus::{Kind, Literal, Settings, to_escape, to_literal};
/// let row = r"E'Bob\'s balm'";
/// let name = Literal::whole(Kind::String, row).expect("a short row").to_str(row)?;
/// assert_eq!(to_literal(&*name, Settings::STANDARD)?, "'Bob''s balm'");
/// assert_eq!(to_escape(&*name)?, "E'Bob''s balm'");
/// # Ok::<(), valdrabus::Error>(())
/// ```
///
/// # Errors
///
/// Tested in this order: [`Error::OverLimit`] (12), [`Error::NotUtf8`] (4), [`Error::HoldsNul`] (11).
pub fn to_literal(value: impl AsRef<[u8]>, settings: Settings) -> Result<String, Error> {
    written(value.as_ref(), Spelling::Plain(settings))
}

/// As [`write_parts`], into a text of its own.
///
/// ```
/// use valdrabus::{Settings, to_parts};
/// assert_eq!(to_parts("Bob's balm", 5, Settings::STANDARD)?, "'Bob''s'\n' balm'");
/// # Ok::<(), valdrabus::Error>(())
/// ```
///
/// # Errors
///
/// Tested in this order: [`Error::OverLimit`] (12), [`Error::NotUtf8`] (4), [`Error::HoldsNul`] (11).
pub fn to_parts(value: impl AsRef<[u8]>, part_size: usize, settings: Settings) -> Result<String, Error> {
    written(value.as_ref(), Spelling::Parts(part_size, settings))
}

/// A value as `E'..'`: backslash and quote are doubled, the codes 08, 09, 0A, 0C and 0D are `\b`, `\t`, `\n`, `\f` and `\r`, the others below 20 hex a backslash and three octal digits. All else stands as it
/// is, 7F hex and characters that are not ASCII too. So the text has no byte below 20 hex, and no line feed among them.
///
/// What it writes reads back as the value at both settings, so none is given. For `n` bytes of the value it has at most `4 * n + 3`.
///
/// ```
/// use valdrabus::{Error, write_escape};
/// let mut out = [0; 32];
/// assert_eq!(write_escape("Bob's\ttea", &mut out)?, r"E'Bob''s\ttea'");
/// assert_eq!(write_escape("5 µg\u{1}", &mut out)?, r"E'5 µg\001'");
/// assert_eq!(write_escape("a\0b", &mut out), Err(Error::HoldsNul));
/// assert_eq!(write_escape("\n", &mut out[..4]), Err(Error::NoRoom { needed: 5 }));
/// # Ok::<(), Error>(())
/// ```
///
/// # Errors
///
/// Tested in this order: [`Error::OverLimit`] (12), [`Error::NotUtf8`] (4), [`Error::HoldsNul`] (11) for any NUL, [`Error::NoRoom`] (9).
pub fn write_escape(value: impl AsRef<[u8]>, out: &mut [u8]) -> Result<&str, Error> {
    write(value.as_ref(), Spelling::Escape, out)
}

/// A value as `U&'..'`: backslash and quote are doubled, and a character outside 20 to 7E hex is a backslash and four upper-case hex digits, or above FFFF a backslash, `+` and six. So the text has bytes
/// 20 to 7E hex alone.
///
/// What it writes reads back as the value at both settings, so none is given. For `n` bytes of the value it has at most `5 * n + 4`.
///
/// ```
/// use valdrabus::{Error, write_unicode};
/// let mut out = [0; 32];
/// assert_eq!(write_unicode("5 µg\n", &mut out)?, r"U&'5 \00B5g\000A'");
/// assert_eq!(write_unicode("😀", &mut out)?, r"U&'\+01F600'");
/// assert_eq!(write_unicode("a\0b", &mut out), Err(Error::HoldsNul));
/// assert_eq!(write_unicode("é", &mut out[..8]), Err(Error::NoRoom { needed: 9 }));
/// # Ok::<(), Error>(())
/// ```
///
/// # Errors
///
/// Tested in this order: [`Error::OverLimit`] (12), [`Error::NotUtf8`] (4), [`Error::HoldsNul`] (11) for any NUL, [`Error::NoRoom`] (9).
pub fn write_unicode(value: impl AsRef<[u8]>, out: &mut [u8]) -> Result<&str, Error> {
    write(value.as_ref(), Spelling::Unicode, out)
}

/// As [`write_escape`], into a text of its own. Of a `Cow` it is lent `&*name`, as [`to_literal`] is.
///
/// ```
/// use valdrabus::{Error, to_escape};
/// assert_eq!(to_escape("line\r\n")?, r"E'line\r\n'");
/// assert_eq!(to_escape(b"\xFF\0"), Err(Error::NotUtf8 { span: None }));
/// # Ok::<(), Error>(())
/// ```
///
/// # Errors
///
/// Tested in this order: [`Error::OverLimit`] (12), [`Error::NotUtf8`] (4), [`Error::HoldsNul`] (11) for any NUL.
pub fn to_escape(value: impl AsRef<[u8]>) -> Result<String, Error> {
    written(value.as_ref(), Spelling::Escape)
}

/// As [`write_unicode`], into a text of its own. Of a `Cow` it is lent `&*name`, as [`to_literal`] is.
///
/// ```
/// use valdrabus::{Error, to_unicode};
/// assert_eq!(to_unicode("Crème")?, r"U&'Cr\00E8me'");
/// assert_eq!(to_unicode(b"\xFF\0"), Err(Error::NotUtf8 { span: None }));
/// # Ok::<(), Error>(())
/// ```
///
/// # Errors
///
/// Tested in this order: [`Error::OverLimit`] (12), [`Error::NotUtf8`] (4), [`Error::HoldsNul`] (11) for any NUL.
pub fn to_unicode(value: impl AsRef<[u8]>) -> Result<String, Error> {
    written(value.as_ref(), Spelling::Unicode)
}

fn write<'b>(value: &[u8], spelling: Spelling, out: &'b mut [u8]) -> Result<&'b str, Error> {
    let (number, len) = calls::write(value, spelling, out);
    if number != 0 {
        return Err(Error::of_bare(number, len));
    }
    out.get(..len).and_then(|text| std::str::from_utf8(text).ok()).ok_or(Error::BadNumber)
}

/// No text has fewer than two bytes, so a call without a buffer gives the length needed, or the refusal.
fn written(value: &[u8], spelling: Spelling) -> Result<String, Error> {
    let needed = match write(value, spelling, &mut []) {
        Err(Error::NoRoom { needed }) => needed,
        other => return other.map(str::to_owned),
    };
    let mut buffer = vec![0; needed];
    let (number, len) = calls::write(value, spelling, &mut buffer);
    if number != 0 {
        return Err(Error::of_bare(number, len));
    }
    buffer.truncate(len);
    String::from_utf8(buffer).map_err(|_| Error::BadNumber)
}
