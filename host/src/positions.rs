//! Where a refusal stands in its source, for those who look it up in an editor: by line and column.

use crate::errors::Error;
use std::fmt;

/// A byte's line and column in a source, each counted from 1.
///
/// A line ends with LF, CR LF or CR. A column is a character; every byte but 80 to BF hex begins one, in a source that is not UTF-8 throughout too. It is shown as `line 3, column 7`, and ordered as it stands in the source.
///
/// ```
/// use valdrabus::Position;
///
/// let position = Position::of("one\r\ntwo: é!", 12).unwrap();
/// assert_eq!(position, Position { line: 2, column: 7 });
/// assert_eq!(position.to_string(), "line 2, column 7");
/// ```
#[derive(Clone, Copy, Debug, PartialEq, Eq, PartialOrd, Ord, Hash)]
pub struct Position {
    /// How many lines there are up to the byte's, its own included.
    pub line: usize,
    /// How many characters its line has up to the byte, the one that it belongs to included.
    pub column: usize,
}

impl Position {
    /// The position of a byte, counted from 0; none past the source's end. The end itself has one, as if a character stood there. It looks at every byte before.
    ///
    /// ```
    /// use valdrabus::Position;
    ///
    /// assert_eq!(Position::of("é\nb", 1), Some(Position { line: 1, column: 1 }));
    /// assert_eq!(Position::of("é\nb", 2), Some(Position { line: 1, column: 2 }));
    /// assert_eq!(Position::of("é\nb", 3), Some(Position { line: 2, column: 1 }));
    /// assert_eq!(Position::of("é\nb", 4), Some(Position { line: 2, column: 2 }));
    /// assert_eq!(Position::of("é\nb", 5), None);
    /// ```
    #[must_use]
    pub fn of(source: impl AsRef<[u8]>, byte: usize) -> Option<Position> {
        let source = source.as_ref();
        if byte > source.len() {
            return None;
        }
        let mut position = Position { line: 1, column: 1 };
        for at in 1..=byte {
            if begins_line(source, at) {
                position = Position { line: position.line + 1, column: 1 };
            } else if begins_character(source, at) {
                position.column += 1;
            }
        }
        Some(position)
    }
}

impl fmt::Display for Position {
    fn fmt(&self, f: &mut fmt::Formatter<'_>) -> fmt::Result {
        write!(f, "line {}, column {}", self.line, self.column)
    }
}

/// Whether a line ends just before a byte that is not the first. Between CR and LF none does: the LF belongs to the line that both end.
fn begins_line(source: &[u8], at: usize) -> bool {
    match source[at - 1] {
        b'\n' => true,
        b'\r' => source.get(at) != Some(&b'\n'),
        _ => false,
    }
}

fn begins_character(source: &[u8], at: usize) -> bool {
    !matches!(source.get(at), Some(0x80..=0xBF))
}

/// By lines and columns of the source that was asked.
impl Error {
    /// The line and column at which to look: [where reading stops](Error::place_in_source), or, for another refusal of a literal's text, where the literal begins. None if the refusal speaks of no
    /// text in the source ([`Error::WrongKind`], [`Error::MissingSource`], [`Error::InvalidSourceRange`], [`Error::NoRoom`] and those of bare text and values), or the source is another one that
    /// ends before.
    ///
    /// ```
    /// use valdrabus::{Kind, Literal, Position};
    ///
    /// let dump = "(1, 'Crème'),\n(2, 'Bob's balm')";
    /// let name = Literal::new(Kind::String, 19..31).to_str(dump).unwrap_err();
    /// assert_eq!(name.position(dump), Some(Position { line: 2, column: 9 }));
    ///
    /// let count = Literal::new(Kind::Integer, 16..18).as_i64(dump).unwrap_err();
    /// assert_eq!(count.position(dump), Some(Position { line: 2, column: 2 }));
    /// ```
    #[must_use]
    pub fn position(&self, source: impl AsRef<[u8]>) -> Option<Position> {
        let byte = match self {
            Error::MissingSource { .. } | Error::InvalidSourceRange { .. } => return None,
            _ => self.place_in_source().or(self.span().map(|span| span.start as usize))?,
        };
        Position::of(source, byte)
    }

    /// The refusal as it is shown, and behind it, if the source spans lines, its [position](Error::position). Of a source of one line neither line nor column is shown: the refusal itself says
    /// the bytes there; [`Error::position`] tells both all the same.
    ///
    /// ```
    /// use valdrabus::{Kind, Literal};
    ///
    /// let dump = "(1, 'Crème'),\n(2, 'Bob's balm')";
    /// let error = Literal::new(Kind::String, 19..31).to_str(dump).unwrap_err();
    /// assert_eq!(
    ///     error.in_source(dump).to_string(),
    ///     "the text at 19..31 is not a readable string: reading stops at its byte 4 (number 6), line 2, column 9"
    /// );
    ///
    /// let row = &dump[15..];
    /// let error = Literal::new(Kind::String, 4..16).to_str(row).unwrap_err();
    /// assert_eq!(error.in_source(row).to_string(), error.to_string());
    /// assert_eq!(error.position(row).unwrap().to_string(), "line 1, column 9");
    /// ```
    ///
    /// What is shown holds nothing of the source, which may change or end before.
    ///
    /// ```
    /// use valdrabus::{Kind, Literal};
    ///
    /// let mut dump = "(1,\n'Balm)".to_owned();
    /// let error = Literal::new(Kind::String, 4..10).to_str(&dump).unwrap_err();
    /// let shown = error.in_source(&dump);
    /// dump.clear();
    /// assert!(shown.to_string().ends_with(", line 2, column 1"));
    /// ```
    #[must_use]
    pub fn in_source(&self, source: impl AsRef<[u8]>) -> InSource {
        let source = source.as_ref();
        let spans_lines = (1..source.len()).any(|at| begins_line(source, at));
        InSource { error: *self, position: if spans_lines { self.position(source) } else { None } }
    }
}

/// A refusal as [`Error::in_source`] has it shown.
// A type with a name: `impl Display` would hold the source's own type, and with it the source lent.
#[derive(Clone, Copy, Debug, PartialEq, Eq, Hash)]
pub struct InSource {
    error: Error,
    position: Option<Position>,
}

impl fmt::Display for InSource {
    fn fmt(&self, f: &mut fmt::Formatter<'_>) -> fmt::Result {
        write!(f, "{}", self.error)?;
        match self.position {
            Some(position) => write!(f, ", {position}"),
            None => Ok(()),
        }
    }
}

#[cfg(test)]
mod tests {
    use super::*;

    fn of(source: impl AsRef<[u8]>, byte: usize) -> Option<(usize, usize)> {
        Position::of(source, byte).map(|position| (position.line, position.column))
    }

    #[test]
    fn lines_end_with_lf_cr_lf_or_cr() {
        let places: Vec<_> = (0..=8).map(|byte| of("a\nb\r\nc\rd", byte).expect("a place")).collect();
        assert_eq!(places, [(1, 1), (1, 2), (2, 1), (2, 2), (2, 3), (3, 1), (3, 2), (4, 1), (4, 2)]);
        assert_eq!(of("a\nb\r\nc\rd", 9), None);
        for (source, end) in [("\n", (2, 1)), ("\r", (2, 1)), ("\r\n", (2, 1)), ("\n\r", (3, 1)), ("\r\r\n", (3, 1))] {
            assert_eq!(of(source, source.len()), Some(end), "{source:?}");
        }
        assert_eq!([of("", 0), of("", 1)], [Some((1, 1)), None]);
    }

    #[test]
    fn columns_are_characters() {
        let source = "'é€😀'";
        let columns: Vec<_> =
            (0..=source.len()).filter_map(|byte| of(source, byte)).map(|(_, column)| column).collect();
        assert_eq!(columns, [1, 2, 2, 3, 3, 3, 4, 4, 4, 4, 5, 6]);
        assert_eq!([0, 1, 2, 3].map(|byte| of(b"\xFF\x80a", byte)), [(1, 1), (1, 1), (1, 2), (1, 3)].map(Some));
        assert_eq!(of(b"\x80\n\x80\x80a", 4), Some((2, 2)));
    }
}
