//! An answer that is a text.

use std::borrow::{Borrow, Cow};
use std::fmt;
use std::ops::Deref;

/// A text: a part of the source (`'s`), or written into the buffer (`'b`). So a borrowed text outlives the buffer, which can be lent again.
///
/// It dereferences to the text itself, and is equal to it, ordered and hashed as it is. Where it stands makes no difference to that; [`is_borrowed`](Text::is_borrowed), or a
/// `match`, tells. It goes into a `Cow`, which borrows from the source still, and into a `String` of its own.
///
/// ```
/// use std::borrow::Cow;
/// use valdrabus::{Kind, Literal, Text};
///
/// let source = "'plain' , 'it''s'";
/// let mut out = [0; 16];
///
/// let plain = Literal::new(Kind::String, 0..7).as_str(source, &mut out)?;
/// assert_eq!(plain, "plain");
/// assert!(matches!(plain, Text::Borrowed("plain")));
/// let plain: Cow<str> = plain.into();
///
/// let quoted = Literal::new(Kind::String, 10..17).as_str(source, &mut out)?;
/// assert_eq!(quoted, "it's");
/// assert!(matches!(quoted, Text::Written("it's")));
/// assert!(quoted.starts_with("it"));
///
/// assert!(matches!(plain, Cow::Borrowed("plain")));
/// assert_eq!(String::from(quoted), "it's");
/// # Ok::<(), valdrabus::Error>(())
/// ```
#[derive(Debug)]
pub enum Text<'s, 'b, T: ?Sized = str> {
    /// A part of the source; nothing is written for it.
    Borrowed(&'s T),
    /// The first bytes of the buffer; in a block, those behind the texts that were written before it. What stands behind the last text is unchanged.
    Written(&'b T),
}

impl<'s, 'b, T: ?Sized> Text<'s, 'b, T> {
    /// Whether the text is a part of the source.
    #[must_use]
    pub const fn is_borrowed(&self) -> bool {
        matches!(self, Text::Borrowed(_))
    }

    /// The text as a reference, good for as long as source and buffer both are. What a `&` of this value gives ends with the value.
    ///
    /// ```
    /// use valdrabus::{Error, Kind, Literal};
    ///
    /// fn name<'a>(row: &'a str, out: &'a mut [u8]) -> Result<&'a str, Error> {
    ///     Ok(Literal::new(Kind::String, 1..14).as_str(row, out)?.into_ref())
    /// }
    ///
    /// assert_eq!(name("('Bob''s balm')", &mut [0; 16])?, "Bob's balm");
    /// # Ok::<(), Error>(())
    /// ```
    #[must_use]
    pub const fn into_ref<'a>(self) -> &'a T
    where
        's: 'a,
        'b: 'a,
    {
        match self {
            Text::Borrowed(text) | Text::Written(text) => text,
        }
    }

    /// The text on its own: borrowed from the source still, or copied out of the buffer.
    #[must_use]
    pub fn into_cow(self) -> Cow<'s, T>
    where
        T: ToOwned,
    {
        match self {
            Text::Borrowed(text) => Cow::Borrowed(text),
            Text::Written(text) => Cow::Owned(text.to_owned()),
        }
    }
}

// Not derived: a derived one would ask T to be Copy, which str is not.
impl<T: ?Sized> Clone for Text<'_, '_, T> {
    fn clone(&self) -> Self {
        *self
    }
}

impl<T: ?Sized> Copy for Text<'_, '_, T> {}

impl<T: ?Sized> Deref for Text<'_, '_, T> {
    type Target = T;

    fn deref(&self) -> &T {
        self.into_ref()
    }
}

impl<T: ?Sized> AsRef<T> for Text<'_, '_, T> {
    fn as_ref(&self) -> &T {
        self
    }
}

/// As `str` is: so a text goes to what takes bytes, the writers among them.
///
/// ```
/// use valdrabus::{Kind, Literal, to_escape};
///
/// let (row, mut out) = ("'Bob''s balm'", [0; 16]);
/// let literal = Literal::whole(Kind::String, row).unwrap();
/// assert_eq!(to_escape(literal.as_str(row, &mut out)?)?, r"E'Bob''s balm'");
/// # Ok::<(), valdrabus::Error>(())
/// ```
impl AsRef<[u8]> for Text<'_, '_, str> {
    fn as_ref(&self) -> &[u8] {
        self.as_bytes()
    }
}

/// Texts are found in a map by what they are.
///
/// ```
/// use std::collections::HashMap;
/// use valdrabus::{Item, Kind, Literal, to_block};
///
/// let items = [0..6, 7..13].map(|span| Item::from(Literal::new(Kind::String, span)));
/// let block = to_block(&items, "'Balm' 'it''s'")?;
/// let rows: HashMap<_, _> = block.iter().flatten().zip(1..).collect();
/// assert_eq!(rows.get("Balm"), Some(&1));
/// # Ok::<(), valdrabus::Error>(())
/// ```
impl<T: ?Sized> Borrow<T> for Text<'_, '_, T> {
    fn borrow(&self) -> &T {
        self
    }
}

/// As [`into_cow`](Text::into_cow).
impl<'s, T: ToOwned + ?Sized> From<Text<'s, '_, T>> for Cow<'s, T> {
    fn from(text: Text<'s, '_, T>) -> Cow<'s, T> {
        text.into_cow()
    }
}

impl From<Text<'_, '_>> for String {
    fn from(text: Text<'_, '_>) -> String {
        text.into_ref().to_owned()
    }
}

impl From<Text<'_, '_, [u8]>> for Vec<u8> {
    fn from(text: Text<'_, '_, [u8]>) -> Vec<u8> {
        text.into_ref().to_owned()
    }
}

impl<T: ?Sized + fmt::Display> fmt::Display for Text<'_, '_, T> {
    fn fmt(&self, f: &mut fmt::Formatter<'_>) -> fmt::Result {
        T::fmt(self, f)
    }
}
