//! That a text is equal to what it says, wherever it stands: to another, and to Rust's own texts and bytes on either side.

use crate::texts::Text;
use std::borrow::Cow;
use std::cmp::Ordering;
use std::hash::{Hash, Hasher};

// None of these is derived: a derived one would tell a borrowed text from the same one written, and both are equal to one str.

impl<T: PartialEq + ?Sized> PartialEq for Text<'_, '_, T> {
    fn eq(&self, other: &Self) -> bool {
        **self == **other
    }
}

impl<T: Eq + ?Sized> Eq for Text<'_, '_, T> {}

impl<T: PartialOrd + ?Sized> PartialOrd for Text<'_, '_, T> {
    fn partial_cmp(&self, other: &Self) -> Option<Ordering> {
        (**self).partial_cmp(&**other)
    }
}

impl<T: Ord + ?Sized> Ord for Text<'_, '_, T> {
    fn cmp(&self, other: &Self) -> Ordering {
        (**self).cmp(&**other)
    }
}

impl<T: Hash + ?Sized> Hash for Text<'_, '_, T> {
    fn hash<H: Hasher>(&self, state: &mut H) {
        (**self).hash(state);
    }
}

/// Equality of a text of one form with other types, both ways. A type can come with the length of an array.
macro_rules! equal_to {
    ($form:ty: $([$($len:tt)*] $other:ty),+ $(,)?) => {$(
        impl<$($len)*> PartialEq<$other> for Text<'_, '_, $form> {
            fn eq(&self, other: &$other) -> bool {
                **self == *AsRef::<$form>::as_ref(other)
            }
        }

        impl<$($len)*> PartialEq<Text<'_, '_, $form>> for $other {
            fn eq(&self, text: &Text<'_, '_, $form>) -> bool {
                text == self
            }
        }
    )+};
}

equal_to!(str: [] str, [] &str, [] String, [] Cow<'_, str>);
equal_to!([u8]: [] [u8], [] &[u8], [] Vec<u8>, [] Cow<'_, [u8]>, [const N: usize] [u8; N], [const N: usize] &[u8; N]);

#[cfg(test)]
mod tests {
    use super::*;
    use std::collections::HashMap;

    /// Whether two are equal, asked from either side.
    fn alike<A, B>(one: &A, other: &B) -> bool
    where
        A: PartialEq<B> + ?Sized,
        B: PartialEq<A> + ?Sized,
    {
        let (there, back) = (one == other, other == one);
        assert_eq!(there, back);
        there
    }

    #[test]
    fn a_text_is_what_it_says_wherever_it_stands() {
        for text in [Text::Borrowed("it's"), Text::Written("it's")] {
            for (other, due) in [("it's", true), ("its", false), ("", false)] {
                assert_eq!(alike(&text, other), due);
                assert_eq!(alike(&text, &other), due);
                assert_eq!(alike(&text, &other.to_owned()), due);
                assert_eq!(alike(&text, &Cow::Borrowed(other)), due);
                assert_eq!(alike(&text, &Text::Borrowed(other)), due);
                assert_eq!(alike(&text, &Text::Written(other)), due);
            }
        }
    }

    #[test]
    fn bytes_are_equal_to_bytes() {
        for text in [Text::Borrowed(&b"a\xFF"[..]), Text::Written(&b"a\xFF"[..])] {
            for (other, due) in [(b"a\xFF", true), (b"aa", false)] {
                assert_eq!(alike(&text, &other[..]), due);
                assert_eq!(alike(&text, &&other[..]), due);
                assert_eq!(alike(&text, &other.to_vec()), due);
                assert_eq!(alike(&text, &Cow::Borrowed(&other[..])), due);
                assert_eq!(alike(&text, other), due);
                assert_eq!(alike(&text, &other), due);
                assert_eq!(alike(&text, &Text::Borrowed(&other[..])), due);
                assert_eq!(alike(&text, &Text::Written(&other[..])), due);
            }
        }
    }

    /// As `Borrow` promises: a text and what it says are ordered and hashed alike.
    #[test]
    fn order_and_hash_are_those_of_the_text() {
        let mut texts = [Text::Written("b"), Text::Borrowed("c"), Text::Written("a"), Text::Borrowed("ab")];
        texts.sort_unstable();
        assert_eq!(texts, ["a", "ab", "b", "c"]);
        assert!(Text::Borrowed("a") < Text::Written("b") && Text::Written("a") < Text::Borrowed("b"));

        let places: HashMap<Text<'_, '_>, usize> = texts.into_iter().zip(0..).collect();
        assert_eq!(
            ["a", "ab", "b", "c", "d"].map(|text| places.get(text)),
            [Some(&0), Some(&1), Some(&2), Some(&3), None]
        );
        assert_eq!(places.get(&Text::Borrowed("b")), Some(&2));
    }

    #[test]
    fn a_text_goes_into_a_cow_and_into_memory_of_its_own() {
        let (borrowed, written): (Text<'_, '_>, Text<'_, '_>) = (Text::Borrowed("a"), Text::Written("b"));
        assert!(matches!(Cow::from(borrowed), Cow::Borrowed("a")));
        assert!(matches!(Cow::from(written), Cow::Owned(text) if text == "b"));
        assert_eq!([borrowed, written].map(String::from), ["a", "b"]);
        let bytes: [Text<'_, '_, [u8]>; 2] = [Text::Borrowed(b"\xFF"), Text::Written(b"")];
        assert!(matches!(Cow::from(bytes[0]), Cow::Borrowed(b"\xFF")));
        assert_eq!(bytes.map(Vec::from), [b"\xFF".to_vec(), Vec::new()]);
    }
}
