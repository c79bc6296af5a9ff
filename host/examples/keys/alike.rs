//! Different keys that a reader takes for one. They are shown, and never taken for doubles: to a database they are two products.

use crate::decomposed::decomposed;
use crate::products::Product;
use crate::report::on_lines;
use crate::shown::{Look, shown};
use std::borrow::Cow;
use std::collections::{HashMap, HashSet};

/// Keys that look alike, in the order of their first rows, and all that they differ by.
#[derive(Debug, PartialEq, Eq)]
pub struct Alike<'p, 'r> {
    pub products: Vec<&'p Product<'r>>,
    pub differ: Vec<By>,
}

impl Alike<'_, '_> {
    /// The group in a line, each key spelled so that the difference is seen.
    pub fn line(&self, several: bool) -> String {
        let key = |product: &&Product<'_>| {
            format!("{} {}", shown(product.key, Look::Unicode), on_lines(&product.rows, several))
        };
        let keys: Vec<String> = self.products.iter().map(key).collect();
        let by: Vec<&str> = self.differ.iter().copied().map(By::name).collect();
        format!("look alike: {}; they differ by {}\n", keys.join("; "), by.join(", "))
    }
}

/// What keys that look alike can differ by.
#[derive(Clone, Copy, Debug, PartialEq, Eq)]
pub enum By {
    /// The same letters, composed or not.
    Composed,
    /// A no-break space for a space.
    NoBreak,
    /// White space at the end.
    Trailing,
}

impl By {
    const ALL: [By; 3] = [By::Composed, By::NoBreak, By::Trailing];

    pub fn name(self) -> &'static str {
        match self {
            By::Composed => "composed letters",
            By::NoBreak => "no-break spaces",
            By::Trailing => "trailing white space",
        }
    }
}

/// The groups of two keys or more that look alike, in the order of their first rows.
pub fn alike<'p, 'r>(products: &'p [Product<'r>]) -> Vec<Alike<'p, 'r>> {
    let (mut known, mut groups) = (HashMap::new(), Vec::<Vec<&Product<'_>>>::new());
    for product in products {
        let at = *known.entry(read(product.key)).or_insert(groups.len());
        if at == groups.len() {
            groups.push(Vec::new());
        }
        groups[at].push(product);
    }
    groups.retain(|group| group.len() > 1);
    groups.into_iter().map(|products| Alike { differ: differ(&products), products }).collect()
}

/// What a reader sees of a key.
fn read(key: &[u8]) -> String {
    let text = text(key);
    let body = text.trim_end();
    if body.is_ascii() { body.to_owned() } else { decomposed(&with_spaces(body)) }
}

/// What the keys of a group differ by: each as if the other two did not count.
fn differ(products: &[&Product<'_>]) -> Vec<By> {
    let differ = |by: &By| {
        let part = |product: &&Product<'_>| {
            let text = text(product.key);
            let body = text.trim_end();
            match by {
                By::Composed => with_spaces(body),
                By::NoBreak => decomposed(body),
                By::Trailing => text[body.len()..].to_owned(),
            }
        };
        products.iter().map(part).collect::<HashSet<String>>().len() > 1
    };
    By::ALL.into_iter().filter(differ).collect()
}

/// A key is UTF-8.
fn text(key: &[u8]) -> Cow<'_, str> {
    String::from_utf8_lossy(key)
}

/// No-break, figure and narrow no-break spaces as spaces.
fn with_spaces(text: &str) -> String {
    text.replace(['\u{A0}', '\u{2007}', '\u{202F}'], " ")
}
