//! The products of lists: each key with the rows that have it.

use crate::list::List;
use std::collections::HashMap;

/// Where a row stands: its list's name, and its line.
#[derive(Clone, Copy, Debug, PartialEq, Eq)]
pub struct Spot<'r> {
    pub file: &'r str,
    pub line: usize,
}

/// A key, and the rows that have it.
#[derive(Debug, PartialEq, Eq)]
pub struct Product<'r> {
    pub key: &'r [u8],
    pub rows: Vec<Spot<'r>>,
}

impl Product<'_> {
    pub fn is_doubled(&self) -> bool {
        self.rows.len() > 1
    }
}

/// The products of all lists together, in the order of their first rows.
pub fn products<'r>(lists: &'r [List<'_>]) -> Vec<Product<'r>> {
    let (mut known, mut products) = (HashMap::new(), Vec::new());
    for list in lists {
        for row in &list.rows {
            let Ok(key) = &row.key else { continue };
            let key: &[u8] = key;
            let at = *known.entry(key).or_insert(products.len());
            if at == products.len() {
                products.push(Product { key, rows: Vec::new() });
            }
            products[at].rows.push(Spot { file: &list.name, line: row.line });
        }
    }
    products
}
