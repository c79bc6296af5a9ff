//! How many rows and products there are of each sort.

use crate::list::List;
use crate::products::Product;
use std::fmt;

#[derive(Clone, Copy, Debug, PartialEq, Eq)]
pub struct Counts {
    pub with_key: usize,
    pub different: usize,
    pub doubled: usize,
    /// The rows of the doubled products.
    pub doubled_rows: usize,
    pub refused: usize,
    /// The rows that depend on the setting.
    pub depending: usize,
}

impl Counts {
    pub fn of(lists: &[List<'_>], products: &[Product<'_>]) -> Counts {
        let rows = || lists.iter().flat_map(|list| &list.rows);
        let doubled = || products.iter().filter(|product| product.is_doubled());
        Counts {
            with_key: rows().filter(|row| row.key.is_ok()).count(),
            different: products.len(),
            doubled: doubled().count(),
            doubled_rows: doubled().map(|product| product.rows.len()).sum(),
            refused: rows().filter(|row| row.key.is_err()).count(),
            depending: rows().filter(|row| row.other.is_some()).count(),
        }
    }

    /// By 3 an import is told that products are doubled, even where rows are refused too.
    pub fn status(&self) -> u8 {
        match self {
            Counts { doubled: 1.., .. } => 3,
            Counts { refused: 1.., .. } => 1,
            _ => 0,
        }
    }
}

/// Without the rows that depend on the setting, which are not looked for by one call.
impl fmt::Display for Counts {
    fn fmt(&self, f: &mut fmt::Formatter<'_>) -> fmt::Result {
        let Counts { with_key, different, doubled, doubled_rows, refused, .. } = self;
        write!(
            f,
            "rows with a key: {with_key}; different products: {different}; doubled products: {doubled}, in {doubled_rows} rows; refused rows: {refused}"
        )
    }
}
