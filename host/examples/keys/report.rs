//! What is said of lists, line by line.

use crate::counts::Counts;
use crate::list::{List, Row, opposite};
use crate::marked::marked;
use crate::pointed::pointed_out;
use crate::products::{Product, Spot};
use crate::shown::{Look, shown};
use std::fmt::Write;
use valdrabus::Settings;

/// Which rows are shown.
#[derive(Clone, Copy, Debug, PartialEq, Eq)]
pub enum Which {
    All,
    /// Those that have no key, or depend on the setting.
    Doubtful,
}

impl Which {
    pub fn shows(self, row: &Row<'_>) -> bool {
        self == Which::All || row.key.is_err() || row.other.is_some()
    }
}

/// The rows of all lists, each list's behind its name where there are several.
pub fn lists(lists: &[List<'_>], which: Which, look: Look) -> String {
    let mut text = String::new();
    for list in lists {
        if lists.len() > 1 {
            writeln!(text, "{}", marked(list.name.as_bytes())).expect("a String takes all");
        }
        text += &rows(&list.rows, which, look);
    }
    text
}

/// Each row's line, key and literal, or why it has no key and where it cannot be read; then its answer at the other setting, where that matters.
pub fn rows(rows: &[Row<'_>], which: Which, look: Look) -> String {
    let mut text = String::new();
    for row in rows.iter().filter(|row| which.shows(row)) {
        let said = match &row.key {
            Ok(key) => format!("{}\t{}", shown(key, look), marked(row.text)),
            Err(error) => format!("refused: {error}{}", pointed_out(row.text, error).unwrap_or_default()),
        };
        writeln!(text, "{:6}  {said}{}", row.line, other(row, look)).expect("a String takes all");
    }
    text
}

/// A line more for a row that depends on the setting.
fn other(row: &Row<'_>, look: Look) -> String {
    let Some(there) = &row.other else { return String::new() };
    let setting = if opposite(row.settings) == Settings::MYSQL { "on" } else { "off" };
    let said = there.as_ref().map_or_else(|_| "refused".to_owned(), |key| shown(key, look));
    format!("\n{:8}with backslash {setting}: {said}", "")
}

/// The products that stand in several rows.
pub fn doubled(products: &[Product<'_>], look: Look, several: bool) -> String {
    let mut text = String::new();
    for product in products.iter().filter(|product| product.is_doubled()) {
        writeln!(text, "doubled: {}, {}", shown(product.key, look), on_lines(&product.rows, several))
            .expect("a String takes all");
    }
    text
}

/// The last line.
pub fn summary(counts: &Counts) -> String {
    format!("{counts}; rows that depend on the setting: {}\n", counts.depending)
}

/// Where rows stand, by their lines, and their lists' names where there are several.
pub fn on_lines(rows: &[Spot<'_>], several: bool) -> String {
    let spot = |row: &Spot<'_>| {
        if several { format!("{}:{}", marked(row.file.as_bytes()), row.line) } else { row.line.to_string() }
    };
    let places: Vec<String> = rows.iter().map(spot).collect();
    format!("on {} {}", if rows.len() == 1 { "line" } else { "lines" }, places.join(", "))
}
