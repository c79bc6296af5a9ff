//! Reads a list of products, one string literal a line, by one call of [`valdrabus::read_block_bytes`], and points out the products that are there twice.
//!
//! ```text
//! block FILE
//! ```
//!
//! It says how many items the call had and how many of them were borrowed from the list, written into the buffer and refused; then which rows are refused and
//! why, by their places in the list, with a mark where each cannot be read, and which products are doubled, with their lines. Lists and statuses are those of
//! the example `keys`, which reads row by row.

#[path = "../keys/counts.rs"]
mod counts;
mod help;
#[allow(dead_code)] // the rows are read here by one call
#[path = "../keys/list.rs"]
mod list;
#[path = "../shared/marked.rs"]
mod marked;
mod one_call;
#[path = "../shared/one_list.rs"]
mod one_list;
#[allow(dead_code)] // standard input is not read here
#[path = "../shared/out.rs"]
mod out;
#[path = "../keys/places.rs"]
mod places;
#[path = "../keys/pointed.rs"]
mod pointed;
#[path = "../keys/products.rs"]
mod products;
#[allow(dead_code)] // one list is read here, at the setting of each row
#[path = "../keys/report.rs"]
mod report;
#[allow(dead_code)] // keys can be shown in other ways too
#[path = "../keys/shown.rs"]
mod shown;

use counts::Counts;
use one_list::Asked;
use out::{Failure, Said};
use report::Which;
use shown::Look;
use std::path::Path;
use std::process::ExitCode;

/// Says all of the list that is named.
fn block(file: &Path) -> Result<Said, Failure> {
    let place = |why: &dyn std::fmt::Display| format!("{}: {why}", marked::word(file));
    let text = std::fs::read(file).map_err(|why| place(&why))?;
    let reading = one_call::read(&text).map_err(|why| place(&why))?;
    let lists = std::slice::from_ref(&reading.list);
    let products = products::products(lists);
    let counts = Counts::of(lists, &products);
    let refused = report::rows(&reading.list.rows, Which::Doubtful, Look::Marked);
    let doubled = report::doubled(&products, Look::Marked, false);
    Ok(Said { text: format!("{reading}\n{refused}{doubled}{counts}\n"), status: counts.status() })
}

fn run() -> Result<Said, Failure> {
    match one_list::asked(std::env::args_os().skip(1), help::USAGE)? {
        Asked::Help => Ok(Said { text: help::HELP.to_owned(), status: 0 }),
        Asked::List(file) => block(&file),
    }
}

fn main() -> ExitCode {
    out::end("block", run())
}
