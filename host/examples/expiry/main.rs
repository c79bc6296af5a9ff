//! Sorts a stock list by expiry day, and marks what has expired by a day.
//!
//! ```text
//! expiry DAY FILE
//! ```
//!
//! DAY is `yyyy-mm-dd`. FILE has a product on each line: its name, a tab, and its expiry date as an SQL literal, in any spelling and joined from parts too.
//! Lines end with LF, CR LF or CR. Empty lines, lines of blanks, and lines that begin with `--`, blanks before it or not, are no products. A byte order mark
//! before the first line is passed over, and counts as a character of it. A product can be used up to its expiry day, that day included: it has expired by DAY if its
//! own day is earlier.
//!
//! It prints each product with the number and the date of its day, the earliest first and those of one day as the list has them; then the rows that are
//! refused, with the number and the place of the refusal, by line and column of the list; then how many there are of each.
//!
//! `expiry --help` says what the statuses mean.

mod help;
#[path = "../shared/lines.rs"]
mod lines;
#[path = "../shared/marked.rs"]
mod marked;
#[path = "../shared/named.rs"]
mod named;
#[allow(dead_code)] // standard input is not read here
#[path = "../shared/out.rs"]
mod out;
mod report;
mod request;
mod stock;

use out::{Failure, Said};
use request::{Asked, Request};
use std::process::ExitCode;

/// Says all of the list that is named.
fn expiry(Request { day, file }: Request) -> Result<Said, Failure> {
    let unread = |why: &dyn std::fmt::Display| format!("{}: {why}", marked::word(&file));
    let list = std::fs::read(&file).map_err(|why| unread(&why))?;
    let rows = stock::rows(&list).ok_or_else(|| unread(&"a list of 4 GiB or more"))?;
    let status = u8::from(rows.iter().any(|row| row.expiry.is_err()));
    Ok(Said { text: report::report(&list, &rows, day), status })
}

fn run() -> Result<Said, Failure> {
    match request::asked(std::env::args_os().skip(1))? {
        Asked::Help => Ok(Said { text: help::HELP.to_owned(), status: 0 }),
        Asked::Expiry(request) => expiry(request),
    }
}

fn main() -> ExitCode {
    out::end("expiry", run())
}
