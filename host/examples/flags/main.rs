//! Packs the flags of a cold-store list, and shows the literals that they are written back as.
//!
//! ```text
//! flags FILE
//! ```
//!
//! FILE has a product on each line: its name, a tab, and its flags as an SQL bit string, `B'..'` or `X'..'`, joined from parts too. Lines, and those that are no
//! rows, are those of the example `expiry`: a bit string has no setting, so none is read in a comment.
//!
//! It prints for each product how many bits its flags have, their packed bytes in hex, and the literal that these are written as; then the rows that are
//! refused, with the number of the refusal, by line and column of the list; then how many there are of each. `flags --help` says what the statuses mean.

mod help;
#[path = "../shared/lines.rs"]
mod lines;
#[path = "../shared/marked.rs"]
mod marked;
#[path = "../shared/named.rs"]
mod named;
#[path = "../shared/one_list.rs"]
mod one_list;
#[allow(dead_code)] // standard input is not read here
#[path = "../shared/out.rs"]
mod out;
mod report;
mod rows;

use one_list::Asked;
use out::{Failure, Said};
use std::path::Path;
use std::process::ExitCode;

/// Says all of the list that is named.
fn flags(file: &Path) -> Result<Said, Failure> {
    let unread = |why: &dyn std::fmt::Display| format!("{}: {why}", marked::word(file));
    let list = std::fs::read(file).map_err(|why| unread(&why))?;
    let rows = rows::rows(&list).ok_or_else(|| unread(&"a list of 4 GiB or more"))?;
    let status = u8::from(rows.iter().any(|row| row.flags.is_err()));
    Ok(Said { text: report::report(&list, &rows), status })
}

fn run() -> Result<Said, Failure> {
    match one_list::asked(std::env::args_os().skip(1), help::USAGE)? {
        Asked::Help => Ok(Said { text: help::HELP.to_owned(), status: 0 }),
        Asked::List(file) => flags(&file),
    }
}

fn main() -> ExitCode {
    out::end("flags", run())
}
