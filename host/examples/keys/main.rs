//! Decodes lists of products, one string literal a line, and points out the products that are there twice: a check before an import.
//!
//! ```text
//! keys [--backslash] [--doubles] [--json] [--spell escape|unicode] [--] [FILE ..]
//! ```
//!
//! `keys --help` says what a list is, what is printed, how a dump tells its setting, and what the statuses mean. Here is why it does so.
//!
//! All lists are read before anything is printed: one that cannot be read, or holds a setting that cannot be told, ends it with status 2 and no half of a
//! comparison. Several lists are compared as one.
//!
//! A name that [`valdrabus::write_parts`] wrote in parts spans lines, and each line would be taken for a row. It is put into a list as `E'..'` or `U&'..'`
//! ([`valdrabus::write_escape`], [`valdrabus::write_unicode`]); or, if it holds no line end, whole ([`valdrabus::write_literal`]) or in parts on one line with
//! a space for each line feed, at the setting that it was written at.
//!
//! A control character of a key is shown as its number, `‹0A›`, and so is the mark itself, `‹2039›`: keys that differ look different. `--spell` shows each key
//! as a literal that can be pasted into SQL, `E'a\nb'` or `U&'a\000Ab'`. A key with a control character from 7F to 9F hex, which E leaves as it is, is shown as
//! U& by either. A key with a NUL, which neither can spell, is shown as without it, behind `no literal:`.
//!
//! A row that has no key is shown behind the refusal, with a mark under the character where reading stops, or, if it is not UTF-8, under the byte that is not;
//! of a long row the 40 before it and the 40 from it on:
//!
//! ```text
//!      2  refused: the text at 0..12 is not a readable string: reading stops at its byte 4 (number 6)
//!         'Bob's balm'
//!             ^
//! ```
//!
//! A row with a backslash is read at both settings. Where the answers are two products, or one and a refusal, the other one is shown too: a list read at the
//! wrong setting has keys, but those of other products.

mod alike;
mod composed;
mod counts;
mod decomposed;
mod document;
mod help;
mod json;
mod list;
#[path = "../shared/marked.rs"]
mod marked;
#[path = "../shared/out.rs"]
mod out;
mod places;
mod pointed;
mod products;
mod report;
mod request;
mod shown;

use counts::Counts;
use list::List;
use out::{Failure, Said};
use request::{Asked, Request};
use std::fs::File;
use std::io::{self, Read};
use std::os::fd::AsFd;
use std::path::Path;
use std::process::ExitCode;

/// All of a list.
fn read(file: &Path) -> Result<Vec<u8>, String> {
    let is_input = file.as_os_str() == "-";
    if is_input && out::closed::input() {
        return Err("standard input is closed".to_owned());
    }
    let list = if is_input { standard_input() } else { std::fs::read(file) };
    list.map_err(|why| format!("{}: {why}", marked::word(file)))
}

/// It goes past `Stdin`, which takes a descriptor that cannot be read for one that has nothing to read.
fn standard_input() -> io::Result<Vec<u8>> {
    let mut list = Vec::new();
    File::from(io::stdin().as_fd().try_clone_to_owned()?).read_to_end(&mut list)?;
    Ok(list)
}

/// Reads the lists, compares them as one, and says what is asked.
fn keys(request: &Request) -> Result<Said, Failure> {
    let mut texts = Vec::new();
    for file in &request.files {
        texts.push(read(file)?);
    }
    let mut lists = Vec::new();
    for (file, text) in request.files.iter().zip(&texts) {
        let name = file.display().to_string();
        let rows = list::rows(text, request.settings).map_err(|why| format!("{}: {why}", marked::word(file)))?;
        lists.push(List { name, rows });
    }
    Ok(said(request, &lists))
}

fn said(request: &Request, lists: &[List<'_>]) -> Said {
    let (which, look, several) = (request.which, request.look, lists.len() > 1);
    let products = products::products(lists);
    let (groups, counts) = (alike::alike(&products), Counts::of(lists, &products));
    let text = if request.json {
        document::document(lists, which, look, &products, &groups, &counts)
    } else {
        report::lists(lists, which, look)
            + &report::doubled(&products, look, several)
            + &groups.iter().map(|group| group.line(several)).collect::<String>()
            + &report::summary(&counts)
    };
    Said { text, status: counts.status() }
}

fn run() -> Result<Said, Failure> {
    match request::asked(std::env::args_os().skip(1))? {
        Asked::Help => Ok(Said { text: help::HELP.to_owned(), status: 0 }),
        Asked::Keys(request) => keys(&request),
    }
}

fn main() -> ExitCode {
    out::end("keys", run())
}
