//! What the command line asks for.

use crate::help::USAGE;
use crate::marked;
use crate::out::Failure;
use std::ffi::{OsStr, OsString};
use std::path::PathBuf;
use valdrabus::Date;

/// The status of a day that is none.
const NO_DAY: u8 = 3;

#[derive(Debug, PartialEq)]
pub enum Asked {
    Help,
    Expiry(Request),
}

/// The day to ask for, and the list.
#[derive(Debug, PartialEq)]
pub struct Request {
    pub day: Date,
    pub file: PathBuf,
}

/// What is asked by these words, the program's own name left out. But for `--help`, or `-h`, there is no option: another word that begins with `-` is refused, so
/// that an option of another program is taken for no day.
pub fn asked(words: impl IntoIterator<Item = OsString>) -> Result<Asked, Failure> {
    let words: Vec<OsString> = words.into_iter().collect();
    match words.iter().find(|word| word.as_encoded_bytes().starts_with(b"-")) {
        Some(option) if option == "--help" || option == "-h" => return Ok(Asked::Help),
        Some(option) => return Err(format!("no option {}\n{USAGE}", marked::word(option)).into()),
        None => {}
    }
    match <[OsString; 2]>::try_from(words) {
        Ok([day, file]) => Ok(Asked::Expiry(Request { day: self::day(&day)?, file: file.into() })),
        Err(words) => {
            let count = if words.len() == 1 { "1 word".to_owned() } else { format!("{} words", words.len()) };
            Err(format!("a day and a list are to be named, and not {count}\n{USAGE}").into())
        }
    }
}

fn day(word: &OsStr) -> Result<Date, Failure> {
    let text = word.to_string_lossy();
    text.parse().map_err(|why| Failure { why: format!("{}: {why}\n{USAGE}", marked::word(word)), status: NO_DAY })
}
