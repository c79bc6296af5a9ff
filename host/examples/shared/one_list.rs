//! The command line of a program that is told one list.

use crate::marked;
use std::ffi::OsString;
use std::path::PathBuf;

/// What is asked.
#[derive(Debug, PartialEq)]
pub enum Asked {
    Help,
    List(PathBuf),
}

/// What these words ask for, the program's own name left out. But for `--help`, or `-h`, there is no option: another word that begins with `-` is refused, so
/// that an option of another program is taken for no list.
pub fn asked(words: impl IntoIterator<Item = OsString>, usage: &str) -> Result<Asked, String> {
    let words: Vec<OsString> = words.into_iter().collect();
    match words.iter().find(|word| word.as_encoded_bytes().starts_with(b"-")) {
        Some(option) if option == "--help" || option == "-h" => return Ok(Asked::Help),
        Some(option) => return Err(format!("no option {}\n{usage}", marked::word(option))),
        None => {}
    }
    match <[OsString; 1]>::try_from(words) {
        Ok([file]) => Ok(Asked::List(file.into())),
        Err(words) => Err(format!("one list is to be named, and not {}\n{usage}", words.len())),
    }
}
