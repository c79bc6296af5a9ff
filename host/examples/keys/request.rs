//! What the command line asks for.

use crate::help::USAGE;
use crate::marked;
use crate::report::Which;
use crate::shown::Look;
use std::ffi::{OsStr, OsString};
use std::path::PathBuf;
use valdrabus::Settings;

pub enum Asked {
    Help,
    Keys(Request),
}

pub struct Request {
    pub settings: Settings,
    pub which: Which,
    pub json: bool,
    pub look: Look,
    pub files: Vec<PathBuf>,
}

/// What is asked by these words, the program's own name left out. No file is standard input, as the file `-` is.
pub fn asked(words: impl IntoIterator<Item = OsString>) -> Result<Asked, String> {
    let mut request =
        Request { settings: Settings::STANDARD, which: Which::All, json: false, look: Look::Marked, files: Vec::new() };
    let mut words = words.into_iter();
    while let Some(word) = words.next() {
        match word.as_encoded_bytes() {
            b"--help" | b"-h" => return Ok(Asked::Help),
            b"--backslash" => request.settings = Settings::MYSQL,
            b"--doubles" => request.which = Which::Doubtful,
            b"--json" => request.json = true,
            b"--spell" => request.look = look(words.next().as_deref())?,
            b"--" => request.files.extend(words.by_ref().map(PathBuf::from)),
            [b'-', _, ..] => return Err(format!("no option {}\n{USAGE}", marked::word(word))),
            _ => request.files.push(word.into()),
        }
    }
    if request.files.is_empty() {
        request.files.push("-".into());
    }
    Ok(Asked::Keys(request))
}

/// The look that the word behind `--spell` names.
fn look(word: Option<&OsStr>) -> Result<Look, String> {
    match word.map(OsStr::as_encoded_bytes) {
        Some(b"escape") => Ok(Look::Escape),
        Some(b"unicode") => Ok(Look::Unicode),
        _ => Err(format!("--spell is followed by neither escape nor unicode\n{USAGE}")),
    }
}
