//! What the command lines of the examples `keys`, `block` and `flags` ask for.

mod common;
#[path = "common/keys.rs"]
mod example;
#[path = "../examples/shared/one_list.rs"]
mod one_list;

use common::places;
use example::*;

use report::Which;
use shown::Look;
use std::ffi::OsString;
use std::os::unix::ffi::OsStringExt;
use valdrabus::Settings;

/// What is asked: the setting on, rows left out, JSON, the look, the files. None is help.
type Wish = Option<(bool, Which, bool, Look, Vec<String>)>;

fn asked(words: &[&str]) -> Result<Wish, String> {
    let request = match request::asked(words.iter().map(OsString::from))? {
        request::Asked::Help => return Ok(None),
        request::Asked::Keys(request) => request,
    };
    let files = request.files.iter().map(|file| file.display().to_string()).collect();
    Ok(Some((request.settings == Settings::MYSQL, request.which, request.json, request.look, files)))
}

#[test]
fn the_command_line() {
    let files = |names: &[&str]| names.iter().copied().map(String::from).collect::<Vec<_>>();
    let plain = |names: &[&str]| Ok(Some((false, Which::All, false, Look::Marked, files(names))));
    assert_eq!(asked(&[]), plain(&["-"]));
    assert_eq!(asked(&["--doubles", "--"]), Ok(Some((false, Which::Doubtful, false, Look::Marked, files(&["-"])))));
    let named = files(&["a", "-", "b"]);
    assert_eq!(asked(&["a", "--backslash", "-", "b"]), Ok(Some((true, Which::All, false, Look::Marked, named))));
    assert_eq!(asked(&["--", "--doubles", "--help", "--", "-x"]), plain(&["--doubles", "--help", "--", "-x"]));
    assert_eq!(asked(&["--json"]), Ok(Some((false, Which::All, true, Look::Marked, files(&["-"])))));
    assert_eq!(asked(&["--spell", "escape"]), Ok(Some((false, Which::All, false, Look::Escape, files(&["-"])))));
    let spelled = Ok(Some((false, Which::All, false, Look::Unicode, files(&["a", "b"]))));
    assert_eq!(asked(&["a", "--spell", "unicode", "b"]), spelled);
    for words in [&["--help"][..], &["-h"], &["a", "--help", "--x"], &["--json", "--help"], &["--json", "-h"]] {
        assert_eq!(asked(words), Ok(None));
    }
    for words in [&["--spell"][..], &["--spell", "Escape"], &["--spell", "--", "escape"]] {
        assert_eq!(asked(words), Err(format!("--spell is followed by neither escape nor unicode\n{}", help::USAGE)));
    }
    for option in ["-x", "--double", "--helps", "-hh", "--h"] {
        assert_eq!(asked(&["a", option]), Err(format!("no option {option}\n{}", help::USAGE)));
    }
}

#[test]
fn names_of_files_need_not_be_utf_8() {
    let name = OsString::from_vec(b"\xFF.txt".to_vec());
    let Ok(request::Asked::Keys(request)) = request::asked([name.clone()]) else { panic!("no list") };
    assert_eq!(request.files, [name]);
    let option = OsString::from_vec(b"--\xFF".to_vec());
    assert!(request::asked([option]).is_err_and(|why| why.starts_with("no option --\u{FFFD}\n")));
}

/// As `block` and `flags` are.
#[test]
fn a_program_that_is_told_one_list() {
    let asked = |words: &[&str]| one_list::asked(words.iter().map(OsString::from), "usage");
    for name in ["a b.txt", "./-x"] {
        assert_eq!(asked(&[name]), Ok(one_list::Asked::List(name.into())));
    }
    for words in [&["--help"][..], &["-h"], &["a", "--help"], &["a", "-h"]] {
        assert_eq!(asked(words), Ok(one_list::Asked::Help));
    }
    for (words, why) in [
        (&[][..], "one list is to be named, and not 0"),
        (&["a", "b"], "one list is to be named, and not 2"),
        (&["a", "-x"], "no option -x"),
        (&["-x", "--help"], "no option -x"),
        (&["-hh"], "no option -hh"),
        (&["-"], "no option -"),
    ] {
        assert_eq!(asked(words), Err(format!("{why}\nusage")));
    }
    let name = OsString::from_vec(b"\xFF.txt".to_vec());
    assert_eq!(one_list::asked([name.clone()], "usage"), Ok(one_list::Asked::List(name.into())));
}
