//! How the examples end where their output is not taken: with a status, and with no panic.

#[path = "common/run.rs"]
mod run;

use run::{Ran, closed_pipe, file, program, run, run_by_shell, run_into, start};
use std::fs::File;

/// Each program with words by which it has something to say, and its status where that is taken.
const PROGRAMS: [(&str, &[&str], i32); 5] = [
    ("keys", &["lists/wholesale.txt"], 3),
    ("keys", &["--json", "lists/wholesale.txt"], 3),
    ("block", &["lists/wholesale.txt"], 3),
    ("expiry", &["2027-01-31", "lists/expiry.txt"], 1),
    ("flags", &["lists/flags.txt"], 1),
];

fn each(hold: impl Fn(&str, &[&str], i32)) {
    for (name, words, status) in PROGRAMS {
        hold(name, words, status);
        hold(name, &["--help"], 0);
    }
}

#[test]
fn an_output_that_is_taken() {
    each(|name, words, status| {
        let Ran { status: ended, out, error } = run(name, words, b"");
        assert_eq!((ended, out.is_empty(), &error[..]), (Some(status), false, ""), "{name} {words:?}");
    });
}

/// Quiet: who closed it wants no more, as `head` does.
#[test]
fn a_pipe_that_nobody_reads() {
    each(|name, words, _| {
        let due = Ran { status: Some(141), out: String::new(), error: String::new() };
        assert_eq!(run_into(name, words, closed_pipe()), due, "{name} {words:?}");
    });
}

/// A device that takes nothing, and a file that is open for reading alone.
#[test]
fn an_output_that_cannot_be_written() {
    let open = |path: &str, write: bool| File::options().read(!write).write(write).open(path).expect("a file");
    for (path, write, why) in [
        ("/dev/full", true, "No space left on device (os error 28)"),
        ("lists/README.md", false, "Bad file descriptor (os error 9)"),
    ] {
        each(|name, words, _| {
            let error = format!("{name}: the output cannot be written: {why}\n");
            let due = Ran { status: Some(2), out: String::new(), error };
            assert_eq!(run_into(name, words, open(path, write)), due, "{name} {words:?} {path}");
        });
    }
}

/// Closed before the program starts, and not a device that takes all: that is an output as good as any.
#[test]
fn a_closed_output() {
    each(|name, words, status| {
        let ran = |status, error: String| Ran { status: Some(status), out: String::new(), error };
        let due = ran(2, format!("{name}: standard output is closed\n"));
        assert_eq!(run_by_shell("\"$@\" >&-", name, words), due, "{name} {words:?}");
        assert_eq!(run_by_shell("\"$@\" <&- >&-", name, words), due, "{name} {words:?}");
        // Where standard error is closed too, the status tells it.
        assert_eq!(run_by_shell("\"$@\" >&- 2>&-", name, words), ran(2, String::new()), "{name} {words:?}");
        assert_eq!(run_by_shell("\"$@\" >/dev/null", name, words), ran(status, String::new()), "{name} {words:?}");
    });
}

/// It is no empty list where it is read, and makes no difference where it is not.
#[test]
fn a_closed_input() {
    for words in [&[][..], &["-"], &["--json"], &["lists/ward.txt", "-"]] {
        let due = Ran { status: Some(2), out: String::new(), error: "keys: standard input is closed\n".to_owned() };
        assert_eq!(run_by_shell("\"$@\" <&-", "keys", words), due, "{words:?}");
    }
    assert_eq!(run_by_shell("\"$@\" </dev/null", "keys", &[""; 0]).status, Some(0));
    each(|name, words, _| {
        assert_eq!(run_by_shell("\"$@\" <&-", name, words), run(name, words, b""), "{name} {words:?}");
    });
}

/// What is said goes to a file whole, and behind what stands there.
#[test]
fn an_output_into_a_file() {
    each(|name, words, status| {
        let path = file(&format!("outputs {name}"), b"before\n");
        let out = File::options().append(true).open(&path).expect("a file");
        assert_eq!(run_into(name, words, out).status, Some(status));
        let kept = std::fs::read_to_string(path).expect("UTF-8");
        assert_eq!(kept.strip_prefix("before\n"), Some(&run(name, words, b"").out[..]), "{name} {words:?}");
    });
}

/// A standard error that cannot be written either changes no status.
#[test]
fn an_error_that_cannot_be_written() {
    for (name, words, _) in PROGRAMS {
        let full = || File::options().write(true).open("/dev/full").expect("a file");
        let mut child = start(program(name).args(words).stdout(full()).stderr(full()));
        assert_eq!(child.wait().expect("a program that ends").code(), Some(2), "{name} {words:?}");
    }
}

/// The usage is said of a command line that cannot be read, and of nothing else.
#[test]
fn a_list_that_cannot_be_read() {
    for (name, words) in [("keys", &[][..]), ("block", &[]), ("expiry", &["2027-01-31"]), ("flags", &[])] {
        for (list, why) in [
            ("lists/none", "No such file or directory (os error 2)"),
            ("lists", "Is a directory (os error 21)"),
            ("Cargo.toml/none", "Not a directory (os error 20)"),
        ] {
            let ran = run(name, &[words, &[list]].concat(), b"'a'\n");
            let due = Ran { status: Some(2), out: String::new(), error: format!("{name}: {list}: {why}\n") };
            assert_eq!(ran, due, "{name} {list}");
        }
        let ran = run(name, &["--no-option"], b"");
        assert_eq!((ran.status, &ran.out[..]), (Some(2), ""), "{name}");
        assert!(ran.error.starts_with(&format!("{name}: no option --no-option\nusage: {name} ")), "{}", ran.error);
    }
}

/// A terminal obeys control characters: names and words are said with these by their numbers.
#[test]
fn a_name_with_control_characters() {
    let (name, shown) = ("no\n\x1B[2J\u{9B}ne", "no‹0A›‹1B›[2J‹9B›ne");
    for (program, words) in [("keys", &[][..]), ("block", &[]), ("expiry", &["2027-01-31"]), ("flags", &[])] {
        let error = run(program, &[words, &[name]].concat(), b"").error;
        assert_eq!(error, format!("{program}: {shown}: No such file or directory (os error 2)\n"));
        let error = run(program, &[format!("--{name}")], b"").error;
        assert!(error.starts_with(&format!("{program}: no option --{shown}\nusage: {program} ")), "{error}");
    }
    let error = run("expiry", &[name, "lists/expiry.txt"], b"").error;
    assert!(error.starts_with(&format!("expiry: {shown}: not a date, ")), "{error}");
    let list = file(&format!("outputs {name}"), b"-- backslash\x1B\n");
    for program in ["keys", "block"] {
        let error = run(program, &[&list], b"").error;
        let due = format!(
            "outputs {shown}: line 1: \"-- backslash\\u{{1b}}\" is neither -- backslash on nor -- backslash off\n"
        );
        assert!(error.ends_with(&due), "{error}");
    }
}

/// Each says its usage and every status that it has, on lines that a terminal holds.
#[test]
fn help() {
    for (name, statuses) in [
        ("keys", &["0", "1", "2", "3", "141"][..]),
        ("block", &["0", "1", "2", "3", "141"]),
        ("expiry", &["0", "1", "2", "3", "141"]),
        ("flags", &["0", "1", "2", "141"]),
    ] {
        let ran = run(name, &["--help"], b"");
        assert_eq!(run(name, &["-h"], b""), ran, "{name}");
        assert!(ran.out.contains(&format!("\nusage: {name} ")), "{}", ran.out);
        let (_, told) = ran.out.split_once("\nStatus:\n").expect("statuses");
        let numbers: Vec<&str> =
            told.lines().filter_map(|line| line[2..].split(' ').next()).filter(|number| !number.is_empty()).collect();
        assert_eq!(numbers, statuses, "{name}");
        assert!(ran.out.lines().all(|line| line.chars().count() <= 110), "{name}");
    }
}
