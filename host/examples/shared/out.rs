//! How a program ends: what it says is written whole, or its status and a line on standard error tell that it is not.

pub mod closed;

use std::fs::File;
use std::io::{self, ErrorKind, Write};
use std::os::fd::AsFd;
use std::process::ExitCode;

/// The status of a program that does not do what it was asked.
pub const FAILED: u8 = 2;

/// The status where the output is a pipe that nobody reads any more: what a shell says of a program that SIGPIPE ended.
const CLOSED_PIPE: u8 = 141;

/// What a program says on standard output, and its status then.
pub struct Said {
    pub text: String,
    pub status: u8,
}

/// Why it says nothing there, for standard error, and its status.
#[derive(Debug, PartialEq)]
pub struct Failure {
    pub why: String,
    pub status: u8,
}

impl From<String> for Failure {
    fn from(why: String) -> Failure {
        Failure { why, status: FAILED }
    }
}

/// Says it, and gives the status.
pub fn end(program: &str, said: Result<Said, Failure>) -> ExitCode {
    let Said { text, status } = match said {
        Ok(said) => said,
        Err(Failure { why, status }) => return failed(program, &why, status),
    };
    if closed::output() {
        return failed(program, "standard output is closed", FAILED);
    }
    match write(text.as_bytes()) {
        Ok(()) => ExitCode::from(status),
        Err(why) if why.kind() == ErrorKind::BrokenPipe => ExitCode::from(CLOSED_PIPE),
        Err(why) => failed(program, &format!("the output cannot be written: {why}"), FAILED),
    }
}

/// All of it, or an error. It goes past `Stdout`, which keeps the end of a text back until it is too late to tell, and takes a descriptor that cannot be
/// written for one that takes all.
fn write(text: &[u8]) -> io::Result<()> {
    File::from(io::stdout().as_fd().try_clone_to_owned()?).write_all(text)
}

/// `eprintln!` would panic where standard error cannot be written; the status tells it all the same.
fn failed(program: &str, why: &str, status: u8) -> ExitCode {
    let _ = writeln!(io::stderr(), "{program}: {why}");
    ExitCode::from(status)
}
