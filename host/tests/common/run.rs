//! The built examples, run as their users run them.
#![allow(dead_code)] // each test uses a part

use std::ffi::OsStr;
use std::io::Write;
use std::path::{Path, PathBuf};
use std::process::{Child, ChildStdin, Command, Stdio};
use std::sync::{Mutex, PoisonError};

/// How a program ended, and what it said.
#[derive(Debug, PartialEq)]
pub struct Ran {
    pub status: Option<i32>,
    pub out: String,
    pub error: String,
}

/// An example, which `cargo test` builds before it runs tests. A test that is named to it alone runs the example as it was built last.
pub fn program(name: &str) -> Command {
    let test = std::env::current_exe().expect("a test's own path");
    let built = test.parent().and_then(Path::parent).expect("a test stands in PROFILE/deps");
    let path = built.join("examples").join(name);
    assert!(path.is_file(), "{} is not built: cargo build --examples, in the same profile", path.display());
    Command::new(path)
}

/// Starts one program at a time: one that is started by another thread meanwhile would have the ends of this one's pipes open for a moment, and a pipe that
/// nobody reads would have a reader.
pub fn start(command: &mut Command) -> Child {
    static ONE: Mutex<()> = Mutex::new(());
    let _one = ONE.lock().unwrap_or_else(PoisonError::into_inner);
    command.spawn().expect("a program that can be run")
}

/// The end to write to of a pipe whose reader has ended.
pub fn closed_pipe() -> ChildStdin {
    let mut reader = start(Command::new("true").stdin(Stdio::piped()));
    let writer = reader.stdin.take().expect("a pipe");
    reader.wait().expect("a program that ends");
    writer
}

/// Runs an example with this on its standard input.
pub fn run(name: &str, words: &[impl AsRef<OsStr>], input: &[u8]) -> Ran {
    let mut command = program(name);
    command.args(words).stdin(Stdio::piped()).stdout(Stdio::piped()).stderr(Stdio::piped());
    let mut child = start(&mut command);
    // A program that reads no input has closed it by now, or will.
    let _ = child.stdin.take().expect("a pipe").write_all(input);
    ended(child.wait_with_output().expect("a program that ends"))
}

/// Runs an example whose output goes somewhere else.
pub fn run_into(name: &str, words: &[impl AsRef<OsStr>], out: impl Into<Stdio>) -> Ran {
    let mut command = program(name);
    command.args(words).stdin(Stdio::null()).stdout(out).stderr(Stdio::piped());
    ended(start(&mut command).wait_with_output().expect("a program that ends"))
}

/// Runs an example by a shell's line, in which `"$@"` is the program with its words.
pub fn run_by_shell(line: &str, name: &str, words: &[impl AsRef<OsStr>]) -> Ran {
    let mut command = Command::new("sh");
    command.args(["-c", line, "sh"]).arg(program(name).get_program()).args(words);
    command.stdin(Stdio::null()).stdout(Stdio::piped()).stderr(Stdio::piped());
    ended(start(&mut command).wait_with_output().expect("a program that ends"))
}

fn ended(output: std::process::Output) -> Ran {
    let text = |bytes| String::from_utf8(bytes).expect("UTF-8");
    Ran { status: output.status.code(), out: text(output.stdout), error: text(output.stderr) }
}

/// A file of a test's own, for what cannot stand in the repository.
pub fn file(name: &str, bytes: &[u8]) -> PathBuf {
    let path = Path::new(env!("CARGO_TARGET_TMPDIR")).join(name);
    std::fs::write(&path, bytes).unwrap_or_else(|why| panic!("{}: {why}", path.display()));
    path
}
