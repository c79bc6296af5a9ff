//! The tables, and the runs whose instructions are counted.

use crate::asking::{self, Ready};
use crate::block_asking::{self, ReadyBlocks};
use crate::timing::{self, Timed};
use crate::{blocks, cases};
use std::env;
use std::fmt::Write;
use std::hint::black_box;
use std::process::ExitCode;

pub fn main() -> ExitCode {
    let words: Vec<String> = env::args().skip(1).collect();
    let words: Vec<&str> = words.iter().map(String::as_str).collect();
    match words[..] {
        [] => table(single(), asking::SIDES, "literals | bytes | ours | Rust | ratio | Rust, no `from_utf8` | ratio"),
        ["--blocks"] => {
            table(in_blocks(), block_asking::SIDES, "items | bytes | block | singles | ratio | Rust | ratio");
        }
        ["--cases"] => names().iter().for_each(|name| println!("{name}")),
        ["--count", case, times, side] => {
            if counted(case, times, side).is_none() {
                return usage();
            }
        }
        _ => return usage(),
    }
    ExitCode::SUCCESS
}

fn usage() -> ExitCode {
    eprintln!(
        "bench [--blocks | --cases | --count CASE N SIDE]; SIDE is ours, rust or rust-str, of a case of --blocks block, singles or rust"
    );
    ExitCode::from(2)
}

fn single() -> Vec<Ready> {
    cases::all().into_iter().map(Ready::new).collect()
}

fn in_blocks() -> Vec<ReadyBlocks> {
    blocks::all().into_iter().map(ReadyBlocks::new).collect()
}

fn names() -> Vec<String> {
    let blocks = blocks::all().into_iter().map(|block| block.case);
    cases::all().into_iter().chain(blocks).map(|case| case.name).collect()
}

/// None where a word names nothing.
fn counted(case: &str, times: &str, side: &str) -> Option<()> {
    let times = times.parse().ok()?;
    if let Some(known) = cases::all().into_iter().find(|known| known.name == case) {
        return repeat(Ready::new(known), asking::SIDES, side, times);
    }
    let known = blocks::all().into_iter().find(|known| known.case.name == case)?;
    repeat(ReadyBlocks::new(known), block_asking::SIDES, side, times)
}

fn repeat<T: Timed, const N: usize>(mut case: T, sides: [(T::Side, &str); N], side: &str, times: u64) -> Option<()> {
    let (side, _) = sides.into_iter().find(|(_, name)| *name == side)?;
    for _ in 0..times {
        black_box(case.run(side));
    }
    Some(())
}

fn table<T: Timed, const N: usize>(mut cases: Vec<T>, sides: [(T::Side, &str); N], columns: &str) {
    cases.iter_mut().for_each(same);
    let sides = sides.map(|(side, _)| side);
    let best = timing::best(&mut cases, sides);
    println!("| case | {columns} |");
    println!("|---|{}", "---|".repeat(columns.split('|').count()));
    for (case, best) in cases.iter().zip(best) {
        println!("{}", row(case, sides, best));
    }
}

/// Every side must give the same, or the times mean nothing.
fn same<T: Timed>(case: &mut T) {
    assert!(case.agrees(), "{}: the sides differ", case.case().name);
}

/// What a case has, the first side's time for one of its literals, and the others' with their ratios to the first.
fn row<T: Timed, const N: usize>(timed: &T, sides: [T::Side; N], best: [f64; N]) -> String {
    let case = timed.case();
    let count = case.places.len();
    let times = best.map(|best| best / count as f64);
    let mut text =
        format!("| {} | {count} | {:.0} | {} |", case.name, case.bytes() as f64 / count as f64, rounded(times[0]));
    for (side, time) in sides.into_iter().zip(times).skip(1) {
        let added = if timed.compares(side) {
            write!(text, " {} | {:.2} |", rounded(time), time / times[0])
        } else {
            write!(text, " – | – |")
        };
        added.expect("a String takes all");
    }
    text
}

fn rounded(time: f64) -> String {
    if time < 1000.0 { format!("{time:.1}") } else { format!("{time:.0}") }
}
