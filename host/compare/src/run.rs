//! A whole run: its arguments, its parts, and what is told at the end.

use crate::comparing::{Comparing, Outcome};
use crate::rng::Rng;
use crate::tally::Tally;
use crate::texts::Texts;
use crate::{edges, frames, random, report, sweep};
use std::process::ExitCode;
use std::time::Instant;

struct Arguments {
    seed: u64,
    count: u64,
    pieces: usize,
}

pub fn main() -> ExitCode {
    let Some(arguments) = arguments() else {
        eprintln!("compare [--seed N] [--count N] [--pieces N]");
        return ExitCode::from(2);
    };
    let Arguments { seed, count, pieces } = arguments;
    println!("seed {seed}, {count} comparisons of random texts, exhaustive texts of up to {pieces} pieces");
    let began = Instant::now();
    let mut comparing = Comparing::new(seed);
    let outcome = parts(&mut comparing, &arguments);
    println!();
    comparing.tally.print();
    counts(&comparing.tally);
    let (all, seconds) = (comparing.tally.comparisons(), began.elapsed().as_secs());
    match outcome {
        Ok(()) => {
            println!("compared with the Rust original: {all} comparisons in {seconds} s, 0 different");
            ExitCode::SUCCESS
        }
        Err(difference) => {
            println!("{all} comparisons in {seconds} s, then a difference");
            report::print(&difference);
            if let Some(smaller) = report::smaller(&mut comparing, *difference) {
                println!("\nsmaller:");
                report::print(&smaller);
            }
            ExitCode::FAILURE
        }
    }
}

/// Who said what is due, how places were held, and what was not seen.
fn counts(tally: &Tally) {
    println!(
        "\n{} texts; answers due by the Rust {}, of them in a source that is not UTF-8 {},",
        tally.texts,
        tally.rust + tally.alone,
        tally.alone
    );
    println!("by document 01 {}; left out of equality, where ours is 5, {}", tally.rules, tally.left_out);
    let places = &tally.places;
    println!(
        "places of what cannot be read {}: at a start {}, at a unit that the Rust reads up to and not past {}, at an unfinished end {}",
        places.starts + places.units + places.ends,
        places.starts,
        places.units,
        places.ends
    );
    let dates = &tally.dates;
    println!(
        "dates: days {}, ten bytes that are none {}, values of another length {}",
        dates.days, dates.near, dates.other
    );
    for unseen in tally.unseen() {
        println!("not seen: {unseen}");
    }
}

fn parts(comparing: &mut Comparing, arguments: &Arguments) -> Outcome {
    sweep::run(comparing)?;
    frames::report("kinds, marks, settings and spans", comparing, 0, 0);
    frames::run(comparing, arguments.pieces)?;
    if arguments.pieces != 0 {
        let (texts, before) = (comparing.tally.texts, comparing.tally.comparisons());
        edges::run(comparing)?;
        frames::report("around the edges of blocks and chunks", comparing, texts, before);
    }
    let (texts, before) = (comparing.tally.texts, comparing.tally.comparisons());
    let until = comparing.tally.one_by_one() + arguments.count;
    random::run(comparing, &mut Texts { rng: Rng::new(!arguments.seed) }, until)?;
    comparing.block()?;
    frames::report("random texts", comparing, texts, before);
    Ok(())
}

fn arguments() -> Option<Arguments> {
    let mut read = Arguments { seed: 1, count: 10_000_000, pieces: 5 };
    let mut words = std::env::args().skip(1);
    while let Some(word) = words.next() {
        let number = words.next()?;
        match word.as_str() {
            "--seed" => read.seed = number.parse().ok()?,
            "--count" => read.count = number.parse().ok()?,
            "--pieces" => read.pieces = number.parse().ok()?,
            _ => return None,
        }
    }
    Some(read)
}
