//! The parts of the benchmark; empty where the Rust original is not at hand.
#![cfg(at_hand)]

mod asking;
mod block_asking;
mod blocks;
mod cases;
mod dates;
mod packing;
// the same numbers from the same seed; not all of it is asked for here
#[allow(dead_code)]
#[path = "../../compare/src/rng.rs"]
mod rng;
pub mod run;
mod timing;
mod writing;
