//! The parts of the comparison; empty where the Rust original is not at hand.
#![cfg(at_hand)]

mod blocks;
mod comparing;
mod dates;
mod edges;
mod frames;
mod lent;
mod ours;
mod packing;
mod places;
mod question;
mod random;
mod report;
mod rng;
mod rules;
pub mod run;
mod rust;
mod sweep;
mod tally;
mod texts;
mod writer;
