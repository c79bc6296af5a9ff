//! Asks the Rust original and ours the same questions, and stops at the first difference.
//!
//!     cargo run --release -p compare -- [--seed N] [--count N] [--pieces N]
//!
//! --seed    chooses the random texts (1)
//! --count   how many comparisons of random texts, at least (10000000)
//! --pieces  of how many pieces exhaustive texts are made, at most (5); with 0 there are none
//!
//! A comparison is one question asked of both, with one buffer: the number, the range or the written bytes, every lent number, and every byte of the buffer and
//! beside it. Strings are asked of ours in blocks too, each item a comparison more, which --count does not count. The place of a string or temporal text that
//! cannot be read, of which the original knows nothing, is held to what the original makes of the text cut there (`places.rs`); it has to be the same alone,
//! with other bytes around, with every buffer and in a block. A date literal is due the day that its text, which the original reads, spells by a count of our
//! own (`dates.rs`), and the day's number has to give it back. A bit string is due its digits, which the original reads, as bytes that are put together bit by
//! bit (`packing.rs`), and what is written of these has to be read back by the original. The original is literal.rs, compiled unchanged from the folder that
//! VALDRABUS_RUST_SRC names (by default ../shared/docs/src beside the repository).

#[cfg(at_hand)]
fn main() -> std::process::ExitCode {
    compare::run::main()
}

#[cfg(not(at_hand))]
fn main() {
    println!("not compared: the Rust original is not at hand (VALDRABUS_RUST_SRC names its folder)");
}
