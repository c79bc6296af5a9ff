//! Times ours and the Rust original side by side, in one process; the writers, which the original has not, beside loops that push into a `String`; dates, of
//! which it has the text, beside a parse of that text, and the day of a number beside plain arithmetic; packed bits, of which it has the digits, beside a loop that
//! packs those.
//!
//!     cargo run --release -p bench                          a table of times; tools/speed.py takes its ratios into docs/PERFORMANCE.md
//!     cargo run --release -p bench -- --blocks              the same of strings that are read in blocks, beside single calls
//!     cargo run --release -p bench -- --cases               the names of the cases of both
//!     cargo run --release -p bench -- --count CASE N SIDE   one case N times, to count instructions; SIDE is ours, rust or rust-str, of a case in blocks block, singles or rust
//!
//! `rust` has bytes, as ours has, and so begins with `from_utf8`; `rust-str` has the text or value as `str` already. A block's items are made before it is timed, and its answers looked at behind each
//! call just as those of single calls are.

#[cfg(at_hand)]
fn main() -> std::process::ExitCode {
    bench::run::main()
}

#[cfg(not(at_hand))]
fn main() {
    println!("bench: literal.rs is not at hand (VALDRABUS_RUST_SRC names its folder); nothing is timed");
}
