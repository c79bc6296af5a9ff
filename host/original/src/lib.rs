//! The Rust original: literal.rs, compiled unchanged, with shims of our own for what it takes from its neighbours. It is no part of this repository; where it
//! is not at hand this crate is empty, and the packages that use it do nothing.
#![cfg(at_hand)]

pub mod codes;
mod shims;
pub use shims::{dialect, vocab};

pub mod ast {
    pub use crate::shims::ty;
    include!(concat!(env!("OUT_DIR"), "/literal.rs"));
}
