//! Passes on whether the Rust original is at hand.

fn main() {
    println!("cargo::rustc-check-cfg=cfg(at_hand)");
    println!("cargo::rerun-if-changed=build.rs");
    if std::env::var_os("DEP_ORIGINAL_AT_HAND").is_some() {
        println!("cargo::rustc-cfg=at_hand");
    }
}
