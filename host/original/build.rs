//! Looks for literal.rs, which is no part of this repository, and makes it a module of this crate. Packages that depend on this one are told by
//! DEP_ORIGINAL_AT_HAND. It is not at hand only where no folder is named and the default one is missing.

use std::path::Path;
use std::{env, fs, process};

const LITERAL: &str = "crates/squonk-ast/src/ast/literal.rs";
const ROOT: &str = concat!(env!("CARGO_MANIFEST_DIR"), "/../..");
const BESIDE: &str = "../shared/docs/src";

fn main() {
    println!("cargo::rustc-check-cfg=cfg(at_hand)");
    println!("cargo::rerun-if-env-changed=VALDRABUS_RUST_SRC");
    let named = env::var_os("VALDRABUS_RUST_SRC").filter(|path| !path.is_empty());
    let folder = Path::new(ROOT).join(named.as_deref().unwrap_or(BESIDE.as_ref()));
    let literal = folder.join(LITERAL);
    println!("cargo::rerun-if-changed={}", literal.display());
    let Ok(literal) = literal.canonicalize() else {
        if named.is_none() && !folder.exists() {
            return;
        }
        eprintln!(
            "there is no {}: VALDRABUS_RUST_SRC has to be the folder that holds crates/squonk-ast",
            literal.display()
        );
        process::exit(1)
    };
    let module = format!("#[path = {literal:?}]\npub mod literal;\n");
    let made = Path::new(&env::var("OUT_DIR").expect("OUT_DIR")).join("literal.rs");
    fs::write(made, module).expect("OUT_DIR can be written");
    println!("cargo::rustc-cfg=at_hand");
    println!("cargo::metadata=AT_HAND=1");
}
