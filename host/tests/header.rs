//! That `sys` declares the functions of `include/valdrabus.h`, each with the same parameters in the same order. The linker compares names alone.

mod common;

use common::read;
use std::collections::BTreeMap;

/// Each function's parameters and what it returns, in Rust's words.
type Functions = BTreeMap<String, String>;

fn scalar(c: &str) -> &str {
    match c {
        "uint8_t" => "u8",
        "uint32_t" => "u32",
        "uint64_t" => "u64",
        "int64_t" => "i64",
        "size_t" => "usize",
        "bool" => "bool",
        _ => panic!("no type of the header: {c}"),
    }
}

/// `const uint8_t *source` as `source: *const u8`.
fn parameter(c: &str) -> String {
    let (form, name) = c.trim().rsplit_once(' ').expect("a type and a name");
    match (name.strip_prefix('*'), form.strip_prefix("const ")) {
        (Some(name), Some(form)) => format!("{name}: *const {}", scalar(form)),
        (Some(name), None) => format!("{name}: *mut {}", scalar(form)),
        (None, _) => format!("{name}: {}", scalar(form)),
    }
}

/// A name and a list of parameters, up to the bracket that closes it. C says `void` for none.
fn split(declaration: &str) -> (&str, impl Iterator<Item = &str>) {
    let (name, rest) = declaration.split_once('(').expect("parameters");
    let (parameters, _) = rest.split_once(')').expect("their end");
    (name, parameters.split(',').map(str::trim).filter(|parameter| !matches!(*parameter, "" | "void")))
}

/// A declaration begins a line with the type that is returned.
fn of_header() -> Functions {
    let header = read("../include/valdrabus.h");
    let mut functions = Functions::new();
    for returned in ["uint32_t", "bool"] {
        for declaration in header.split(&format!("\n{returned} ")).skip(1) {
            let (name, parameters) = split(declaration);
            let parameters: Vec<String> = parameters.map(parameter).collect();
            functions.insert(name.into(), format!("({}) -> {}", parameters.join(", "), scalar(returned)));
        }
    }
    functions
}

fn of_sys() -> Functions {
    let sys = read("src/sys.rs");
    let declarations = sys.split("pub fn ").skip(1);
    let functions = declarations.map(|declaration| {
        let (name, parameters) = split(declaration);
        let (_, rest) = declaration.split_once(" -> ").expect("what is returned");
        let (returned, _) = rest.split_once(';').expect("its end");
        (name.into(), format!("({}) -> {returned}", parameters.collect::<Vec<_>>().join(", ")))
    });
    functions.collect()
}

#[test]
fn sys_is_the_header() {
    assert_eq!(of_header(), of_sys());
    assert!(of_sys().contains_key("valdrabus_as_str_in"));
}

/// What the header defines a name to be, without the marks of a text.
fn defined<'a>(header: &'a str, name: &str) -> &'a str {
    let lines = header.lines().filter_map(|line| line.strip_prefix("#define ")?.strip_prefix(name)?.strip_prefix(' '));
    lines.map(|text| text.trim_matches('"')).next().expect("a definition")
}

#[test]
fn crate_header_and_archive_are_of_one_version() {
    let header = read("../include/valdrabus.h");
    let [major, minor, patch] =
        ["MAJOR", "MINOR", "PATCH"].map(|part| defined(&header, &format!("VALDRABUS_VERSION_{part}")));
    assert_eq!(defined(&header, "VALDRABUS_VERSION_TEXT"), env!("CARGO_PKG_VERSION"));
    assert_eq!(format!("{major}.{minor}.{patch}"), env!("CARGO_PKG_VERSION"));
    let [major, minor, patch] = [major, minor, patch].map(|part| part.parse::<u32>().expect("a number"));
    // SAFETY: it is lent nothing.
    assert_eq!(unsafe { valdrabus::sys::valdrabus_version() }, major * 10_000 + minor * 100 + patch);
}

/// The sentences of `valdrabus_message`, each behind its case.
#[test]
fn messages_are_the_crates_where_these_have_no_data() {
    use valdrabus::Error;
    let header = read("../include/valdrabus.h");
    let span = valdrabus::Span { start: 0, end: 0 };
    for error in [
        Error::MissingSource { span },
        Error::NotUtf8 { span: None },
        Error::HoldsNul,
        Error::OverLimit,
        Error::BadBits,
    ] {
        let said = error.to_string();
        let (sentence, _) = said.split_once(" (number ").expect("a number");
        assert!(header.contains(&format!("return \"{sentence}\";")), "{sentence}");
    }
}
