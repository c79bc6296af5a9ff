// Reads requests, one a line, and prints the Rust's answer to each: see oracle.py for both forms.
use crate::ast::literal::{
    Literal, LiteralValueError, is_unicode_ident, materialize_unicode_ident, postgres_escape_string_is_valid, split_radix_prefix,
    string_literal_embeds_nul, uescape_argument_is_legal, unicode_escape_string_is_valid,
};
use crate::codes;
use crate::dialect::StringLiteralSyntax;
use crate::vocab::{Meta, Span};
use std::borrow::Cow;
use std::io::{BufRead, Write};

fn hex(text: &str) -> String {
    if text.is_empty() {
        return "-".to_string();
    }
    text.bytes().map(|b| format!("{b:02X}")).collect()
}

fn unhex(text: &str) -> Vec<u8> {
    if text == "-" {
        return Vec::new();
    }
    (0..text.len() / 2).map(|i| u8::from_str_radix(&text[2 * i..2 * i + 2], 16).expect("hex")).collect()
}

// a part of the source, by its places
fn part(source: &str, found: &str) -> String {
    let start = found.as_ptr() as usize - source.as_ptr() as usize;
    assert!(start + found.len() <= source.len());
    format!("b {} {}", start, start + found.len())
}

fn text(source: &str, found: Cow<'_, str>) -> String {
    match found {
        Cow::Borrowed(found) => part(source, found),
        Cow::Owned(made) => format!("w {}", hex(&made)),
    }
}

fn refusal(error: &LiteralValueError) -> String {
    let (number, first, second) = codes::refusal(error);
    format!("r {number} {first} {second}")
}

fn truth(yes: bool) -> String {
    if yes { "yes" } else { "no" }.to_string()
}

fn asked(question: &str, code: u32, on: bool, start: u32, end: u32, source: &str) -> String {
    let literal = || Literal { kind: codes::kind(code), meta: Meta { span: Span::over(start, end) } };
    let told = |answer: Result<Cow<'_, str>, LiteralValueError>| match answer {
        Ok(found) => text(source, found),
        Err(error) => refusal(&error),
    };
    match question {
        "string" => told(literal().as_str_in(source, StringLiteralSyntax { backslash_escapes: on })),
        "plain" => told(literal().as_str(source)),
        "decimal" => told(literal().as_decimal_text(source)),
        "bits" => told(literal().as_bit_text(source)),
        "temporal" => told(literal().as_temporal_text(source)),
        "money" => told(literal().as_money_text(source)),
        "source" => told(literal().source_text(source).map(Cow::Borrowed)),
        "charset" => match literal().charset_introducer(source) {
            Ok(Some(name)) => part(source, name),
            Ok(None) => "n".to_string(),
            Err(error) => refusal(&error),
        },
        "i64" => match literal().as_i64(source) {
            Ok(value) => format!("i {value}"),
            Err(error) => refusal(&error),
        },
        "bool" => match literal().as_bool() {
            Ok(value) => truth(value),
            Err(error) => refusal(&error),
        },
        "null" => match literal().as_null() {
            Ok(()) => truth(true),
            Err(error) => refusal(&error),
        },
        "isnull" => truth(literal().is_null()),
        "ident" => match materialize_unicode_ident(source) {
            Some(found) => text(source, found),
            None => "r 6".to_string(),
        },
        "isident" => truth(is_unicode_ident(source)),
        "evalid" => truth(postgres_escape_string_is_valid(source)),
        "uvalid" => truth(unicode_escape_string_is_valid(source)),
        "uescape" => truth(uescape_argument_is_legal(source)),
        "nul" => truth(string_literal_embeds_nul(source)),
        "radix" => {
            let (base, rest) = split_radix_prefix(source);
            format!("p {base} {}", source.len() - rest.len())
        }
        _ => panic!("no question {question}"),
    }
}

pub fn run() {
    let input = std::io::stdin().lock();
    let mut output = std::io::BufWriter::new(std::io::stdout().lock());
    for line in input.lines() {
        let line = line.expect("a line");
        let words: Vec<&str> = line.split(' ').collect();
        assert!(words.len() == 6, "six words: {line}");
        let number = |i: usize| -> u32 { words[i].parse().expect("a number") };
        let source = String::from_utf8(unhex(words[5])).expect("UTF-8");
        let answer = asked(words[0], number(1), number(2) == 1, number(3), number(4), &source);
        writeln!(output, "{answer}").expect("output");
    }
}
