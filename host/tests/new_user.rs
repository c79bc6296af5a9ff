//! A first program over the crate, as one writes it from the README alone: it finds the literals of a dump, reads each, and tells which products stand there twice and which rows cannot be read.

use std::collections::HashMap;
use std::collections::hash_map::Entry;
use std::fmt::{self, Write};
use valdrabus::{Kind, Literal, Settings, Span};

/// What a shop's server wrote, `sql_mode` without `NO_BACKSLASH_ESCAPES`. Products 1 and 4 are one, and so are 2 and 6; the fifth row was typed by hand.
const DUMP: &str = r"INSERT INTO stock VALUES
(1, 'Crème 5 g'),
(2, 'Bob\'s balm'),
(3, 'Aspirin'),
(4, 'Crème' ' 5 g'),
(5, 'Bob's balm'),
(6, 'Bob''s balm');
";

/// Each literal of the dump: from the first quote mark of a row to its last.
fn literals(dump: &str) -> Vec<Literal> {
    let (mut found, mut start) = (Vec::new(), 0);
    for line in dump.split_inclusive('\n') {
        if let (Some(first), Some(last)) = (line.find('\''), line.rfind('\'')) {
            let span = Span::try_from(start + first..start + last + 1).expect("a dump below 4 GiB");
            found.push(Literal::at(Kind::String, span));
        }
        start += line.len();
    }
    found
}

/// What the program prints.
fn report(dump: &str, settings: Settings) -> Result<String, fmt::Error> {
    let (mut rows, mut shown) = (HashMap::new(), String::new());
    for (row, literal) in literals(dump).into_iter().enumerate() {
        let row = row + 1;
        match literal.to_str_in(dump, settings) {
            Ok(name) => match rows.entry(name) {
                Entry::Vacant(product) => _ = product.insert(row),
                Entry::Occupied(first) => {
                    writeln!(shown, "row {row}: {} stands in row {} already", first.key(), first.get())?;
                }
            },
            Err(error) => writeln!(shown, "row {row}: {}", error.in_source(dump))?,
        }
    }
    Ok(shown)
}

#[test]
fn a_new_users_program() {
    assert_eq!(
        report(DUMP, Settings::MYSQL).expect("a String takes all"),
        "row 4: Crème 5 g stands in row 1 already\n\
         row 5: the text at 106..118 is not a readable string: reading stops at its byte 4 (number 6), line 6, column 9\n\
         row 6: Bob's balm stands in row 2 already\n"
    );
}

/// At the other setting row 2 cannot be read, so that row 6 is a product of its own: nobody reads a dump without asking which setting it has.
#[test]
fn the_setting_decides() {
    let shown = report(DUMP, Settings::STANDARD).expect("a String takes all");
    assert!(shown.contains("row 2: ") && shown.contains("line 3, column 10"), "{shown}");
    assert!(!shown.contains("row 6: "), "{shown}");
}
