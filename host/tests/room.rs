//! That a buffer of a string's text less two bytes always has room, by what the vectors hold: the law is proved, and this asks the archive.

mod common;

use common::{BINARY, table, unhex, whole};
use valdrabus::*;

/// How many bytes of the room a value leaves; none where the text is refused for another reason.
fn spare(text: &[u8], settings: Settings) -> Option<usize> {
    let literal = Literal::whole(Kind::String, text).expect("a short text");
    let room = text.len().saturating_sub(2);
    let mut out = vec![0; room];
    match literal.in_bytes(text).as_str_in(settings, &mut out) {
        Ok(value) => Some(room - value.len()),
        Err(Error::NoRoom { needed }) => panic!("{needed} bytes for {}", text.escape_ascii()),
        Err(_) => None,
    }
}

/// Every source of three files, read as a string at both settings, whatever it is there for. Some values fill the room: nothing less would do.
#[test]
fn no_value_is_longer_than_its_text_less_two_bytes() {
    let sources = ["oracle", "clarified", "places"].into_iter().flat_map(table).map(|row| unhex(&row[6]));
    let texts: Vec<Vec<u8>> = sources.collect();
    let asked =
        texts.iter().flat_map(|text| [Settings::STANDARD, Settings::MYSQL].map(|settings| spare(text, settings)));
    let spares: Vec<usize> = asked.flatten().collect();
    assert!(spares.len() > 1_000, "{} are read", spares.len());
    assert!(spares.contains(&0) && spares.iter().any(|spare| *spare > 0));
}

/// What takes more than a small buffer is asked again, for no more than the laws allow: values that are written, of each question.
#[test]
fn long_texts_of_every_question() {
    let long = |part: &str| part.repeat(500);
    let (string, temporal) = (format!("'{}'''", long("x")), format!("'{}'''", long("2")));
    assert_eq!(whole(Kind::String, &string).to_str(&string).as_deref(), Ok(&*(long("x") + "'")));
    assert_eq!(whole(Kind::Date, &temporal).to_temporal_text(&temporal).as_deref(), Ok(&*(long("2") + "'")));
    let (bits, number) = (format!("B'{}' ", long("1")), format!("7_{}", long("7")));
    assert_eq!(whole(BINARY, &bits).to_bit_text(&bits).as_deref(), Ok(&*long("1")));
    assert_eq!(whole(Kind::Integer, &number).to_decimal_text(&number).as_deref(), Ok(&*(long("7") + "7")));
    let name = format!("U&\"{}\"\"\"", long("x"));
    assert_eq!(to_unicode_ident(&name).as_deref(), Ok(&*(long("x") + "\"")));
}
