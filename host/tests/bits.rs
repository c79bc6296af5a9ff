//! Packed bits: facts of request T-07, each refusal with what comes with it, and that short bit strings come back both ways.

mod common;

use BitStringRadix::{Binary, Hex};
use common::{BINARY, HEX, KINDS, LENT, inside, whole};
use std::collections::HashSet;
use valdrabus::*;

/// The answer about a literal that is all of its source: the same over bytes, with something around it, allocated, in a buffer just as long and in a longer one, and
/// in none that is shorter.
fn asked(kind: Kind, text: &str) -> Result<(Vec<u8>, u64), Error> {
    let literal = whole(kind, text);
    let answer = literal.to_packed_bits(text);
    let source = format!("é'{text}'1'");
    let inside = inside(kind, 3, text);
    let needed = answer.as_ref().map_or(0, |(bytes, _)| bytes.len());
    for room in [needed, needed + 5] {
        let due = answer.clone().map(|(bytes, bits)| ([&bytes[..], &vec![LENT; room - needed]].concat(), bits));
        assert_eq!(lent(room, |out| literal.as_packed_bits(text, out)), due, "{text:?}");
        assert_eq!(lent(room, |out| literal.in_bytes(text.as_bytes()).as_packed_bits(out)), due, "{text:?}");
        let moved = lent(room, |out| inside.as_packed_bits(&source, out));
        assert_eq!(moved.map_err(|error| error.number()), due.map_err(|error| error.number()), "{text:?}");
    }
    for room in 0..needed {
        assert_eq!(lent(room, |out| literal.as_packed_bits(text, out)), Err(Error::NoRoom { needed }), "{text:?}");
    }
    answer
}

/// The whole buffer behind an answer, and the count; a refusal must leave the buffer.
fn lent(room: usize, ask: impl Fn(&mut [u8]) -> Result<Packed<'_>, Error>) -> Result<(Vec<u8>, u64), Error> {
    let mut out = vec![LENT; room];
    let bits = ask(&mut out).map(Packed::bits);
    assert!(bits.is_ok() || out.iter().all(|&byte| byte == LENT), "{bits:?}");
    bits.map(|bits| (out, bits))
}

/// Packed bytes as a literal: allocated, in a buffer just as long and in a longer one, and in none that is shorter.
fn written(bytes: &[u8], bits: u64, radix: BitStringRadix) -> Result<String, Error> {
    let answer = to_bit_literal(bytes, bits, radix);
    let needed = answer.as_ref().map_or(0, String::len);
    for room in [needed, needed + 5] {
        let mut out = vec![LENT; room];
        let text = write_bit_literal(bytes, bits, radix, &mut out).map(str::to_owned);
        assert_eq!(text, answer);
        assert!(out[needed..].iter().all(|&byte| byte == LENT), "{answer:?}");
    }
    for room in [0, needed.saturating_sub(1)].into_iter().filter(|room| *room < needed) {
        let mut out = vec![LENT; room];
        assert_eq!(write_bit_literal(bytes, bits, radix, &mut out), Err(Error::NoRoom { needed }));
        assert!(out.iter().all(|&byte| byte == LENT));
    }
    answer
}

/// Digits packed in the plainest way: their bits as a text of 0 and 1, filled up to bytes.
fn packed(digits: &str, radix: BitStringRadix) -> (Vec<u8>, u64) {
    let value = |digit: char| digit.to_digit(16).expect("a digit");
    let spell = |digit| if radix == Hex { format!("{:04b}", value(digit)) } else { digit.to_string() };
    let mut bits: String = digits.chars().map(spell).collect();
    let count = bits.len() as u64;
    while bits.len() % 8 != 0 {
        bits.push('0');
    }
    let byte = |at| u8::from_str_radix(&bits[at..at + 8], 2).expect("eight bits");
    ((0..bits.len()).step_by(8).map(byte).collect(), count)
}

#[test]
fn literals_as_packed_bytes() {
    for (kind, text, bytes, bits) in [
        (BINARY, "B''", &[][..], 0),
        (HEX, "X''", &[], 0),
        (BINARY, "B'' ''", &[], 0),
        (BINARY, "B'0'", &[0x00], 1),
        (BINARY, "B'1'", &[0x80], 1),
        (BINARY, "b'1'", &[0x80], 1),
        (BINARY, "B'01'", &[0x40], 2),
        (BINARY, "B'1000001'", &[0x82], 7),
        (BINARY, "B'1111111'", &[0xFE], 7),
        (BINARY, "B'100000001'", &[0x80, 0x80], 9),
        (HEX, "X'F'", &[0xF0], 4),
        (HEX, "X'1fA'", &[0x1F, 0xA0], 12),
        (HEX, "X'DEADBEEF'", &[0xDE, 0xAD, 0xBE, 0xEF], 32),
        // the kind decides, not the letter
        (HEX, "B'1'", &[0x10], 4),
        (BINARY, "X'1'", &[0x80], 1),
        // segments run on
        (BINARY, "B'1' '1'", &[0xC0], 2),
        (HEX, "X'1' '2'", &[0x12], 8),
        (BINARY, "B'1111' '1111' '1'", &[0xFF, 0x80], 9),
        (BINARY, "B'1' ", &[0x80], 1),
    ] {
        assert_eq!(asked(kind, text), Ok((bytes.to_vec(), bits)), "{text}");
    }
}

#[test]
fn packed_bytes_as_literals() {
    for (bytes, bits, radix, text) in [
        (&[][..], 0, Binary, "B''"),
        (&[], 0, Hex, "X''"),
        (&[0x80], 1, Binary, "B'1'"),
        (&[0x00], 1, Binary, "B'0'"),
        (&[0x82], 7, Binary, "B'1000001'"),
        (&[0xF0], 4, Hex, "X'F'"),
        (&[0xAB], 8, Hex, "X'AB'"),
        (&[0xAB], 8, Binary, "B'10101011'"),
        (&[0xAB, 0xC0], 12, Hex, "X'ABC'"),
        (&[0xFF, 0x80], 9, Binary, "B'111111111'"),
        (&[0xFF, 0xFE], 16, Hex, "X'FFFE'"),
    ] {
        assert_eq!(written(bytes, bits, radix).as_deref(), Ok(text));
    }
}

/// All that the bits question refuses, and nothing else, is refused, with the same error.
#[test]
fn packing_refuses_as_the_bits_question_does() {
    for text in ["", "B", "B'", "B'1", "'1'", "B'2'", "B'F'", "B'1''1'", "B'1' B'1'", "B'1' \"1\"", "B'1'x", "B '1'"] {
        let span = whole(BINARY, text).span;
        assert_eq!(asked(BINARY, text), Err(Error::InvalidBitString { span }), "{text:?}");
        assert_eq!(whole(BINARY, text).to_bit_text(text).unwrap_err(), Error::InvalidBitString { span });
    }
    let text = "B'1'";
    for kind in KINDS.into_iter().filter(|kind| ![BINARY, HEX].contains(kind)) {
        let refused = Err(Error::WrongKind { expected: Expected::BitString, actual: kind });
        assert_eq!(asked(kind, text), refused);
        assert_eq!(Literal { synthetic: true, ..whole(kind, text) }.to_packed_bits(text), refused, "1 before 2");
    }
    let nowhere = Literal { synthetic: true, ..Literal::at(HEX, Span { start: 4, end: 0 }) };
    assert_eq!(nowhere.to_packed_bits(text), Err(Error::MissingSource { span: nowhere.span }));
    for (start, end) in [(4, 0), (0, 5), (5, 5)] {
        let literal = Literal::at(BINARY, Span { start, end });
        assert_eq!(literal.to_packed_bits(text), Err(Error::InvalidSourceRange { span: literal.span }));
    }
    let broken = Literal::new(BINARY, 0..4).in_bytes(b"B'\xFF'");
    let refused = Error::NotUtf8 { span: Some(Span { start: 0, end: 4 }) };
    assert_eq!(broken.as_packed_bits(&mut [0; 4]), Err(refused), "4 before 7");
    assert_eq!(Literal::new(BINARY, 1..5).in_bytes(b"\xFFB'1'").as_packed_bits(&mut [0; 1]).map(Packed::bits), Ok(1));
    assert_eq!(lent(0, |out| whole(BINARY, "B'2'").as_packed_bits("B'2'", out)).unwrap_err().number(), 7, "7 before 9");
}

#[test]
fn number_16_for_bytes_that_hold_no_such_count() {
    for (bytes, bits, radix) in [
        // not as many bytes as the bits take
        (&[0x80][..], 0, Binary),
        (&[0x00], 0, Binary),
        (&[], 1, Binary),
        (&[0x80], 9, Binary),
        (&[0x80, 0x00], 8, Binary),
        (&[], u64::MAX, Binary),
        (&[], u64::MAX - 3, Hex),
        (&[], 1 << 32, Binary),
        (&[], 2_147_483_649, Binary),
        // no multiple of four
        (&[0x80], 1, Hex),
        (&[0x80], 5, Hex),
        (&[0x80, 0x00], 10, Hex),
        // an unused bit is set
        (&[0x81], 7, Binary),
        (&[0xF8], 4, Hex),
        (&[0xFF], 1, Binary),
    ] {
        let error = written(bytes, bits, radix).unwrap_err();
        assert_eq!((error, error.number(), error.span()), (Error::BadBits, 16, None), "{bytes:?} {bits}");
    }
}

#[test]
fn number_12_counts_the_bytes_that_are_given() {
    let zeros = vec![0; LONGEST_VALUE + 1];
    for (radix, bits) in [(Binary, 0), (Hex, 8 * zeros.len() as u64), (Binary, u64::MAX)] {
        assert_eq!(written(&zeros, bits, radix), Err(Error::OverLimit), "12 before 16");
    }
    let longest = 8 * LONGEST_VALUE as u64;
    for (radix, needed) in [(Binary, 2_147_483_651), (Hex, 536_870_915)] {
        let refused = write_bit_literal(&zeros[1..], longest, radix, &mut []).map(str::len);
        assert_eq!(refused, Err(Error::NoRoom { needed }));
    }
    assert_eq!(write_bit_literal(&zeros[1..], longest + 1, Binary, &mut []), Err(Error::BadBits), "16 before 9");
}

#[test]
fn what_errors_say() {
    let bits = "the bytes are no packed bits of that count, or X'..' cannot spell it (number 16)";
    assert_eq!(to_bit_literal([0x82], 7, Hex).unwrap_err().to_string(), bits);
    let dump = "(1, B'01'),\n(2, B'021')";
    let error = Literal::new(BINARY, 16..22).to_packed_bits(dump).unwrap_err();
    let said = "the text at 16..22 is not a readable bit string (number 7)";
    assert_eq!(error.to_string(), said);
    assert_eq!(error.in_source(dump).to_string(), format!("{said}, line 2, column 5"));
}

/// The bytes and the count are the answer; where they stand is not.
#[test]
fn packed_bits_are_compared_and_shown() {
    let (mut first, mut second) = ([0; 2], [0xFF; 4]);
    let flags = whole(BINARY, "B'1000001'").as_packed_bits("B'1000001'", &mut first).unwrap();
    let same = whole(BINARY, "B'100' '0001'").as_packed_bits("B'100' '0001'", &mut second).unwrap();
    assert_eq!(flags, same);
    assert_eq!(HashSet::from([flags, same]).len(), 1);
    assert_eq!(format!("{flags:?}"), "82 of 7 bits");
    for (text, shown) in [("B''", "0 bits"), ("B'1'", "80 of 1 bit")] {
        assert_eq!(format!("{:?}", whole(BINARY, text).as_packed_bits(text, &mut [0]).unwrap()), shown);
    }
    let mut third = [0; 1];
    let longer = whole(BINARY, "B'10000010'").as_packed_bits("B'10000010'", &mut third).unwrap();
    assert_eq!(flags.bytes(), longer.bytes());
    assert_ne!(flags, longer);
}

/// Forms that the documentation names: PostgreSQL sends a count of four bytes and then these bytes, and MySQL fills up on the left.
#[test]
fn other_packings() {
    let count = |bits: u64| u32::try_from(bits).expect("few bits").to_be_bytes();
    let sent = |bits, bytes: &[u8]| [&count(bits)[..], bytes].concat();
    let (bytes, bits) = asked(BINARY, "B'1000001'").unwrap();
    assert_eq!(sent(bits, &bytes), [0, 0, 0, 7, 0x82]);
    assert_eq!(u64::from(bytes[0]) >> (8 - bits), 0x41);
    let (bytes, bits) = asked(HEX, "X'1FA'").unwrap();
    assert_eq!(sent(bits, &bytes), [0, 0, 0, 12, 0x1F, 0xA0]);
}

/// Every text of so many digits.
fn texts(radix: BitStringRadix, digits: u32) -> impl Iterator<Item = String> {
    let (base, width) = (if radix == Hex { 16_u32 } else { 2 }, digits as usize);
    (0..base.pow(digits)).map(move |number| match (radix, width) {
        (_, 0) => String::new(),
        (Hex, _) => format!("{number:0width$X}"),
        (Binary, _) => format!("{number:0width$b}"),
    })
}

/// Every literal of up to 11 binary and three hex digits packs to what is counted here, whole and cut in two, and is written back as it was.
#[test]
fn short_literals_come_back() {
    let mut literals = 0;
    for (radix, letter, most) in [(Binary, 'B', 11), (Hex, 'X', 3)] {
        for digits in (0..=most).flat_map(|digits| texts(radix, digits)) {
            let text = format!("{letter}'{digits}'");
            let due = packed(&digits, radix);
            assert_eq!(asked(Kind::BitString { radix }, &text).as_ref(), Ok(&due), "{text}");
            assert_eq!(written(&due.0, due.1, radix).as_deref(), Ok(&text[..]));
            let (first, second) = digits.split_at(digits.len() / 2);
            let joined = format!("{letter}'{first}'\n'{}'", second.to_lowercase());
            assert_eq!(whole(Kind::BitString { radix }, &joined).to_packed_bits(&joined), Ok(due), "{joined:?}");
            literals += 1;
        }
    }
    assert_eq!(literals, (1 << 12) - 1 + 1 + 16 + 256 + 4096);
}

/// Every byte, alone and behind another, with each count: what is written packs to the bytes and the count again.
#[test]
fn bytes_and_count_come_back() {
    for bytes in (0..=u8::MAX).flat_map(|byte| [vec![byte], vec![0x5A, byte]]) {
        for (bits, radix) in (0..=17).flat_map(|bits| [(bits, Binary), (bits, Hex)]) {
            let unused = (8 * bytes.len() as u64).checked_sub(bits).filter(|unused| *unused < 8);
            let good = unused.is_some_and(|unused| u64::from(bytes[bytes.len() - 1].trailing_zeros()) >= unused);
            match to_bit_literal(&bytes, bits, radix) {
                Ok(text) => {
                    assert_eq!(
                        whole(Kind::BitString { radix }, &text).to_packed_bits(&text),
                        Ok((bytes.clone(), bits))
                    );
                    assert!(good && (radix == Binary || bits % 4 == 0), "{bytes:?} {bits}");
                }
                Err(error) => assert!(error == Error::BadBits && !(good && (radix == Binary || bits % 4 == 0))),
            }
        }
    }
}

/// Joined text of many segments and more bytes than the small buffer has: allocated in just the length that is needed, which half of the text's bytes always holds.
#[test]
fn long_bit_strings() {
    for (radix, letter, per) in [(Binary, 'B', 1), (Hex, 'X', 4)] {
        for count in [127 * 8 / per, 128 * 8 / per, 128 * 8 / per + 1, 129 * 8 / per, 5_000] {
            let digits: String = (0..count).map(|at| if at % 3 == 0 { '1' } else { '0' }).collect();
            let segments: Vec<&str> = (0..count).step_by(61).map(|at| &digits[at..count.min(at + 61)]).collect();
            let text = format!("{letter}'{}'", segments.join("'\n'"));
            let (bytes, bits) = asked(Kind::BitString { radix }, &text).unwrap();
            assert_eq!((bytes.clone(), bits), packed(&digits, radix));
            assert_eq!(bytes.capacity(), bytes.len());
            assert!(bytes.len() <= text.len() / 2);
            assert_eq!(to_bit_literal(&bytes, bits, radix), Ok(format!("{letter}'{digits}'")));
        }
    }
}
