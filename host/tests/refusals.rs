//! Each number, what comes with it, and that no refusal touches the buffer.

mod common;

use common::{BINARY, HEX, LENT, inside, whole};
use valdrabus::*;

/// The refusal of a call on a lent buffer, which must leave the buffer alone.
fn refused(len: usize, ask: impl Fn(&mut [u8]) -> Option<Error>) -> Error {
    let mut out = vec![LENT; len];
    let error = ask(&mut out).expect("a refusal");
    assert!(out.iter().all(|&byte| byte == LENT), "{error}");
    error
}

#[test]
fn number_1_gives_the_family_and_the_kind_with_its_data() {
    let interval = Kind::Interval { fields: Some(IntervalFields::DayToSecond), precision: Some(3) };
    let literal = Literal::new(interval, 0..3);
    let error = refused(9, |out| literal.as_str("'a'", out).err());
    assert_eq!(error, Error::WrongKind { expected: Expected::String, actual: interval });
    assert_eq!((error.number(), error.span()), (1, None));

    let expected = |kind, ask: fn(&Literal) -> Option<Error>| match ask(&whole(kind, "1")) {
        Some(Error::WrongKind { expected, actual }) if actual == kind => expected,
        other => panic!("{other:?}"),
    };
    assert_eq!(expected(Kind::Float, |it| it.as_i64("1").err()), Expected::Integer);
    assert_eq!(expected(Kind::Money, |it| it.to_decimal_text("1").err()), Expected::DecimalText);
    assert_eq!(expected(Kind::Null, |it| it.charset_introducer("1").err()), Expected::String);
    assert_eq!(expected(Kind::Null, |it| it.as_bool().err()), Expected::Boolean);
    assert_eq!(expected(Kind::Boolean(true), |it| it.as_null().err()), Expected::Null);
    assert_eq!(expected(Kind::String, |it| it.to_temporal_text("1").err()), Expected::Temporal);
    assert_eq!(expected(Kind::String, |it| it.to_bit_text("1").err()), Expected::BitString);
    assert_eq!(expected(HEX, |it| it.as_money_text("1").err()), Expected::Money);
    assert_eq!(expected(interval, |it| it.as_date("1").err()), Expected::Date);
}

#[test]
fn number_2_comes_before_any_look_at_the_span() {
    let literal = Literal { synthetic: true, ..Literal::at(Kind::String, Span { start: 7, end: 5 }) };
    let error = refused(9, |out| literal.as_str("'a'", out).err());
    assert_eq!(error, Error::MissingSource { span: Span { start: 7, end: 5 } });
    assert_eq!(error.number(), 2);
    assert!(Literal::synthetic(Kind::Boolean(true)).as_bool().is_ok());
}

#[test]
fn number_3_for_spans_that_do_not_fit() {
    for (start, end, source) in
        [(2, 1, "'a'"), (0, 4, "'a'"), (4, 4, "'a'"), (2, 4, "'é'"), (0, 2, "'é'"), (u32::MAX, u32::MAX, "")]
    {
        let span = Span { start, end };
        let error = refused(9, |out| Literal::at(Kind::String, span).as_str(source, out).err());
        assert_eq!((error, error.number()), (Error::InvalidSourceRange { span }, 3));
    }
}

#[test]
fn number_4_in_bytes_and_in_values_that_are_written() {
    let literal = Literal::new(Kind::String, 1..4);
    let error = refused(9, |out| literal.in_bytes(b"x'\xFF'").as_str(out).err());
    assert_eq!((error, error.number()), (Error::NotUtf8 { span: Some(Span { start: 1, end: 4 }) }, 4));
    assert!(matches!(literal.in_bytes(b"\xFF'a'").as_str(&mut []), Ok(Text::Borrowed(b"a"))));

    let bare = Error::NotUtf8 { span: None };
    assert_eq!(refused(9, |out| write_literal(b"\xFF", Settings::STANDARD, out).err()), bare);
    assert_eq!(refused(9, |out| materialize_unicode_ident_bytes(b"U&\"\xFF\"", out).err()), bare);
}

#[test]
fn numbers_5_to_8_for_texts_that_cannot_be_read() {
    let span = Span { start: 0, end: 3 };
    assert_eq!(whole(Kind::Integer, "1__").as_i64("1__"), Err(Error::InvalidInteger { span }));
    assert_eq!(
        refused(9, |out| whole(Kind::Decimal, "1__").as_decimal_text("1__", out).err()),
        Error::InvalidInteger { span }
    );
    assert_eq!(
        refused(9, |out| whole(Kind::String, "'''").as_str("'''", out).err()),
        Error::InvalidString { span: Some(span), place: Some(1) }
    );
    assert_eq!(
        refused(9, |out| whole(Kind::Date, "\"a\"").as_temporal_text("\"a\"", out).err()),
        Error::InvalidString { span: Some(span), place: Some(0) }
    );
    assert_eq!(refused(9, |out| whole(BINARY, "B'2").as_bit_text("B'2", out).err()), Error::InvalidBitString { span });
    assert_eq!(whole(Kind::Money, " $1").as_money_text(" $1"), Err(Error::InvalidMoney { span }));
    assert_eq!(
        refused(9, |out| materialize_unicode_ident("\"a\"", out).err()),
        Error::InvalidString { span: None, place: None }
    );

    let numbers = [
        Error::InvalidInteger { span },
        Error::InvalidString { span: Some(span), place: Some(0) },
        Error::InvalidBitString { span },
        Error::InvalidMoney { span },
    ];
    assert_eq!(numbers.map(|error| error.number()), [5, 6, 7, 8]);
}

#[test]
fn a_later_segment_that_is_refused_leaves_the_buffer() {
    let source = r"'first' 'second' E'\400'";
    let error = refused(64, |out| whole(Kind::String, source).as_str(source, out).err());
    assert_eq!((error.number(), error.place()), (6, Some(19)));
}

/// The place of a string that is refused: the same asked in every way, with every room, and with something around it.
fn place(text: &str, settings: Settings) -> Option<usize> {
    let literal = whole(Kind::String, text);
    let error = refused(9, |out| literal.as_str_in(text, settings, out).err());
    assert_eq!(refused(0, |out| literal.as_str_in(text, settings, out).err()), error);
    assert_eq!(refused(9, |out| literal.in_bytes(text.as_bytes()).as_str_in(settings, out).err()), error);
    assert_eq!(literal.to_str_in(text, settings), Err(error));

    let source = format!("é'{text}'");
    let inside = inside(Kind::String, 3, text);
    let moved = refused(9, |out| inside.as_str_in(&source, settings, out).err());
    assert_eq!((moved.place(), moved.span()), (error.place(), Some(inside.span)));
    assert_eq!(moved.place_in_source(), error.place().map(|place| 3 + place));
    error.place()
}

/// Facts of request T-04's table.
#[test]
fn the_place_of_number_6() {
    for (text, due) in [
        ("'a'b'", 2),
        ("'''''", 3),
        ("'é'b'", 3),
        ("'a' E'c'", 2),
        ("", 0),
        ("'a' x", 0),
        ("U&'a'b'", 0),
        ("'a\0'", 0),
        ("'a'b\0'", 0),
        (r"E'\n\xzz\0'", 8),
        (r"E'\xC3'", 6),
        (r"E'\xC3'''", 6),
        (r"E'\xE0\x80\x80'", 6),
        (r"U&'\D83D\0041'", 3),
        (r"U&'\0041\DE00'", 8),
        ("'a' 'b'c'", 7),
        (r"'a' 'b' E'\400'", 10),
        (r"E'\400' 'b' x", 2),
        ("'a' '\0' x", 4),
    ] {
        assert_eq!(place(text, Settings::STANDARD), Some(due), "{text:?}");
    }
    assert_eq!(place(r"'a\''b'", Settings::MYSQL), Some(4));
}

#[test]
fn the_place_of_number_6_in_a_temporal_text() {
    for (text, due) in [("DATE 'a'b'", 7), ("DATE", 0), (r"DATE E'\400'", 7), ("x'\0'", 1), ("DATE 'a' 'b", 9)] {
        let (source, literal) = (format!("é{text}é"), inside(Kind::Date, 2, text));
        let error = refused(9, |out| literal.as_temporal_text(&source, out).err());
        assert_eq!(error, Error::InvalidString { span: Some(literal.span), place: Some(due) }, "{text:?}");
        assert_eq!(literal.to_temporal_text(&source), Err(error));
        assert_eq!(refused(0, |out| literal.in_bytes(source.as_bytes()).as_temporal_text(out).err()), error);
    }
}

#[test]
fn no_other_number_has_a_place() {
    let text = "'a'b'";
    let error = |literal: Literal| literal.in_bytes(text.as_bytes()).as_str(&mut []).unwrap_err();
    let whole = whole(Kind::String, text);
    let others = [
        error(Literal { kind: Kind::Date, ..whole }),
        error(Literal { synthetic: true, ..whole }),
        error(Literal { span: Span { start: 0, end: 9 }, ..whole }),
        Literal::new(Kind::String, 0..3).in_bytes(b"'\xFF'").as_str(&mut []).unwrap_err(),
        Literal::new(Kind::String, 0..7).as_str("'a' 'b'", &mut []).unwrap_err(),
        Literal::new(BINARY, 0..5).as_bit_text(text, &mut []).unwrap_err(),
        materialize_unicode_ident(text, &mut []).unwrap_err(),
        Literal::new(Kind::Date, 0..3).as_date(text).unwrap_err(),
    ];
    assert_eq!(others.map(|error| error.number()), [1, 2, 3, 4, 9, 7, 6, 14]);
    assert_eq!(others.map(|error| (error.place(), error.place_in_source())), [(None, None); 8]);
}

#[test]
fn refusals_by_line_and_column() {
    let dump = "'a',\r\n  'é' 'b'c',\r7_";
    let string = Literal::new(Kind::String, 8..18).to_str(dump).unwrap_err();
    assert_eq!((string.place(), string.position(dump)), (Some(8), Some(Position { line: 2, column: 10 })));
    let said = "the text at 8..18 is not a readable string: reading stops at its byte 8 (number 6)";
    assert_eq!(string.in_source(dump).to_string(), format!("{said}, line 2, column 10"));
    assert_eq!(string.in_source(dump.replace(['\r', '\n'], " ")).to_string(), said);

    let number = Literal::new(Kind::Integer, 20..22).as_i64(dump).unwrap_err();
    let said = "the text at 20..22 is not a readable integer (number 5), line 3, column 1";
    assert_eq!(number.in_source(dump).to_string(), said);
    let behind = Literal::new(Kind::Integer, 20..30).as_i64(dump).unwrap_err();
    assert_eq!((behind.number(), behind.position(dump)), (3, None));
    assert_eq!(behind.in_source(dump).to_string(), behind.to_string());
    assert_eq!(string.position("another\nsource"), None);
}

/// A line end behind the only line makes no second one.
#[test]
fn a_source_of_one_line_has_no_line_numbers() {
    for source in ["'b", "'b\n", "'b\r\n", "'b\r"] {
        let error = Literal::new(Kind::String, 0..2).to_str(source).unwrap_err();
        assert_eq!(error.in_source(source).to_string(), error.to_string(), "{source:?}");
        let longer = format!("{source}\n'c'");
        assert!(error.in_source(longer).to_string().ends_with(", line 1, column 1"));
    }
}

#[test]
fn number_9_gives_the_length_needed() {
    let joined = "'ab' 'cd'";
    for len in 0..4 {
        let error = refused(len, |out| whole(Kind::String, joined).as_str(joined, out).err());
        assert_eq!((error, error.number()), (Error::NoRoom { needed: 4 }, 9));
    }
    assert_eq!(
        refused(1, |out| whole(Kind::Integer, "0x1F").as_decimal_text("0x1F", out).err()),
        Error::NoRoom { needed: 2 }
    );
    assert_eq!(
        refused(1, |out| whole(BINARY, "B'0' '1'").as_bit_text("B'0' '1'", out).err()),
        Error::NoRoom { needed: 2 }
    );
    assert_eq!(
        refused(1, |out| whole(Kind::Date, joined).as_temporal_text(joined, out).err()),
        Error::NoRoom { needed: 4 }
    );
    assert_eq!(refused(0, |out| materialize_unicode_ident("U&\"\\0041\"", out).err()), Error::NoRoom { needed: 1 });
    assert_eq!(refused(4, |out| write_literal("abc", Settings::STANDARD, out).err()), Error::NoRoom { needed: 5 });
    assert_eq!(refused(9, |out| write_parts("abcde", 4, Settings::STANDARD, out).err()), Error::NoRoom { needed: 10 });
}

#[test]
fn a_borrowed_answer_needs_no_room() {
    assert!(matches!(whole(Kind::String, "'ab'").as_str("'ab'", &mut []), Ok(Text::Borrowed("ab"))));
}

#[test]
fn numbers_11_and_12_are_the_writers() {
    let nul = refused(9, |out| write_literal("a\0", Settings::STANDARD, out).err());
    assert_eq!((nul, nul.number()), (Error::HoldsNul, 11));
    for size in 0..LEAST_PART {
        let small = refused(9, |out| write_parts("a", size, Settings::STANDARD, out).err());
        assert_eq!((small, small.number()), (Error::OverLimit, 12));
    }
}

#[test]
fn the_longest_value_is_read_and_a_longer_one_is_not() {
    let zeros = vec![0; LONGEST_VALUE + 1];
    assert_eq!(to_literal(&zeros, Settings::STANDARD), Err(Error::OverLimit));
    assert_eq!(to_literal(&zeros[1..], Settings::STANDARD), Err(Error::HoldsNul));
}

#[test]
fn the_order_of_the_tests() {
    let odd = Literal { synthetic: true, ..Literal::at(Kind::Integer, Span { start: 9, end: 2 }) };
    assert_eq!(odd.in_bytes(b"\xFF").as_str(&mut []).unwrap_err().number(), 1);
    assert_eq!(Literal::new(Kind::String, 1..9).in_bytes(b"\xFF\xFF").as_str(&mut []).unwrap_err().number(), 3);
    assert_eq!(write_parts(b"\xFF\0", 3, Settings::STANDARD, &mut []).unwrap_err().number(), 12);
    assert_eq!(write_literal(b"\xFF\0", Settings::STANDARD, &mut []).unwrap_err().number(), 4);
    assert_eq!(write_literal("\0", Settings::STANDARD, &mut []).unwrap_err().number(), 11);
}

#[test]
fn errors_say_what_is_wrong() {
    let said = |error: Error| error.to_string();
    let span = Span { start: 2, end: 9 };
    let string = |span, place| said(Error::InvalidString { span, place });
    let broken = "the text at 2..9 is not a readable string: reading stops at its byte 5 (number 6)";
    assert_eq!(string(Some(span), Some(5)), broken);
    assert_eq!(string(Some(span), None), "the text at 2..9 is not a readable string (number 6)");
    assert_eq!(string(None, None), "the text is not a readable string (number 6)");
    assert_eq!(said(Error::NotUtf8 { span: Some(span) }), "the text at 2..9 is not UTF-8 (number 4)");
    assert_eq!(said(Error::NotUtf8 { span: None }), "the text or value is not UTF-8 (number 4)");
    assert_eq!(said(Error::NoRoom { needed: 7 }), "the room is too short: 7 bytes are needed (number 9)");
    let boxed: Box<dyn std::error::Error + Send + Sync> = Error::HoldsNul.into();
    let nul = "the value holds a NUL: only plain literals with backslash escapes spell it (number 11)";
    assert_eq!(boxed.to_string(), nul);
}
