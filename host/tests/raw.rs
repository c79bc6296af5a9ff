//! What the safe functions never meet: numbers that name nothing, what is lent of dates and of packed bits, items that are not in fours, and the view. Through the C functions
//! themselves.
#![allow(clippy::borrow_as_ptr, reason = "as in src/calls.rs")]

use valdrabus::sys;

const BAD_NUMBER: u32 = 10;
const INVALID_DATE: u32 = 14;
const BAD_BLOCK: u32 = 15;
const BAD_BITS: u32 = 16;

/// A string read by its raw numbers: what is returned, how, first, second and place, which all begin as 77.
fn as_str(kind: u32, synthetic: u32, setting: u32) -> [usize; 5] {
    let source = b"'a''b'";
    let mut out = [0xA5; 8];
    let (mut how, mut first, mut second, mut place) = (77, 77, 77, 77);
    // SAFETY: slices and references of this function.
    let number = unsafe {
        sys::valdrabus_as_str_in(
            kind,
            synthetic,
            0,
            6,
            source.as_ptr(),
            source.len(),
            setting,
            out.as_mut_ptr(),
            out.len(),
            &mut how,
            &mut first,
            &mut second,
            &mut place,
        )
    };
    if number != 0 {
        assert_eq!(out, [0xA5; 8]);
    }
    [number as usize, how as usize, first, second, place]
}

#[test]
fn number_10_for_what_names_nothing() {
    assert_eq!(as_str(4, 0, 0), [0, 2, 0, 3, 0]);
    for (kind, synthetic, setting) in [(0, 0, 0), (15, 0, 0), (u32::MAX, 0, 0), (4, 2, 0), (4, 0, 2), (1, 0, 2)] {
        assert_eq!(as_str(kind, synthetic, setting), [BAD_NUMBER as usize, 0, 0, 0, 0], "{kind} {synthetic} {setting}");
    }
    assert_eq!(as_str(1, 2, 0)[0], BAD_NUMBER as usize);
}

/// The date's and those of packed bits are below.
#[test]
fn number_10_of_every_function_that_takes_a_number() {
    let (source, mut out) = (b"1", [0xA5; 8]);
    let (from, to, room) = (source.as_ptr(), out.as_mut_ptr(), out.len());
    let (mut how, mut first, mut second, mut place, mut value, mut truth, mut len) = (77, 77, 77, 77, 77, 77, 77);
    // SAFETY: slices and references of this function.
    let numbers = unsafe {
        [
            sys::valdrabus_as_decimal_text(0, 0, 0, 1, from, 1, to, room, &mut how, &mut first, &mut second),
            sys::valdrabus_as_bit_text(0, 0, 0, 1, from, 1, to, room, &mut how, &mut first, &mut second),
            sys::valdrabus_as_temporal_text(
                0,
                0,
                0,
                1,
                from,
                1,
                to,
                room,
                &mut how,
                &mut first,
                &mut second,
                &mut place,
            ),
            sys::valdrabus_source_text(0, 0, 0, 1, from, 1, &mut how, &mut first, &mut second),
            sys::valdrabus_as_money_text(0, 0, 0, 1, from, 1, &mut how, &mut first, &mut second),
            sys::valdrabus_charset_introducer(0, 0, 0, 1, from, 1, &mut how, &mut first, &mut second),
            sys::valdrabus_as_i64(0, 0, 0, 1, from, 1, &mut value, &mut first, &mut second),
            sys::valdrabus_as_bool(0, &mut truth, &mut first, &mut second),
            sys::valdrabus_as_null(15, &mut first, &mut second),
            sys::valdrabus_write_literal(from, 1, 2, to, room, &mut len),
            sys::valdrabus_write_parts(from, 1, 3, 2, to, room, &mut len),
        ]
    };
    assert_eq!(numbers, [BAD_NUMBER; 11]);
    assert_eq!((how, first, second, place, value, truth, len), (0, 0, 0, 0, 0, 0, 0));
    assert_eq!(out, [0xA5; 8]);
    // SAFETY: no pointer is given.
    assert!(unsafe { !sys::valdrabus_is_null(0) && !sys::valdrabus_is_null(99) && sys::valdrabus_is_null(7) });
}

/// A date read by its raw numbers: what is returned, the day, first and second, which all begin as 77.
fn as_date(kind: u32, synthetic: u32, end: u32) -> (u32, [u32; 4], [usize; 2]) {
    let source = b"'2027-01-31'";
    let ([mut year, mut month, mut day, mut number], [mut first, mut second]) = ([77; 4], [77; 2]);
    // SAFETY: slices and references of this function.
    let returned = unsafe {
        sys::valdrabus_as_date(
            kind,
            synthetic,
            0,
            end,
            source.as_ptr(),
            source.len(),
            &mut year,
            &mut month,
            &mut day,
            &mut number,
            &mut first,
            &mut second,
        )
    };
    (returned, [year, month, day, number], [first, second])
}

#[test]
fn a_dates_numbers() {
    assert_eq!(as_date(8, 0, 12), (0, [2027, 1, 31, 740_012], [0; 2]));
    for (kind, synthetic) in [(0, 0), (15, 0), (u32::MAX, 0), (8, 2), (8, u32::MAX), (9, 2), (15, 1)] {
        assert_eq!(as_date(kind, synthetic, 99), (BAD_NUMBER, [0; 4], [0; 2]), "{kind} {synthetic}");
    }
    assert_eq!(as_date(9, 1, 99), (1, [0; 4], [9, 9]));
    assert_eq!(as_date(8, 1, 99), (2, [0; 4], [0, 99]));
    assert_eq!(as_date(8, 0, 99), (3, [0; 4], [0, 99]));
    assert_eq!(as_date(8, 0, 11), (6, [0; 4], [0, 11]));
}

#[test]
fn a_days_numbers() {
    for (number, due) in [
        (740_012, (0, [2027, 1, 31])),
        (1, (0, [1, 1, 1])),
        (3_652_059, (0, [9999, 12, 31])),
        (0, (INVALID_DATE, [0; 3])),
        (3_652_060, (INVALID_DATE, [0; 3])),
        (u32::MAX, (INVALID_DATE, [0; 3])),
    ] {
        let [mut year, mut month, mut day] = [77; 3];
        // SAFETY: references of this function.
        let returned = unsafe { sys::valdrabus_date_of_day(number, &mut year, &mut month, &mut day) };
        assert_eq!((returned, [year, month, day]), due, "{number}");
    }
}

/// A bit string packed by its raw numbers: what is returned, how many bits, how, first and second, which all begin as 77, and the buffer.
fn as_packed_bits(kind: u32, synthetic: u32, end: u32) -> (u32, u64, [usize; 3], [u8; 3]) {
    let (source, mut out) = (b"B'1000001'", [0xA5; 3]);
    let (mut bits, mut how, mut first, mut second) = (77, 77, 77, 77);
    // SAFETY: slices and references of this function.
    let returned = unsafe {
        sys::valdrabus_as_packed_bits(
            kind,
            synthetic,
            0,
            end,
            source.as_ptr(),
            source.len(),
            out.as_mut_ptr(),
            out.len(),
            &mut bits,
            &mut how,
            &mut first,
            &mut second,
        )
    };
    (returned, bits, [how as usize, first, second], out)
}

#[test]
fn a_bit_strings_numbers() {
    const AS_LENT: [u8; 3] = [0xA5; 3];
    assert_eq!(as_packed_bits(12, 0, 10), (0, 7, [2, 0, 1], [0x82, 0xA5, 0xA5]));
    for (kind, synthetic) in [(0, 0), (15, 0), (u32::MAX, 0), (12, 2), (12, u32::MAX), (4, 2), (15, 1)] {
        assert_eq!(as_packed_bits(kind, synthetic, 99), (BAD_NUMBER, 0, [0; 3], AS_LENT), "{kind} {synthetic}");
    }
    assert_eq!(as_packed_bits(4, 1, 99), (1, 0, [0, 7, 4], AS_LENT));
    assert_eq!(as_packed_bits(12, 1, 99), (2, 0, [0, 0, 99], AS_LENT));
    assert_eq!(as_packed_bits(12, 0, 99), (3, 0, [0, 0, 99], AS_LENT));
    assert_eq!(as_packed_bits(12, 0, 9), (7, 0, [0, 0, 9], AS_LENT));
    assert_eq!(as_packed_bits(13, 0, 10), (9, 0, [0, 0, 4], AS_LENT));
}

#[test]
fn the_kinds_that_packed_bytes_are_written_as() {
    for (kind, bits, due, text) in [
        (12, 7, (0, 10), &b"B'1000001'"[..]),
        (13, 8, (0, 5), b"X'82'"),
        (13, 7, (BAD_BITS, 0), b""),
        (0, 7, (BAD_NUMBER, 0), b""),
        (11, 7, (BAD_NUMBER, 0), b""),
        (14, 7, (BAD_NUMBER, 0), b""),
        (14, 99, (BAD_NUMBER, 0), b""),
        (u32::MAX, 7, (BAD_NUMBER, 0), b""),
    ] {
        let (bytes, mut out, mut len) = ([0x82], [0xA5; 12], 77);
        // SAFETY: slices and references of this function.
        let returned = unsafe {
            sys::valdrabus_write_bit_literal(bytes.as_ptr(), 1, bits, kind, out.as_mut_ptr(), out.len(), &mut len)
        };
        assert_eq!((returned, len), due, "{kind} {bits}");
        assert_eq!((&out[..text.len()], &out[text.len()..]), (text, &[0xA5; 12][text.len()..]), "{kind} {bits}");
    }
}

/// A block over `'a''b'` by its raw numbers: what is returned, and the answers, which all begin as 77.
fn block(items: &[u32], answers_len: usize) -> (u32, Vec<u32>) {
    let source = b"'a''b'";
    let (mut answers, mut out) = (vec![77; answers_len], [0xA5; 8]);
    // SAFETY: slices of this function.
    let number = unsafe {
        sys::valdrabus_read_block(
            items.as_ptr(),
            items.len(),
            source.as_ptr(),
            source.len(),
            answers.as_mut_ptr(),
            answers.len(),
            out.as_mut_ptr(),
            out.len(),
        )
    };
    (number, answers)
}

#[test]
fn number_10_of_an_item_stops_nothing() {
    for (kind, setting) in [(0, 0), (15, 0), (u32::MAX, 0), (4, 2), (4, 7), (4, u32::MAX), (8, 2)] {
        let due = vec![BAD_NUMBER, 0, 0, 0, 0, 2, 0, 3, 77];
        assert_eq!(block(&[kind, setting, 6, 0, 4, 0, 0, 6], 9), (0, due), "{kind} {setting}");
    }
}

/// On 6 the start is the place, counted from the item's text; on every other number all fields but 9's length are 0.
#[test]
fn an_items_fields_on_its_refusals() {
    let items = [4, 0, 0, 4, 4, 0, 1, 6, 4, 0, 6, 6, 8, 0, 0, 6, 4, 0, 6, 0];
    let due = vec![6, 0, 2, 0, 6, 0, 0, 0, 6, 0, 0, 0, 1, 0, 0, 0, 3, 0, 0, 0];
    assert_eq!(block(&items, 20), (0, due));
}

#[test]
fn number_15_for_items_that_are_not_in_fours() {
    let items = [4, 0, 0, 6, 4, 0, 0, 6];
    for (items_len, answers_len) in [(1, 8), (5, 8), (7, 8), (4, 3), (8, 7), (8, 0)] {
        assert_eq!(block(&items[..items_len], answers_len), (BAD_BLOCK, vec![77; answers_len]));
    }
}

fn view(how: u32, first: usize, second: usize) -> (u32, usize, usize) {
    let (mut from, mut until) = (77, 77);
    // SAFETY: references of this function.
    let shown = unsafe { sys::valdrabus_view(how, first, second, 10, 4, &mut from, &mut until) };
    (shown, from, until)
}

#[test]
fn the_view_shows_a_part_that_fits_or_an_empty_one() {
    assert_eq!(view(1, 3, 10), (1, 3, 10));
    assert_eq!(view(2, 0, 4), (2, 0, 4));
    assert_eq!(view(1, 10, 10), (1, 10, 10));
    for (how, first, second) in [(0, 0, 1), (1, 3, 11), (1, 4, 3), (2, 0, 5), (3, 0, 1), (1, usize::MAX, usize::MAX)] {
        assert_eq!(view(how, first, second), (0, 0, 0), "{how} {first} {second}");
    }
}
