//! Where a refused row cannot be read, as the examples `keys` and `block` point it out.

mod common;
#[path = "common/keys.rs"]
mod example;

use common::places;
use example::*;

use valdrabus::Settings;

/// The lines behind a refused row's first, by the row alone and by one call on a list that has it further on.
fn pointed_out(row: &[u8]) -> Vec<String> {
    let behind_its_first = |said: String| said.lines().skip(1).map(str::to_owned).collect::<Vec<_>>();
    let alone = behind_its_first(doubtful(&listed(row, Settings::STANDARD).rows));
    let further_on = [b"'a'\r\n", row, b"\r'b'\n"].concat();
    let reading = one_call::read(&further_on).expect("no settings");
    assert_eq!(behind_its_first(doubtful(&reading.list.rows)), alone);
    alone
}

#[test]
fn a_refused_row_is_shown_with_a_mark_where_reading_stops() {
    for (row, shown, column) in [
        ("'Bob's balm'", "'Bob's balm'", 4),
        ("'é€😀'b'", "'é€😀'b'", 4),
        ("E'\t\u{85}‹\\400'", "E'‹09›‹85›‹2039›\\400'", 16),
        ("'a' 'b' E'\\400'", "'a' 'b' E'\\400'", 10),
        ("E'\\xC3'", "E'\\xC3'", 6),
        ("\u{A0}", "\u{A0}", 0),
        ("\u{B}", "‹0B›", 0),
    ] {
        let (shown, mark) = (format!("{:8}{shown}", ""), format!("{:1$}^", "", 8 + column));
        assert_eq!(pointed_out(row.as_bytes()), [shown, mark], "{row:?}");
    }
    assert_eq!(pointed_out(b"'a'"), [""; 0]);
}

/// Every byte from 80 hex on is shown by its number, those of whole characters too: which of them is not UTF-8 is to be seen.
#[test]
fn a_row_that_is_not_utf_8_is_shown_by_its_bytes() {
    for (row, shown, column) in [
        (&b"'\xC3\xA9\xFF'"[..], "'‹C3›‹A9›‹FF›'", 9),
        (b"\x80'a'", "‹80›'a'", 0),
        (b"\xBF", "‹BF›", 0),
        (b"'a\xC3", "'a‹C3›", 2),
        (b"'a\xC3'", "'a‹C3›'", 2),
        (b"'\xE2\x82'", "'‹E2›‹82›'", 1),
        (b"'\xED\xA0\x80'", "'‹ED›‹A0›‹80›'", 1),
        (b"'\t\x7F\x80~'", "'‹09›‹7F›‹80›~'", 9),
        (b"'\xE2\x80\xB9\xC0'", "'‹E2›‹80›‹B9›‹C0›'", 13),
    ] {
        let (shown, mark) = (format!("{:8}{shown}", ""), format!("{:1$}^", "", 8 + column));
        assert_eq!(pointed_out(row), [shown, mark], "{row:?}");
    }
    for (before, behind) in [(39, 39), (40, 39), (39, 40), (40, 40), (500, 500)] {
        let row = [b"'".to_vec(), b"a".repeat(before), vec![0xFF], b"b".repeat(behind)].concat();
        let (cut_before, cut_behind) = (if before > 39 { "…" } else { "'" }, if behind > 39 { "…" } else { "" });
        let left = format!("{cut_before}{}", "a".repeat(before.min(40)));
        let line = format!("{:8}{left}‹FF›{}{cut_behind}", "", "b".repeat(behind.min(39)));
        let mark = format!("{:1$}^", "", 8 + left.chars().count());
        assert_eq!(pointed_out(&row), [line, mark], "{before} {behind}");
    }
}

/// Characters of the row are counted, not those that they are shown by.
#[test]
fn of_a_long_row_forty_characters_are_shown_on_each_side() {
    let row = |before: &str, behind: &str| format!("'{before}'{behind}'");
    for (piece, shown) in [("a", "a"), ("é", "é"), ("😀", "😀"), ("\u{1}", "‹01›")] {
        let [few, fit, more] = [38, 39, 40].map(|count| piece.repeat(count));
        let [few_shown, fit_shown, more_shown] = [38, 39, 40].map(|count| shown.repeat(count));
        let of = |text: &str| text.chars().count();
        for (row, line, column) in [
            (row(&fit, &few), format!("'{fit_shown}'{few_shown}'"), 1 + of(&fit_shown)),
            (row(&more, &few), format!("…{more_shown}'{few_shown}'"), 1 + of(&more_shown)),
            (row(&fit, &fit), format!("'{fit_shown}'{fit_shown}…"), 1 + of(&fit_shown)),
            (row(&more, &more), format!("…{more_shown}'{fit_shown}…"), 1 + of(&more_shown)),
        ] {
            let mark = format!("{:1$}^", "", 8 + column);
            assert_eq!(pointed_out(row.as_bytes()), [format!("{:8}{line}", ""), mark], "{row:?}");
        }
    }
}
