//! Keys that look alike, as the example `keys` finds them, and the decomposition of letters that it finds them by.

mod common;
#[path = "common/keys.rs"]
mod example;
#[path = "common/run.rs"]
mod run;

use common::places;
use example::*;

use alike::{By, alike};
use composed::{CLASSES, ONE_STEP};
use decomposed::decomposed;
use products::{Product, Spot};

fn of<'k>(keys: &[&'k str]) -> Vec<Product<'k>> {
    let rows = |at| vec![Spot { file: "", line: at + 1 }];
    keys.iter().enumerate().map(|(at, key)| Product { key: key.as_bytes(), rows: rows(at) }).collect()
}

/// What keys differ by, which all look alike.
fn differ(keys: &[&str]) -> Vec<By> {
    let products = of(keys);
    let groups = alike(&products);
    let [group] = &groups[..] else { panic!("{keys:?}: {} groups", groups.len()) };
    assert_eq!(group.products.len(), keys.len(), "{keys:?}");
    group.differ.clone()
}

#[test]
fn what_keys_that_look_alike_differ_by() {
    use By::{Composed, NoBreak, Trailing};
    for (keys, by) in [
        (&["Crème", "Cre\u{300}me"][..], &[Composed][..]),
        (&["10 \u{C5}", "10 \u{212B}", "10 A\u{30A}"], &[Composed]),
        (&["인슐린", "\u{110B}\u{1175}\u{11AB}\u{1109}\u{1172}\u{11AF}\u{1105}\u{1175}\u{11AB}"], &[Composed]),
        (&["a\u{323}\u{307}", "a\u{307}\u{323}"], &[Composed]),
        (&["5 mg", "5\u{A0}mg", "5\u{202F}mg", "5\u{2007}mg"], &[NoBreak]),
        (&["5 mg", "5 mg ", "5 mg\t", "5 mg\u{3000}\r\n"], &[Trailing]),
        (&["5 mg ", "5 mg\u{A0}"], &[Trailing]),
        (&["", " ", "\u{A0}"], &[Trailing]),
        (&["è 5\u{A0}g", "e\u{300} 5 g"], &[Composed, NoBreak]),
        (&["è", "e\u{300}\n"], &[Composed, Trailing]),
        (&["5\u{A0}g", "5 g "], &[NoBreak, Trailing]),
        (&["è 5 g", "e\u{300} 5 g", "è 5\u{202F}g", "è 5 g "], &[Composed, NoBreak, Trailing]),
    ] {
        assert_eq!(differ(keys), by, "{keys:?}");
    }
}

/// Case, what only resembles, compatibility forms, space in front and within, and white space that is another one do not count.
#[test]
fn keys_that_do_not_look_alike() {
    for keys in [
        ["a", "A"],
        ["Aspirin", "\u{410}spirin"],
        ["µg", "μg"],
        ["ﬁ", "fi"],
        ["²", "2"],
        [" a", "a"],
        ["5  mg", "5 mg"],
        ["5\u{2009}mg", "5 mg"],
        ["a\u{301}\u{300}", "a\u{300}\u{301}"],
        ["a\u{200B}", "a"],
        ["é", "e"],
        ["a \u{301}", "a"],
    ] {
        assert_eq!(alike(&of(&keys)), [], "{keys:?}");
    }
    assert_eq!(alike(&[]), []);
}

#[test]
fn groups_stand_in_the_order_of_their_first_rows() {
    let products = of(&["b", "è", "c", "e\u{300}", "b ", "è\u{A0}"]);
    let groups: Vec<Vec<usize>> = alike(&products)
        .iter()
        .map(|group| group.products.iter().map(|product| product.rows[0].line).collect())
        .collect();
    assert_eq!(groups, [vec![1, 5], vec![2, 4, 6]]);
}

#[test]
fn no_product_of_the_sample_lists_looks_like_another() {
    for name in ["ward", "wholesale"] {
        let text = common::read(&format!("lists/{name}.txt"));
        let lists = [listed(text.as_bytes(), valdrabus::Settings::STANDARD)];
        assert_eq!(alike(&products::products(&lists)), [], "{name}");
    }
}

/// They are shown with their spellings, and counted as the products that they are.
#[test]
fn keys_that_look_alike_are_shown_and_no_doubles() {
    let list = "'Crème 5 g'\nU&'Cre\\0300me 5 g'\n'Aspirin'\n'Crème 5\u{A0}g'\n'Aspirin '\nE'Aspirin '\n";
    let ran = run::run("keys", &["--doubles"], list.as_bytes());
    let due = [
        "doubled: Aspirin , on lines 5, 6",
        r"look alike: U&'Cr\00E8me 5 g' on line 1; U&'Cre\0300me 5 g' on line 2; U&'Cr\00E8me 5\00A0g' on line 4; they differ by composed letters, no-break spaces",
        "look alike: U&'Aspirin' on line 3; U&'Aspirin ' on lines 5, 6; they differ by trailing white space",
        "rows with a key: 6; different products: 5; doubled products: 1, in 2 rows; refused rows: 0; rows that depend on the setting: 0",
    ];
    assert_eq!(ran.out.lines().collect::<Vec<_>>(), due);
    assert_eq!(ran.status, Some(3));
    let apart = run::run("keys", &["--doubles"], "'è'\n'e\u{300}'".as_bytes());
    assert_eq!((apart.status, apart.out.starts_with("look alike: ")), (Some(0), true), "{}", apart.out);
    let backslash = "-- backslash on\n'a\\0'\n'a\\0 '";
    let spelled = run::run("keys", &[] as &[&str], backslash.as_bytes()).out;
    assert!(spelled.contains("\nlook alike: no literal: a‹00› on line 2; no literal: a‹00›  on line 3; "), "{spelled}");
}

#[test]
fn letters_are_decomposed() {
    for (text, due) in [
        ("", ""),
        ("Aspirin 5 mg", "Aspirin 5 mg"),
        ("é", "e\u{301}"),
        ("ǖ", "u\u{308}\u{304}"),
        ("\u{1E69}", "s\u{323}\u{307}"),
        ("s\u{307}\u{323}", "s\u{323}\u{307}"),
        ("\u{301}\u{323}", "\u{323}\u{301}"),
        ("\u{2126}\u{212A}\u{212B}", "\u{3A9}KA\u{30A}"),
        ("가각힣", "\u{1100}\u{1161}\u{1100}\u{1161}\u{11A8}\u{1112}\u{1175}\u{11C2}"),
        ("\u{F900}\u{2FA1D}", "\u{8C48}\u{2A600}"),
        ("\u{1D15E}", "\u{1D157}\u{1D165}"),
        ("\u{344}", "\u{308}\u{301}"),
        ("ﬁ²µ\u{A0}", "ﬁ²µ\u{A0}"),
    ] {
        assert_eq!(decomposed(text), due, "{text:?}");
        assert_eq!(decomposed(due), due, "{text:?}");
    }
}

/// Both are searched by halves, so they are to be sorted; a step that led back would never end.
#[test]
fn the_tables_are_sorted() {
    assert!(ONE_STEP.is_sorted_by(|one, next| one.0 < next.0));
    assert!(CLASSES.is_sorted_by(|one, next| one.1 < next.0));
    assert!(CLASSES.iter().all(|&(first, last, class)| first <= last && class != 0));
    for &(number, first, second) in &ONE_STEP {
        assert!([number, first, second].into_iter().all(|part| char::from_u32(part).is_some()), "{number:X}");
        let text = char::from_u32(number).map(String::from).expect("a character");
        assert!(
            decomposed(&text).chars().all(|next| ONE_STEP.iter().all(|entry| entry.0 != u32::from(next))),
            "{number:X}"
        );
    }
}
