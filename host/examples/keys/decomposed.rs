//! A text decomposed by Unicode's canonical equivalence (NFD): the same letters, composed or not, become one text.

use crate::composed::{CLASSES, ONE_STEP};

/// Composed Hangul syllables: the first and the last; the first leading consonant, the first vowel, and what stands before the first trailing consonant; how
/// many syllables there are for a leading consonant, and for a vowel behind it.
const SYLLABLES: (u32, u32) = (0xAC00, 0xD7A3);
const PARTS: (u32, u32, u32) = (0x1100, 0x1161, 0x11A7);
const OF_LEADING: u32 = 588;
const OF_VOWEL: u32 = 28;

pub fn decomposed(text: &str) -> String {
    let mut characters = Vec::new();
    for next in text.chars() {
        push(u32::from(next), &mut characters);
    }
    // A base goes first, as it has class 0, and what combines with it behind it by its class; the sort is stable, as one class keeps its order.
    for base in characters.chunk_by_mut(|_, next| class(*next) != 0) {
        base.sort_by_key(|next| class(*next));
    }
    characters.into_iter().filter_map(char::from_u32).collect()
}

/// Decomposes a character step by step: a letter with two marks is one with one mark, and a mark.
fn push(number: u32, characters: &mut Vec<u32>) {
    if (SYLLABLES.0..=SYLLABLES.1).contains(&number) {
        return push_syllable(number - SYLLABLES.0, characters);
    }
    match ONE_STEP.binary_search_by_key(&number, |entry| entry.0) {
        Ok(at) => {
            let (_, first, second) = ONE_STEP[at];
            push(first, characters);
            if second != 0 {
                push(second, characters);
            }
        }
        Err(_) => characters.push(number),
    }
}

fn push_syllable(index: u32, characters: &mut Vec<u32>) {
    characters.push(PARTS.0 + index / OF_LEADING);
    characters.push(PARTS.1 + index % OF_LEADING / OF_VOWEL);
    if index % OF_VOWEL != 0 {
        characters.push(PARTS.2 + index % OF_VOWEL);
    }
}

/// The combining class, 0 for what begins a letter.
fn class(number: u32) -> u8 {
    let at = CLASSES.partition_point(|&(_, last, _)| last < number);
    match CLASSES.get(at) {
        Some(&(first, _, class)) if first <= number => class,
        _ => 0,
    }
}
