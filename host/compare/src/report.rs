//! The first difference, whole, and a smaller input that differs too.

use crate::comparing::{Comparing, Difference, hex};
use crate::lent::GUARD;
use crate::question::Asked;
use std::str::from_utf8;

pub fn print(difference: &Difference) {
    println!("different: {}", difference.what);
    if let Some(asked) = &difference.asked {
        println!("  question  {} with {asked:?}", asked.question.name());
    }
    let source = &difference.source;
    // no text that is made here is longer, but for the one that is too long for the writers
    let shown = &source[..source.len().min(65_536)];
    println!("  source    {} bytes, {} = {:?}", source.len(), hex(shown), String::from_utf8_lossy(shown));
    println!("  buffer    {} bytes; shown below with {GUARD} bytes on each side that are not lent", difference.room);
    println!("  due       {}", difference.due);
    println!("  told      {}", difference.told);
    println!("  lent      {}", hex(&difference.before));
    println!("  after     {}", hex(&difference.after));
}

/// Takes characters out as long as a difference stays.
pub fn smaller(comparing: &mut Comparing, first: Difference) -> Option<Difference> {
    let mut least = first;
    let mut found = false;
    while let Some(next) = one_less(comparing, &least) {
        least = next;
        found = true;
    }
    found.then_some(least)
}

fn one_less(comparing: &mut Comparing, difference: &Difference) -> Option<Difference> {
    let asked = difference.asked?;
    let source = from_utf8(&difference.source).ok()?;
    for (at, character) in source.char_indices() {
        let less = [&source[..at], &source[at + character.len_utf8()..]].concat();
        let kept =
            |place: u32| if place as usize > at { place.saturating_sub(character.len_utf8() as u32) } else { place };
        let asked = Asked { start: kept(asked.start), end: kept(asked.end), ..asked };
        if let Err(next) = comparing.ask(&asked, less.as_bytes()) {
            return Some(*next);
        }
    }
    None
}
