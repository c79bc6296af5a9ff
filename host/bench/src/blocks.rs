//! What is read in blocks: a case of strings, cut into calls.

use crate::cases::{self, Case, Place};
use std::borrow::Cow;

/// How much room a call is lent.
#[derive(Clone, Copy, PartialEq, Debug)]
pub enum Room {
    /// Just what its texts need.
    All,
    /// What the first half of its items needs.
    Half,
}

/// A case of strings, with how many items a call has and how much room it is lent.
pub struct BlockCase {
    pub case: Case,
    pub items: usize,
    pub room: Room,
}

/// How many rows a screen shows.
const SCREEN: usize = 40;

pub fn all() -> Vec<BlockCase> {
    let mut cases = vec![
        one("ward list in a block", cases::ward(), Room::All),
        one("wholesale list in a block", cases::wholesale(), Room::All),
        by_screens("wholesale list in blocks of 40", Room::All),
        one("wholesale list in a block, room for half", cases::wholesale(), Room::Half),
        by_screens("wholesale list in blocks of 40, room for half", Room::Half),
        one("plain rows in a block", plain_rows(), Room::All),
    ];
    cases.extend(
        [(1_000, "1,000"), (10_000, "10,000"), (100_000, "100,000")]
            .map(|(count, shown)| one(&format!("{shown} items in a block"), repeated(count), Room::All)),
    );
    cases
}

/// All of a case in one call.
fn one(name: &str, case: Case, room: Room) -> BlockCase {
    let items = case.places.len();
    BlockCase { case: Case { name: name.into(), ..case }, items, room }
}

fn by_screens(name: &str, room: Room) -> BlockCase {
    BlockCase { items: SCREEN, ..one(name, cases::wholesale(), room) }
}

/// The rows of the wholesale list that are borrowed, in ASCII, with backslash escapes off.
fn plain_rows() -> Case {
    let mut case = cases::wholesale();
    let is_plain = |place: &&Place| matches!(case.value(place), Cow::Borrowed(text) if text.is_ascii());
    case.places = case.places.iter().filter(|place| place.setting == 0).filter(is_plain).copied().collect();
    case
}

/// The wholesale list's rows, so many of them, from the first one again behind the last.
fn repeated(count: usize) -> Case {
    let mut case = cases::wholesale();
    case.places = case.places.iter().copied().cycle().take(count).collect();
    case
}

impl BlockCase {
    /// The room of each call.
    pub fn rooms(&self) -> Vec<usize> {
        let room = |places: &[Place]| {
            let held = match self.room {
                Room::All => places,
                Room::Half => &places[..places.len() / 2],
            };
            held.iter().map(|place| self.written(place)).sum()
        };
        self.case.places.chunks(self.items).map(room).collect()
    }

    /// How many bytes are written for a string, where there is room.
    fn written(&self, place: &Place) -> usize {
        match self.case.value(place) {
            Cow::Borrowed(_) => 0,
            Cow::Owned(text) => text.len(),
        }
    }
}
