//! A case asked of ours in blocks and one by one, and of the Rust.

use crate::asking::{self, Ready, digest};
use crate::blocks::{BlockCase, Room};
use crate::cases::{Case, Question};
use crate::timing::Timed;
use std::hint::black_box;
use valdrabus::sys;

#[derive(Clone, Copy, PartialEq, Debug)]
pub enum Side {
    Block,
    /// Single calls, each with the room that those before it left.
    Singles,
    /// The Rust on bytes: `from_utf8` of the literal's text, then the question. It is lent no buffer.
    Rust,
}

pub const SIDES: [(Side, &str); 3] = [(Side::Block, "block"), (Side::Singles, "singles"), (Side::Rust, "rust")];

/// Kind, setting, start, end; and number, how, start, length.
type Four = [u32; 4];

const BORROWED: u32 = 1;
const WRITTEN: u32 = 2;

/// A case with what each side needs.
pub struct ReadyBlocks {
    ready: Ready,
    room: Room,
    /// How many items a call has, and its room.
    by: usize,
    rooms: Vec<usize>,
    items: Vec<Four>,
    answers: Vec<Four>,
    out: Vec<u8>,
}

impl ReadyBlocks {
    pub fn new(block: BlockCase) -> ReadyBlocks {
        let rooms = block.rooms();
        let items: Vec<Four> = block
            .case
            .places
            .iter()
            .map(|place| [Question::Str.kind(), place.setting, place.start, place.end])
            .collect();
        ReadyBlocks {
            room: block.room,
            by: block.items,
            answers: vec![[0; 4]; items.len()],
            items,
            out: vec![0; rooms.iter().copied().max().unwrap_or(0)],
            rooms,
            ready: Ready::new(block.case),
        }
    }

    fn block(&mut self) -> u64 {
        let source = self.ready.case().source.as_bytes();
        let mut sum = 0;
        let calls = self.items.chunks(self.by).zip(self.answers.chunks_mut(self.by)).zip(&self.rooms);
        for ((items, answers), &room) in calls {
            let items = black_box(items);
            // SAFETY: the slices are valid for their lengths, a room is no longer than the buffer, and what is written through is ours alone.
            let number = unsafe {
                sys::valdrabus_read_block(
                    items.as_ptr().cast(),
                    4 * items.len(),
                    source.as_ptr(),
                    source.len(),
                    answers.as_mut_ptr().cast(),
                    4 * answers.len(),
                    self.out.as_mut_ptr(),
                    room,
                )
            };
            assert!(number == 0, "refused by {number}");
            sum += all_seen(black_box(answers), source, &self.out);
        }
        sum
    }

    fn singles(&mut self) -> u64 {
        let source = self.ready.case().source.as_bytes();
        let calls = self.items.chunks(self.by).zip(&self.rooms);
        calls.map(|(items, &room)| one_by_one(black_box(items), source, &mut self.out[..room])).sum()
    }
}

/// Single calls on the items of a block, each with the room that those before it left.
#[inline]
fn one_by_one(items: &[Four], source: &[u8], mut left: &mut [u8]) -> u64 {
    let (mut how, mut first, mut second, mut place) = (0, 0, 0, 0);
    let mut sum = 0;
    for &[kind, setting, start, end] in items {
        let (how_to, first_to, second_to, place_to) = (&raw mut how, &raw mut first, &raw mut second, &raw mut place);
        let (from, long, to, room) = (source.as_ptr(), source.len(), left.as_mut_ptr(), left.len());
        // SAFETY: source and buffer are valid for their lengths; the numbers are ours alone.
        let number = unsafe {
            sys::valdrabus_as_str_in(
                kind, 0, start, end, from, long, setting, to, room, how_to, first_to, second_to, place_to,
            )
        };
        sum += seen(number, how, first, second, source, left);
        if how == WRITTEN {
            left = &mut left[second..];
        }
    }
    sum
}

/// What is looked at of a block's answers.
#[inline]
fn all_seen(answers: &[Four], source: &[u8], out: &[u8]) -> u64 {
    let one = |&[number, how, start, length]: &Four| {
        let (start, length) = (start as usize, length as usize);
        seen(number, how, start, start + length, source, out)
    };
    answers.iter().map(one).sum()
}

/// What is looked at of an answer: the text that it shows, or the number and the length needed.
#[inline]
fn seen(number: u32, how: u32, first: usize, second: usize, source: &[u8], out: &[u8]) -> u64 {
    match how {
        BORROWED => digest(black_box(&source[first..second])),
        WRITTEN => digest(black_box(&out[first..second])),
        _ => u64::from(black_box(number)) + second as u64,
    }
}

impl Timed for ReadyBlocks {
    type Side = Side;

    fn case(&self) -> &Case {
        self.ready.case()
    }

    fn run(&mut self, side: Side) -> u64 {
        match side {
            Side::Block => self.block(),
            Side::Singles => self.singles(),
            Side::Rust => self.ready.run(asking::Side::Rust),
        }
    }

    fn agrees(&mut self) -> bool {
        let block = self.run(Side::Block);
        SIDES.into_iter().all(|(side, _)| !self.compares(side) || self.run(side) == block)
    }

    /// The Rust knows no buffer that is full.
    fn compares(&self, side: Side) -> bool {
        side != Side::Rust || self.room == Room::All
    }
}
