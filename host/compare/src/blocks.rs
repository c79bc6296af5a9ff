//! The block call: strings that were compared one by one are gathered, their sources one behind the other, and asked again in one call.

use crate::comparing::{Comparing, Difference, Outcome};
use crate::ours;
use crate::question::{Asked, BORROWED, NO_ROOM, Question, Said, WRITTEN};
use crate::tally::{Row, outcome};

/// How many items make a block, and how many bytes at the most before the last.
const ITEMS: usize = 64;
const BYTES: usize = 65_536;

/// Items in their source, with the answers that are due.
#[derive(Default)]
pub struct Gathered {
    source: Vec<u8>,
    items: Vec<Asked>,
    /// Each with the place that goes with it.
    said: Vec<(Said, usize)>,
}

/// What a block is to give: a four for each item, and the bytes at the buffer's start.
struct Due {
    fours: Vec<[u32; 4]>,
    written: Vec<u8>,
}

impl Comparing {
    /// Takes a string question with the answer that is due into the next block, which is asked when it is full.
    pub fn gather(&mut self, asked: &Asked, source: &[u8], said: &Said, place: usize) -> Outcome {
        if asked.question == Question::Str && asked.synthetic == 0 {
            self.gathered.add(asked, source, said, place);
        }
        if self.gathered.items.len() == ITEMS || self.gathered.source.len() >= BYTES { self.block() } else { Ok(()) }
    }

    /// Asks what is gathered, with a buffer that may be short and with one that holds all.
    pub fn block(&mut self) -> Outcome {
        let gathered = std::mem::take(&mut self.gathered);
        let all = gathered.due(usize::MAX).written.len();
        for room in [self.rng.within(0, all), all + self.rng.within(0, 40)] {
            self.block_with(&gathered, room)?;
        }
        Ok(())
    }

    fn block_with(&mut self, gathered: &Gathered, room: usize) -> Outcome {
        let due = gathered.due(room);
        let (number, told) = ours::block(&gathered.items, &gathered.source, self.lent.out(room));
        if number != 0 || told != due.fours || !self.lent.holds_only(&due.written, room) {
            return Err(self.block_difference(gathered, room, &due, number, &told));
        }
        let mut left = room;
        for ((said, _), four) in gathered.said.iter().zip(&told) {
            self.tally.count(Row::Block, outcome(said, left));
            left -= taken(four);
        }
        Ok(())
    }

    /// Tells the first item that differs; where none does, it is the buffer or the call's number.
    fn block_difference(
        &mut self,
        gathered: &Gathered,
        room: usize,
        due: &Due,
        number: u32,
        told: &[[u32; 4]],
    ) -> Box<Difference> {
        let at = due.fours.iter().zip(told).position(|(due, told)| due != told);
        let show = |fours: &[[u32; 4]]| at.map_or_else(String::new, |at| format!("{:?}", fours[at]));
        let what = match at {
            Some(at) => format!("read_block, item {at} of {}: {:?}", gathered.items.len(), gathered.items[at]),
            None => format!("read_block of {} items, the number or the buffer", gathered.items.len()),
        };
        let (before, after) = self.lent.both(room);
        let (before, after) = (before.to_vec(), after.to_vec());
        self.lent.refill();
        let (due, told) = (format!("0 {}", show(&due.fours)), format!("{number} {}", show(told)));
        Box::new(Difference { what, asked: None, source: gathered.source.clone(), room, due, told, before, after })
    }
}

impl Gathered {
    /// A span that leaves its source could fit the common one, so it is left out, unless it is not looked at. A blank behind each source keeps the next one's first byte from its literal.
    fn add(&mut self, asked: &Asked, source: &[u8], said: &Said, place: usize) {
        let by = self.source.len();
        let moved = |place: u32| u32::try_from(place as usize + by).ok();
        let (Some(start), Some(end)) = (moved(asked.start), moved(asked.end)) else { return };
        if asked.end as usize <= source.len() || matches!(said, Said::Refused(1 | 10, ..)) {
            self.items.push(Asked { start, end, ..*asked });
            self.said.push((said.clone().moved(by), place));
            self.source.extend_from_slice(source);
            self.source.push(b' ');
        }
    }

    /// "Each item gets the answer of a single call with the room still left."
    fn due(&self, room: usize) -> Due {
        let mut due = Due { fours: Vec::new(), written: Vec::new() };
        for (said, place) in &self.said {
            let used = due.written.len();
            due.fours.push(match said {
                Said::Borrowed(first, second) => [0, BORROWED, *first as u32, (second - first) as u32],
                Said::Written(text) if text.len() <= room - used => {
                    due.written.extend_from_slice(text);
                    [0, WRITTEN, used as u32, text.len() as u32]
                }
                Said::Written(text) => [NO_ROOM, 0, 0, text.len() as u32],
                Said::Refused(number, ..) => [*number, 0, *place as u32, 0],
                other => unreachable!("a string is a text or refused, not {other:?}"),
            });
        }
        due
    }
}

fn taken(four: &[u32; 4]) -> usize {
    if four[1] == WRITTEN { four[3] as usize } else { 0 }
}
