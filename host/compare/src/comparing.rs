//! One question asked of both, with each of several buffers.

use crate::blocks::Gathered;
use crate::dates::NO_DATE;
use crate::frames::PADDING;
use crate::lent::Lent;
use crate::question::{Asked, BORROWED, Question, Said, Told, UNREADABLE, WRITTEN, due};
use crate::rng::Rng;
use crate::tally::{Row, Tally, VALUE, outcome};
use crate::{ours, rules, rust};
use std::str::from_utf8;

/// Everything that tells a difference.
pub struct Difference {
    pub what: String,
    pub asked: Option<Asked>,
    pub source: Vec<u8>,
    pub room: usize,
    pub due: String,
    pub told: String,
    pub before: Vec<u8>,
    pub after: Vec<u8>,
}

pub type Outcome = Result<(), Box<Difference>>;

pub struct Comparing {
    pub tally: Tally,
    pub rng: Rng,
    pub lent: Lent,
    pub gathered: Gathered,
}

/// Who said what is due.
enum Judge {
    Rust,
    /// The Rust, of the literal's text alone: the source around it is not UTF-8.
    RustAlone,
    Rules,
    LeftOut,
}

impl Comparing {
    pub fn new(seed: u64) -> Comparing {
        Comparing { tally: Tally::default(), rng: Rng::new(seed), lent: Lent::new(), gathered: Gathered::default() }
    }

    /// Asks, and asks what is answered back: a day's number for its day, packed bits for their literal.
    pub fn ask(&mut self, asked: &Asked, source: &[u8]) -> Outcome {
        let said = self.answered(asked, source)?;
        match asked.question {
            Question::Date => self.date(asked, source, &said),
            Question::Packed => self.packed(&said),
            _ => Ok(()),
        }
    }

    /// The answer that is due, once ours is asked with each buffer that tells something and gives it; a string is asked once more in a block.
    pub fn answered(&mut self, asked: &Asked, source: &[u8]) -> Result<Said, Box<Difference>> {
        let (said, judge) = expected(asked, source)
            .map_err(|what| self.difference(what, asked, source, 0, String::new(), String::new()))?;
        match judge {
            Judge::Rust => self.tally.rust += 1,
            Judge::RustAlone => self.tally.alone += 1,
            Judge::Rules => self.tally.rules += 1,
            Judge::LeftOut => self.tally.left_out += 1,
        }
        if !asked.question.lends() {
            self.ask_with(asked, source, &said, 0, 0)?;
            return Ok(said);
        }
        let place = self.place(asked, source, &said)?;
        let long = self.rng.within(1, 40);
        let (rooms, count) = rooms(&said, long);
        rooms[..count].iter().try_for_each(|&room| self.ask_with(asked, source, &said, place, room))?;
        self.gather(asked, source, &said, place)?;
        Ok(said)
    }

    /// The place that is due with an answer: 0, or of a 6 what ours says, once it is held. Every buffer and the block have to give the same.
    fn place(&mut self, asked: &Asked, source: &[u8], said: &Said) -> Result<usize, Box<Difference>> {
        if !asked.question.is_placed() || !matches!(said, Said::Refused(UNREADABLE, ..)) {
            return Ok(0);
        }
        let Told { returned: UNREADABLE, place, .. } = ours::told(asked, source, &mut []) else {
            // The numbers differ, which is told behind this.
            return Ok(0);
        };
        let text = from_utf8(asked.text(source)).expect("a text that is not UTF-8 is 4");
        let elsewhere = [("", ""), self.rng.one(&PADDING)].map(|padding| place_within(asked, text, padding));
        let held = match self.tally.places.hold(asked, text, place) {
            Ok(()) if elsewhere != [place; 2] => Err("the place is another where other bytes stand around the text"),
            held => held,
        };
        held.map(|()| place).map_err(|why| {
            let told = format!("place {place}; alone and with other bytes around {elsewhere:?}");
            self.difference(why.into(), asked, source, 0, String::new(), told)
        })
    }

    fn ask_with(&mut self, asked: &Asked, source: &[u8], said: &Said, place: usize, room: usize) -> Outcome {
        let told = ours::told(asked, source, self.lent.out(room));
        let due = Told { place, ..due(asked.question, said, room) };
        if told != due {
            return Err(self.difference(
                "numbers".into(),
                asked,
                source,
                room,
                format!("{due:?}"),
                format!("{told:?}"),
            ));
        }
        let written = said.written().filter(|_| told.how == WRITTEN).unwrap_or_default();
        if !self.lent.holds_only(written, room) {
            return Err(self.difference(
                "the buffer".into(),
                asked,
                source,
                room,
                format!("{} bytes written: {}", written.len(), hex(written)),
                "see the buffer".into(),
            ));
        }
        if asked.question.lends() {
            self.view(asked, source, &told, room)?;
        }
        self.tally.count(Row::Asked(asked.question), outcome(said, room));
        Ok(())
    }

    /// Counts an answer of the date question. A day's number has to give the day back; a 6 has to be the temporal question's, which tells its place.
    fn date(&mut self, asked: &Asked, source: &[u8], said: &Said) -> Outcome {
        match *said {
            Said::Day([year, month, day, number]) => {
                let (told, due) = (ours::date_of_day(number), (0, [year, month, day]));
                if told != due {
                    let (due, told) = (format!("{due:?}"), format!("{told:?}"));
                    return Err(self.difference("date_of_day".into(), asked, source, 0, due, told));
                }
                self.tally.count(Row::Day, VALUE);
                self.tally.dates.days += 1;
            }
            Said::Refused(NO_DATE, ..) => self.tally.dates.none(asked.text(source)),
            Said::Refused(UNREADABLE, ..) => {
                return self.ask(&Asked { question: Question::Temporal, ..*asked }, source);
            }
            _ => {}
        }
        Ok(())
    }

    /// The view shows just what was answered.
    fn view(&mut self, asked: &Asked, source: &[u8], told: &Told, room: usize) -> Outcome {
        let shown = ours::view(told.how, told.first, told.second, source.len(), room);
        let due =
            if told.how == BORROWED || told.how == WRITTEN { (told.how, told.first, told.second) } else { (0, 0, 0) };
        if shown == due {
            return Ok(());
        }
        Err(self.difference("the view".into(), asked, source, room, format!("{due:?}"), format!("{shown:?}")))
    }

    fn difference(
        &mut self,
        what: String,
        asked: &Asked,
        source: &[u8],
        room: usize,
        due: String,
        told: String,
    ) -> Box<Difference> {
        let (before, after) = self.lent.both(room);
        let (before, after) = (before.to_vec(), after.to_vec());
        self.lent.refill();
        Box::new(Difference { what, asked: Some(*asked), source: source.to_vec(), room, due, told, before, after })
    }
}

/// The answer that is due: the Rust's, or where it cannot be asked document 01's. What both can say must be the same.
fn expected(asked: &Asked, source: &[u8]) -> Result<(Said, Judge), String> {
    let early = rules::refused_early(asked, source);
    if asked.question == Question::IsNull && !(1..=14).contains(&asked.kind) {
        return Ok((Said::Truth(false), Judge::Rules));
    }
    match early {
        Some(refusal @ Said::Refused(10, ..)) => return Ok((refusal, Judge::Rules)),
        // The Rust has no family for dates: other temporal kinds have a text there.
        Some(refusal @ Said::Refused(1, ..)) if asked.question == Question::Date => return Ok((refusal, Judge::Rules)),
        _ => {}
    }
    match (from_utf8(source), early) {
        (Ok(source), Some(refusal)) => {
            let said = rust::said(asked, source);
            if said == refusal {
                Ok((said, Judge::Rust))
            } else {
                Err(format!("the Rust says {said:?}, the rules {refusal:?}"))
            }
        }
        (Ok(_), None) if rules::is_left_out(asked, source) => {
            Ok((Said::Refused(5, asked.start as usize, asked.end as usize), Judge::LeftOut))
        }
        (Ok(source), None) => match rust::said(asked, source) {
            said @ Said::Refused(1..=3, ..) => Err(format!("the Rust says {said:?}, the rules nothing")),
            said => Ok((said, Judge::Rust)),
        },
        (Err(_), Some(refusal)) => Ok((refusal, Judge::Rules)),
        (Err(_), None) => Ok(of_broken(asked, source)),
    }
}

/// A source that is not UTF-8: the literal's own text may be, and then it is read as if it stood alone.
fn of_broken(asked: &Asked, source: &[u8]) -> (Said, Judge) {
    if asked.question.is_bare() {
        return (rules::of_broken(asked.question, source), Judge::Rules);
    }
    if let Some(refusal) = rules::not_utf8(asked, source) {
        return (refusal, Judge::Rules);
    }
    if !asked.question.reads() {
        return (rust::said(asked, ""), Judge::Rust);
    }
    if rules::is_left_out(asked, source) {
        return (Said::Refused(5, asked.start as usize, asked.end as usize), Judge::LeftOut);
    }
    let alone = Asked { start: 0, end: asked.end - asked.start, ..*asked };
    let text = from_utf8(asked.text(source)).expect("UTF-8");
    (rust::said(&alone, text).moved(asked.start as usize), Judge::RustAlone)
}

/// The place that ours tells of the text with these bytes around it.
fn place_within(asked: &Asked, text: &str, (before, behind): (&str, &str)) -> usize {
    let source = [before, text, behind].concat();
    let (start, end) = (before.len() as u32, (before.len() + text.len()) as u32);
    ours::told(&Asked { start, end, ..*asked }, source.as_bytes(), &mut []).place
}

/// Buffers empty, one short, exact and long where there is something to write; elsewhere empty and long.
fn rooms(said: &Said, long: usize) -> ([usize; 4], usize) {
    match said.written().map_or(0, <[u8]>::len) {
        0 => ([0, long, 0, 0], 2),
        1 => ([0, 1, 1 + long, 0], 3),
        all => ([0, all - 1, all, all + long], 4),
    }
}

pub fn hex(bytes: &[u8]) -> String {
    bytes.iter().map(|byte| format!("{byte:02X}")).collect()
}
