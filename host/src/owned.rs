//! Answers with memory of their own: what an answer that is no part of the source takes, and when it is asked for again.

use crate::errors::Error;
use crate::literal::Literal;
use crate::room;
use crate::said::{Said, Stands};
use crate::source::Source;
use crate::texts::Text;
use std::borrow::{Borrow, Cow};
use std::ops::Range;

/// Product names and numbers fit, so that most written answers take one call: no string of up to two bytes more is ever asked twice.
const SMALL: usize = 128;

/// Asks with a small buffer, and once more with the length needed where that is too short. That is no more than the room that always serves, and is written then.
pub(crate) fn cow<'s, S: Source + ?Sized>(
    literal: Option<&Literal>,
    source: &'s S,
    most: usize,
    ask: impl Fn(&mut [u8]) -> Said,
) -> Result<Cow<'s, S>, Error> {
    let mut small = [0; SMALL];
    match ask(&mut small).text(literal, source, &small) {
        Err(Error::NoRoom { needed }) => again(literal, source, vec![0; within(needed, most)?], ask),
        answer => answer.map(Text::into_cow),
    }
}

const fn within(needed: usize, most: usize) -> Result<usize, Error> {
    if needed <= most { Ok(needed) } else { Err(Error::BadNumber) }
}

/// The answer that needed a longer buffer, in that buffer's own memory where it is written there.
fn again<'s, S: Source + ?Sized>(
    literal: Option<&Literal>,
    source: &'s S,
    mut buffer: Vec<u8>,
    ask: impl Fn(&mut [u8]) -> Said,
) -> Result<Cow<'s, S>, Error> {
    let answer = match ask(&mut buffer).stands(literal)? {
        Stands::InSource(range) => source.part(range).map(Cow::Borrowed),
        Stands::InBuffer(range) => keep(&mut buffer, range).and_then(|()| S::owned(buffer)).map(Cow::Owned),
    };
    answer.ok_or(Error::BadNumber)
}

/// Leaves a range of the bytes; none, and all of them, where it does not fit.
fn keep(bytes: &mut Vec<u8>, range: Range<usize>) -> Option<()> {
    bytes.get(range.clone())?;
    bytes.truncate(range.end);
    bytes.drain(..range.start);
    Some(())
}

/// Puts a string's value in place of what a text of the caller's holds, into the memory that it has where that suffices. On a refusal the text is as before.
pub(crate) fn replace<'b, S: Source + ?Sized>(
    literal: &Literal,
    source: &S,
    into: &'b mut S::Owned,
    ask: impl Fn(&mut [u8]) -> Said,
) -> Result<&'b S, Error> {
    let mut bytes = S::taken(into);
    let held = bytes.len();
    let answer = fill(literal, source, &mut bytes, ask);
    if answer.is_err() {
        // A refusal changes no byte that is lent, so what the text held still stands at the start.
        bytes.truncate(held);
    }
    *into = S::owned(bytes).ok_or(Error::BadNumber)?;
    answer.map(|()| (*into).borrow())
}

/// Asks with the room that there is, and once more with the length needed where that is too short.
fn fill<S: Source + ?Sized>(
    literal: &Literal,
    source: &S,
    bytes: &mut Vec<u8>,
    ask: impl Fn(&mut [u8]) -> Said,
) -> Result<(), Error> {
    let most = room::string(literal);
    let at_hand = most.min(bytes.capacity());
    let stands = match lend(bytes, at_hand, &ask).stands(Some(literal)) {
        Err(Error::NoRoom { needed }) => lend(bytes, within(needed, most)?, &ask).stands(Some(literal)),
        stands => stands,
    }?;
    let filled = match stands {
        Stands::InSource(range) => source.part(range).map(|part| {
            bytes.clear();
            bytes.extend_from_slice(part.bytes());
        }),
        Stands::InBuffer(range) => keep(bytes, range),
    };
    filled.ok_or(Error::BadNumber)
}

/// Asks with the first bytes, made longer only where there are fewer.
fn lend(bytes: &mut Vec<u8>, room: usize, ask: impl Fn(&mut [u8]) -> Said) -> Said {
    if bytes.len() < room {
        bytes.resize(room, 0);
    }
    ask(&mut bytes[..room])
}

#[cfg(test)]
mod tests {
    use super::*;
    use crate::kinds::Kind;
    use crate::said::{BORROWED, WRITTEN};
    use std::cell::Cell;

    const SOURCE: &str = "'0123456789'";

    fn literal() -> Literal {
        Literal::whole(Kind::String, SOURCE).expect("a short text")
    }

    fn no_room(needed: usize) -> Said {
        Said { number: 9, second: needed, ..Said::default() }
    }

    fn accepted(how: u32, range: Range<usize>) -> Said {
        Said { how, first: range.start, second: range.end, ..Said::default() }
    }

    /// A question that first says how much it needs, then writes x all over the buffer and says something else, and how often it was asked.
    fn twice(needed: usize, then: fn() -> Said, run: impl FnOnce(&dyn Fn(&mut [u8]) -> Said)) -> usize {
        let asked = Cell::new(0);
        run(&|out| {
            asked.set(asked.get() + 1);
            if asked.get() == 1 {
                return no_room(needed);
            }
            out.fill(b'x');
            then()
        });
        asked.get()
    }

    fn cow_of(needed: usize, then: fn() -> Said) -> (Result<Cow<'static, str>, Error>, usize) {
        let mut answer = Err(Error::BadNumber);
        let asked = twice(needed, then, |ask| answer = cow(Some(&literal()), SOURCE, room::string(&literal()), ask));
        (answer, asked)
    }

    /// How a second answer stands is asked, and not taken for granted.
    #[test]
    fn a_second_answer_is_looked_at() {
        let (answer, asked) = cow_of(9, || accepted(WRITTEN, 0..9));
        assert!(matches!(answer, Ok(Cow::Owned(text)) if text == "xxxxxxxxx" && asked == 2));
        assert!(matches!(cow_of(9, || accepted(WRITTEN, 2..4)), (Ok(Cow::Owned(text)), 2) if text == "xx"));
        assert!(matches!(cow_of(9, || accepted(BORROWED, 1..4)), (Ok(Cow::Borrowed("012")), 2)));
        for odd in [
            || accepted(0, 0..9),
            || accepted(3, 0..9),
            || accepted(WRITTEN, 0..10),
            || accepted(WRITTEN, Range { start: 3, end: 2 }),
            || accepted(BORROWED, 0..13),
        ] {
            assert_eq!(cow_of(9, odd), (Err(Error::BadNumber), 2));
        }
    }

    #[test]
    fn a_string_is_never_asked_a_third_time_nor_given_more_than_its_text() {
        assert_eq!(room::string(&literal()), 10);
        assert_eq!(cow_of(10, || no_room(10)), (Err(Error::NoRoom { needed: 10 }), 2));
        assert_eq!(cow_of(11, || accepted(WRITTEN, 0..11)), (Err(Error::BadNumber), 1));
        assert_eq!(cow_of(usize::MAX, || accepted(WRITTEN, 0..1)), (Err(Error::BadNumber), 1));
    }

    #[test]
    fn a_text_used_again_looks_at_its_second_answer_too() {
        let fills = |then: fn() -> Said| {
            let (mut text, mut answer) = ("held".to_owned(), Ok(String::new()));
            let asked = twice(9, then, |ask| answer = replace(&literal(), SOURCE, &mut text, ask).map(str::to_owned));
            (answer, text, asked)
        };
        let both = |text: &str| (Ok(text.to_owned()), text.to_owned(), 2);
        assert_eq!(fills(|| accepted(WRITTEN, 0..9)), both("xxxxxxxxx"));
        assert_eq!(fills(|| accepted(WRITTEN, 1..3)), both("xx"));
        assert_eq!(fills(|| accepted(BORROWED, 1..4)), both("012"));
        assert!(matches!(fills(|| accepted(WRITTEN, 0..10)), (Err(Error::BadNumber), _, 2)));
    }
}
