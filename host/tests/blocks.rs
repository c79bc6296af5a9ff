//! Blocks through the typed functions: every row of `vectors/blocks.tsv` that they can ask, single calls item by item, and what a caller sees of answers and refusals. `tests/c/blocks.c` has
//! every row of request T-03's table, by its numbers.
#![allow(clippy::cast_possible_truncation, reason = "no source here is long")]

mod common;
#[allow(dead_code)] // not all of it is asked for here
#[path = "../compare/src/rng.rs"]
mod rng;

use common::{Asked, KINDS, LENT, items, list, place, table, told, unhex, whole};
use rng::Rng;
use valdrabus::*;

fn strings<const N: usize>(spans: [(u32, u32); N]) -> [Item; N] {
    spans.map(|(start, end)| Literal::at(Kind::String, Span { start, end }).into())
}

/// Answers as no row has them, at each place another: borrowed from further on than a row's source goes.
fn stale(count: usize) -> Vec<Told> {
    const FAR: usize = 1_000;
    let source = " ".repeat(FAR) + &"'x'".repeat(count);
    let literals = (FAR..source.len()).step_by(3).map(|at| Literal::new(Kind::String, at as u32..at as u32 + 3));
    let (items, mut answers) = (literals.map(Item::from).collect::<Vec<_>>(), vec![Told::default(); count]);
    read_block(&items, &source, &mut answers, &mut []).expect("as many answers");
    answers
}

/// An item or an answer by its numbers.
type Four = [u32; 4];

/// What a call gives: its answers, and how many bytes of the buffer are used.
type Given = Result<(Vec<Four>, usize), Error>;

/// A row of the file; docs/VECTORS.md says what it holds.
struct Row {
    id: String,
    items: Vec<Item>,
    source: Vec<u8>,
    answers: usize,
    room: usize,
    due: Given,
    written: Vec<u8>,
}

/// The rows that can be asked by types: not those with an item that is short or of a kind or setting that is none, and not those with a buffer of 4 GiB, which a test of their own asks.
fn rows() -> Vec<Row> {
    table("blocks").into_iter().filter_map(row).collect()
}

/// As many answers are lent as the answer slice has whole ones. These are too few for the items just where its numbers are.
fn row(columns: Vec<String>) -> Option<Row> {
    let [id, items, source, answers, room, number, told, written, _] = columns.try_into().expect("nine columns");
    let [answers, room] = [answers, room].map(|len| len.parse::<usize>().expect("a length"));
    if room >= LONGEST_BUFFER {
        return None;
    }
    let (items, written) = (fours(&items)?.into_iter().map(item).collect::<Option<_>>()?, unhex(&written));
    let due = match number.as_str() {
        "15" => Err(Error::BadBlock),
        _ => Ok((fours(&told).expect("whole answers"), written.len())),
    };
    Some(Row { id, items, source: unhex(&source), answers: answers / 4, room, due, written })
}

/// Fours of numbers; none where one is short.
fn fours(text: &str) -> Option<Vec<Four>> {
    let numbers = |four: &str| four.split(' ').map(|number| number.parse().expect("a number")).collect::<Vec<_>>();
    let all = text.split(", ").filter(|four| *four != "-");
    all.map(|four| numbers(four).try_into().ok()).collect()
}

/// None where the numbers name no kind or no setting.
fn item([kind, setting, start, end]: Four) -> Option<Item> {
    let kind = *KINDS.get((kind as usize).checked_sub(1)?)?;
    let settings = *[Settings::STANDARD, Settings::MYSQL].get(setting as usize)?;
    Some(Item::new(Literal::at(kind, Span { start, end }), settings))
}

/// A call's answers by their numbers. Source and buffer are given by where they begin.
fn given<'s, 'b, T>(block: Result<Block<'s, 'b, T>, Error>, source: *const u8, out: *const u8) -> Given
where
    T: AsRef<[u8]> + ?Sized + 'static,
    Block<'s, 'b, T>: IntoIterator<Item = Result<Text<'s, 'b, T>, Error>>,
{
    let block = block?;
    let accepted = |how, whole, text: &T| [0, how, place(whole, text.as_ref()) as u32, text.as_ref().len() as u32];
    let four = |answer| match answer {
        Ok(Text::Borrowed(text)) => accepted(1, source, text),
        Ok(Text::Written(text)) => accepted(2, out, text),
        Err(Error::NoRoom { needed }) => [9, 0, 0, needed as u32],
        Err(error) => [error.number(), 0, error.place().unwrap_or(0) as u32, 0],
    };
    Ok((block.into_iter().map(four).collect(), block.used()))
}

impl Row {
    /// Asked in a way, it gives what is due, and nothing else is changed, neither in the slices that are lent nor behind them. But for 15, more answers change nothing.
    fn holds(&self, way: &str, ask: impl Fn(&mut [Told], &mut [u8]) -> Given) {
        let lengths = [self.answers, self.answers + 2];
        for &len in if self.due.is_ok() { &lengths[..] } else { &lengths[..1] } {
            let (lent, name) = (stale(len + 1), format!("{} {way}, {len} answers lent", self.id));
            let (mut answers, mut out) = (lent.clone(), vec![LENT; self.room + 1]);
            let given = ask(&mut answers[..len], &mut out[..self.room]);
            assert_eq!(given, self.due, "{name}");
            let told = given.map_or(0, |(fours, _)| fours.len());
            assert_eq!(answers[told..], lent[told..], "{name}");
            let rest = vec![LENT; out.len() - self.written.len()];
            assert_eq!(out, [&self.written[..], &rest].concat(), "{name}");
        }
    }
}

#[test]
fn the_rows_of_the_file() {
    let rows = rows();
    // Three have the long buffer, ten a short item, 27 a kind or setting that is none.
    assert_eq!(rows.len(), 164 - 3 - 10 - 27);
    for row in &rows {
        let (items, source) = (&row.items, &row.source);
        row.holds("in bytes", |answers, out| {
            let start = out.as_ptr();
            given(read_block_bytes(items, source, answers, out), source.as_ptr(), start)
        });
        if let Ok(text) = str::from_utf8(source) {
            row.holds("in text", |answers, out| {
                let start = out.as_ptr();
                given(read_block(items, text, answers, out), source.as_ptr(), start)
            });
        }
    }
}

#[test]
fn memory_of_its_own_gives_the_same_as_room_for_all() {
    for row in rows() {
        let (mut answers, mut out) = (stale(row.items.len()), [LENT; 64]);
        let lent = read_block_bytes(&row.items, &row.source, &mut answers, &mut out).expect("a block");
        assert_eq!(lent.used(), lent.needed(), "{}", row.id);
        let owned = to_block_bytes(&row.items, &row.source).expect("a block");
        assert!(owned.iter().eq(lent), "{}: {owned:?}", row.id);
        assert_eq!((owned.len(), owned.as_block().used()), (row.items.len(), lent.used()), "{}", row.id);
    }
}

#[test]
fn number_15_as_an_error() {
    let error = read_block(&strings([(0, 7)]), "'a' 'b'", &mut [], &mut []).unwrap_err();
    assert_eq!((error, error.number(), error.span()), (Error::BadBlock, 15, None));
    let said = "the block has fewer answers than items, or takes a buffer longer than 4294967295 bytes (number 15)";
    assert_eq!(error.to_string(), said);
}

/// Zeros that take no memory before they are written; none where the machine has no room for them.
fn zeros(len: usize) -> Option<&'static mut [u8]> {
    let layout = std::alloc::Layout::array::<u8>(len).expect("a length");
    // SAFETY: the layout has a size, and memory that is given is valid for it, zero, and never given back.
    unsafe {
        let at = std::alloc::alloc_zeroed(layout);
        (!at.is_null()).then(|| std::slice::from_raw_parts_mut(at, len))
    }
}

#[test]
fn number_15_for_a_buffer_that_is_too_long() {
    let Some(out) = zeros(LONGEST_BUFFER + 1) else {
        return eprintln!("no buffer of 4 GiB is to be had here, so none was lent");
    };
    let (items, mut answers) = (strings([(0, 7)]), stale(1));
    assert_eq!(read_block(&items, "'a' 'b'", &mut answers, out).unwrap_err(), Error::BadBlock);
    assert_eq!(read_block(&[], "", &mut [], out).unwrap_err(), Error::BadBlock);
    assert_eq!((answers, out[0]), (stale(1), 0));
    let mut answers = stale(1);
    let block =
        read_block(&items, "'a' 'b'", &mut answers, &mut out[..LONGEST_BUFFER]).expect("just as long as it may be");
    assert!(matches!(block.get(0), Some(Ok(Text::Written("ab")))));
}

/// A row of the list, one in three of another kind, setting or span, or in no source.
fn odd(rng: &mut Rng, rows: &[Asked], long: u32) -> Asked {
    let mut row = rng.one(rows);
    let place = |rng: &mut Rng| rng.below(long as usize + 2) as u32;
    match rng.below(18) {
        0 => row.literal.kind = rng.one(&KINDS),
        1 => row.settings.backslash = !row.settings.backslash,
        2 => row.literal.span.end = row.literal.span.end.saturating_sub(rng.below(9) as u32),
        3 => row.literal.span = Span { start: place(rng), end: place(rng) },
        4 => row.literal.span.end = u32::MAX - rng.below(2) as u32,
        5 => row.literal.synthetic = true,
        _ => {}
    }
    row
}

/// Each item gets the answer of a single call with the room that is left, and the buffers end alike.
fn as_singles(asked: &[Asked], source: &[u8], room: usize) {
    let (mut answers, mut out, mut due_out) = (stale(asked.len()), vec![LENT; room], vec![LENT; room]);
    let items = items(asked);
    let block = read_block_bytes(&items, source, &mut answers, &mut out).expect("a block");
    let mut used = 0;
    for (given, asked) in block.into_iter().zip(asked) {
        let due = asked.literal.in_bytes(source).as_str_in(asked.settings, &mut due_out[used..]);
        assert_eq!(told(given), told(due), "{asked:?} with {} bytes left", room - used);
        used += due.map_or(0, |text| if text.is_borrowed() { 0 } else { text.len() });
    }
    assert_eq!(block.used(), used);
    assert_eq!(out, due_out);
}

#[test]
fn each_item_as_by_a_single_call_with_the_room_left() {
    let mut rng = Rng::new(3);
    for (text, rows) in ["ward", "wholesale"].map(list) {
        let mut source = text.into_bytes();
        // Some rows are no UTF-8 then.
        for _ in 0..source.len() / 200 {
            let at = rng.below(source.len());
            source[at] ^= 0x80;
        }
        for _ in 0..400 {
            let asked: Vec<Asked> = (0..rng.within(1, 8)).map(|_| odd(&mut rng, &rows, source.len() as u32)).collect();
            let needed = to_block_bytes(&items(&asked), &source).expect("a block").as_block().needed();
            (0..=needed + 2).for_each(|room| as_singles(&asked, &source, room));
        }
    }
}

#[test]
fn a_list_as_one_block() {
    let (text, rows) = list("wholesale");
    assert_eq!(rows.len(), 4_000);
    for room in [0, 1_000, text.len()] {
        as_singles(&rows, text.as_bytes(), room);
    }
    let block = to_block(&items(&rows), &text).expect("a block");
    for (name, row) in block.iter().zip(&rows) {
        assert_eq!(name.expect("a name"), row.literal.to_str_in(&text, row.settings).expect("a name"));
    }
}

#[test]
fn a_buffer_as_long_as_all_spans_has_room() {
    let (text, rows) = list("wholesale");
    let long = |row: &Asked| (row.literal.span.end - row.literal.span.start) as usize;
    let (mut answers, mut out) = (stale(rows.len()), vec![LENT; rows.iter().map(long).sum()]);
    let items = items(&rows);
    let block = read_block(&items, &text, &mut answers, &mut out).expect("a block");
    for (name, row) in block.iter().zip(&rows) {
        assert!(name.expect("a name").len() + 2 <= long(row), "{row:?}");
    }
    assert!(block.used() > 0);
}

#[test]
fn a_string_in_no_source_is_refused_by_2_and_any_other_kind_by_1() {
    let span = Span { start: 7, end: 5 };
    let nowhere = |kind| Literal { synthetic: true, ..Literal::at(kind, span) };
    let source = "'it''s'";
    let literals = [nowhere(Kind::String), Literal::new(Kind::String, 0..7), nowhere(Kind::Date)];
    for settings in [Settings::STANDARD, Settings::MYSQL] {
        let items = literals.map(|literal| Item::new(literal, settings));
        let (mut answers, mut out) = ([Told::default(); 3], [LENT; 8]);
        let block = read_block(&items, source, &mut answers, &mut out).expect("a block");
        assert_eq!(block.get(0), Some(Err(Error::MissingSource { span })));
        assert!(matches!(block.get(1), Some(Ok(Text::Written("it's")))));
        assert_eq!(block.get(2), Some(Err(Error::WrongKind { expected: Expected::String, actual: Kind::Date })));
        for (given, literal) in block.iter().zip(literals) {
            assert_eq!(told(given), told(literal.as_str_in(source, settings, &mut [0; 8])));
        }
    }
    assert_eq!(Item::from(Literal::synthetic(Kind::Null)), Literal::new(Kind::Null, 0..0).into());
}

#[test]
fn a_wrong_kind_is_told_without_its_data() {
    let interval = Kind::Interval { fields: Some(IntervalFields::DayToSecond), precision: Some(3) };
    let time = Kind::Time { time_zone: TimeZone::WithTimeZone };
    for (kind, actual) in [(interval, KINDS[10]), (time, KINDS[8]), (Kind::Boolean(false), Kind::Boolean(false))] {
        let block = to_block(&[Literal::new(kind, 0..3).into()], "'a'").expect("a block");
        let error = block.iter().next().expect("an item").unwrap_err();
        assert_eq!(error, Error::WrongKind { expected: Expected::String, actual });
    }
}

#[test]
fn refusals_have_the_items_spans_and_their_own_lengths() {
    let items = strings([(0, 9), (9, 11), (3, 1), (0, 9), (0, 10)]);
    let (mut answers, mut out) = ([Told::default(); 5], [LENT; 3]);
    let block = read_block(&items, "'ab' 'cd''x", &mut answers, &mut out).expect("a block");
    let [full, open, backward, again, rest] = [0, 1, 2, 3, 4].map(|at| block.get(at).expect("an item").unwrap_err());
    assert_eq!([full, again], [Error::NoRoom { needed: 4 }; 2]);
    assert_eq!(open, Error::InvalidString { span: Some(Span { start: 9, end: 11 }), place: Some(0) });
    assert_eq!(backward, Error::InvalidSourceRange { span: Span { start: 3, end: 1 } });
    assert_eq!(rest, Error::InvalidString { span: Some(Span { start: 0, end: 10 }), place: Some(5) });
    assert_eq!((block.used(), block.needed()), (0, 8));
    assert_eq!(out, [LENT; 3]);
}

/// A place counts from the item's own text, wherever that stands in the source, whatever was written before it, and whatever room there is.
#[test]
fn an_item_has_the_place_of_a_single_call() {
    let source = r"('a' 'b', 'Bob's', E'\xC3', 'x' 'y' E'\400', 'd\''e')";
    let texts = ["'a' 'b'", "'Bob's'", r"E'\xC3'", r"'x' 'y' E'\400'", r"'d\''e'"];
    let literals = texts.map(|text| {
        let start = source.find(text).expect("a part") as u32;
        Literal::new(Kind::String, start..start + text.len() as u32)
    });
    for (settings, places) in [
        (Settings::STANDARD, [None, Some(4), Some(6), Some(10), None]),
        (Settings::MYSQL, [None, Some(4), Some(6), Some(10), Some(4)]),
    ] {
        let items = literals.map(|literal| Item::new(literal, settings));
        for room in 0..9 {
            let (mut answers, mut out) = ([Told::default(); 5], vec![LENT; room]);
            let block = read_block(&items, source, &mut answers, &mut out).expect("a block");
            for ((given, literal), place) in block.iter().zip(literals).zip(places) {
                assert_eq!(given.err().and_then(|error| error.place()), place, "{literal:?}");
                let in_source = place.map(|place| literal.span.start as usize + place);
                assert_eq!(given.err().and_then(|error| error.place_in_source()), in_source, "{literal:?}");
                assert!(place.is_none() || given == literal.as_str_in(source, settings, &mut []));
            }
        }
    }
}

#[test]
fn answers_from_either_end_and_from_a_place_on() {
    let items = strings([(0, 3), (3, 6), (6, 9), (9, 12)]);
    let block = to_block(&items, "'a''b''c''d'").expect("a block");
    let names = |texts: Texts| texts.map(|text| text.expect("a name").to_string()).collect::<String>();
    assert_eq!((names(block.iter()), block.iter().len()), ("abcd".to_string(), 4));
    assert!(block.iter().rev().eq([3, 2, 1, 0].map(|at| block.get(at).expect("an item"))));

    let mut texts = block.iter();
    assert!(matches!(texts.nth(1), Some(Ok(Text::Borrowed("b")))));
    assert_eq!((texts.len(), names(texts.clone())), (2, "cd".to_string()));
    assert_eq!(format!("{texts:?}"), r#"[Ok(Borrowed("c")), Ok(Borrowed("d"))]"#);
    assert_eq!((texts.nth(2), texts.next(), texts.next_back()), (None, None, None));
    assert_eq!((block.get(4), block.as_block().get(4)), (None, None));
    assert_eq!((&block).into_iter().count(), 4);
    assert_eq!(format!("{block:?}"), format!("{:?}", block.as_block()));
}

/// One literal over and over, of which only the lengths are asked for: the texts would need more than a buffer may have.
#[test]
fn number_15_for_texts_that_no_buffer_holds() {
    let source = format!("'{}' 'b'", "a".repeat(8_388_608));
    let item = Item::from(whole(Kind::String, &source));
    assert_eq!(to_block(&[item; 512], &source).unwrap_err(), Error::BadBlock);
}

#[test]
fn an_empty_block() {
    let block = to_block(&[], "'a'").expect("a block");
    assert_eq!((block.len(), block.is_empty(), block.iter().next()), (0, true, None));
    let shown = block.as_block();
    assert_eq!((shown.len(), shown.is_empty(), shown.used(), shown.needed()), (0, true, 0, 0));
    let empty_texts = to_block(&strings([(0, 5), (0, 5)]), "'' ''").expect("a block");
    assert!(empty_texts.iter().all(|text| matches!(text, Ok(Text::Written("")))));
}

#[test]
fn a_borrowed_text_outlives_all_that_is_lent() {
    let source = "'Aspirin'";
    let name = {
        let (items, mut answers, mut out) = (strings([(0, 9)]), [Told::default()], [LENT; 4]);
        let block = read_block(&items, source, &mut answers, &mut out).expect("a block");
        let Some(Ok(Text::Borrowed(name))) = block.get(0) else { panic!("{block:?}") };
        name
    };
    assert_eq!((name, name.as_ptr()), ("Aspirin", source[1..].as_ptr()));
}
