//! What allocates and what does not, by an allocator that counts.

mod common;

use common::{Asked, items, list};
use std::alloc::{GlobalAlloc, Layout, System};
use std::borrow::Cow;
use std::cell::Cell;
use valdrabus::*;

/// The system's allocator, with a count for each thread: a test has a thread of its own, and others run beside it.
struct Counting;

thread_local! {
    static COUNT: Cell<usize> = const { Cell::new(0) };
}

// SAFETY: all is handed on as it comes, and the count itself takes no memory. Memory that is asked for zeroed, or longer than before, comes from `alloc` too, by the trait's own functions.
unsafe impl GlobalAlloc for Counting {
    unsafe fn alloc(&self, layout: Layout) -> *mut u8 {
        COUNT.set(COUNT.get() + 1);
        // SAFETY: the caller's word.
        unsafe { System.alloc(layout) }
    }

    unsafe fn dealloc(&self, at: *mut u8, layout: Layout) {
        // SAFETY: the caller's word.
        unsafe { System.dealloc(at, layout) }
    }
}

#[global_allocator]
static COUNTING: Counting = Counting;

/// What a run tells, and how many allocations it makes.
fn counted<T>(run: impl FnOnce() -> T) -> (T, usize) {
    let before = COUNT.get();
    let told = run();
    (told, COUNT.get() - before)
}

/// The list, its rows, and how many bytes their names have together.
fn wholesale() -> (String, Vec<Asked>, usize) {
    let (text, rows) = list("wholesale");
    let block = to_block(&items(&rows), &text).expect("a block");
    let long = block.iter().map(|name| name.expect("a name").len()).sum();
    (text, rows, long)
}

#[test]
fn what_to_block_allocates_is_seen() {
    let (text, rows) = list("wholesale");
    let items = items(&rows);
    let (block, made) = counted(|| to_block(&items, &text).expect("a block"));
    assert_eq!((block.len(), made), (4_000, 3), "items, answers and buffer");
}

#[test]
fn a_block_and_its_answers_allocate_nothing() {
    let (text, rows, long) = wholesale();
    let (items, mut answers, mut out) = (items(&rows), vec![Told::default(); rows.len()], vec![0; text.len()]);
    let (in_text, made) = counted(|| {
        let block = read_block(&items, &text, &mut answers, &mut out).expect("a block");
        block.iter().flatten().map(|name| name.len()).sum::<usize>()
    });
    assert_eq!((in_text, made), (long, 0));
    let (in_bytes, made) = counted(|| {
        let block = read_block_bytes(&items, text.as_bytes(), &mut answers, &mut out).expect("a block");
        block.iter().flatten().map(|name| name.len()).sum::<usize>()
    });
    assert_eq!((in_bytes, made), (long, 0));
}

#[test]
fn refusals_allocate_nothing() {
    let (text, rows, _) = wholesale();
    let (items, mut answers) = (items(&rows), vec![Told::default(); rows.len()]);
    let (refused, made) = counted(|| {
        let block = read_block(&items, &text, &mut answers, &mut []).expect("a block");
        block.iter().filter(|name| matches!(name, Err(Error::NoRoom { .. }))).count()
    });
    assert!(refused > 0);
    assert_eq!(made, 0);
}

/// Neither a place nor a position takes memory; what is shown goes where it is written.
#[test]
fn places_allocate_nothing() {
    let (text, rows, _) = wholesale();
    // A name without its last byte is cut short; few can be read then.
    let cut = |row: &Asked| Item::from(Literal::new(Kind::String, row.literal.span.start..row.literal.span.end - 1));
    let items: Vec<Item> = rows.iter().map(cut).collect();
    let (mut answers, mut out) = (vec![Told::default(); rows.len()], vec![0; text.len()]);
    let (placed, made) = counted(|| {
        let block = read_block(&items, &text, &mut answers, &mut out).expect("a block");
        let errors = block.iter().filter_map(Result::err);
        errors.filter(|error| error.place_in_source().is_some_and(|at| at < text.len())).count()
    });
    assert!(placed > 3_000, "{placed}");
    assert_eq!(made, 0);
    let error = Literal::new(Kind::String, 1..6).as_str("\n'a'b'", &mut []).unwrap_err();
    let (position, made) = counted(|| (error.position("\n'a'b'"), std::hint::black_box(error.in_source("\n'a'b'"))).0);
    assert_eq!((position.is_some(), made), (true, 0));
}

/// Neither days nor their refusals, nor what is made of texts and numbers.
#[test]
fn dates_allocate_nothing() {
    let source = "DATE '2027-01-31' DATE '2027-' '02-28' DATE '2027-02-29' DATE 'a'b'";
    let literals = [0..17, 18..38, 39..56, 57..67].map(|span| Literal::new(Kind::Date, span));
    let (days, made) = counted(|| literals.map(|literal| literal.as_date(source).map_err(|error| error.number())));
    assert_eq!(days.map(|day| day.map(Date::day_number)), [Ok(740_012), Ok(740_040), Err(14), Err(6)]);
    assert_eq!(made, 0);
    let (days, made) = counted(|| {
        let parsed = ["2027-01-31", "2027-02-29"].map(|text| text.parse().ok());
        [Date::new(2027, 1, 31), Date::new(2027, 2, 29), Date::from_day_number(740_012), parsed[0], parsed[1]]
    });
    assert_eq!(days.map(|day| day.is_some()), [true, false, true, true, false]);
    assert_eq!(made, 0);
}

/// Neither packed bits nor what is written of them, nor their refusals; with memory of their own, the bytes or the text alone.
#[test]
fn packed_bits_allocate_nothing() {
    let (binary, mut out) = (Kind::BitString { radix: BitStringRadix::Binary }, [0; 16]);
    let literals = ["B'1000001'", "B'100' '0001'", "B'2'"].map(|text| (Literal::whole(binary, text).unwrap(), text));
    let (bits, made) = counted(|| {
        literals
            .map(|(literal, text)| literal.as_packed_bits(text, &mut out).map(Packed::bits).map_err(|why| why.number()))
    });
    assert_eq!((bits, made), ([Ok(7), Ok(7), Err(7)], 0));
    let radix = BitStringRadix::Binary;
    let (texts, made) = counted(|| [7, 6].map(|bits| write_bit_literal([0x82], bits, radix, &mut out).map(str::len)));
    assert_eq!((texts, made), ([Ok(10), Err(Error::BadBits)], 0));
    let (owned, made) = counted(|| literals[0].0.to_packed_bits(literals[0].1));
    assert_eq!((owned, made), (Ok((vec![0x82], 7)), 1));
    let (owned, made) = counted(|| to_bit_literal([0x82], 7, radix));
    assert_eq!((owned.as_deref(), made), (Ok("B'1000001'"), 1));
}

/// A plain literal of any length allocates nothing; a written one its value, once and no longer than it is. One of up to 128 bytes comes out of a buffer on the stack.
#[test]
fn owned_strings_allocate_what_they_hold() {
    for long in [0, 1, 127, 128, 129, 130, 131, 5_000] {
        let (plain, written) = ("x".repeat(long), "x".repeat(long) + "'");
        let (source, quoted) = (format!("'{plain}'"), format!("'{plain}'''"));
        let literals = [&source, &quoted].map(|text| Literal::whole(Kind::String, text).expect("a short text"));
        let (borrowed, made) = counted(|| literals[0].to_str(&source));
        assert!(matches!(borrowed, Ok(Cow::Borrowed(text)) if text == plain && made == 0), "{long} bytes");
        for settings in [Settings::STANDARD, Settings::MYSQL] {
            let (value, made) = counted(|| literals[1].to_str_in(&quoted, settings).map(Cow::into_owned));
            assert_eq!((value.as_deref(), made), (Ok(&*written), 1), "{long} bytes");
            assert_eq!(value.map(|value| value.capacity()), Ok(long + 1), "{long} bytes");
        }
        let (bytes, made) = counted(|| literals[1].in_bytes(quoted.as_bytes()).to_str().map(Cow::into_owned));
        assert_eq!((bytes.as_deref(), made), (Ok(written.as_bytes()), 1), "{long} bytes");
    }
}

/// One `String` for all names of a list grows to the longest of them, and not again.
#[test]
fn a_string_used_again_allocates_no_more_than_it_grows() {
    let (text, rows, long) = wholesale();
    let name_len = |name: &mut String| {
        rows.iter().map(|row| row.literal.read_str_in(&text, row.settings, name).expect("a name").len()).sum::<usize>()
    };
    let mut name = String::new();
    let (one_by_one, made) = counted(|| name_len(&mut name));
    assert!(one_by_one == long && (1..=8).contains(&made), "{made} allocations");
    assert_eq!(counted(|| name_len(&mut name)), (long, 0));
}

/// What the capacity holds is not allocated for, though the text is longer than the capacity; nor is a refusal.
#[test]
fn a_capacity_that_holds_the_value_suffices() {
    let source = r"E'\u0041\u0042\u0043' 'Balm' 'Balm";
    let [escaped, plain, unended] = [0..21, 22..28, 29..34].map(|span| Literal::new(Kind::String, span));
    let mut name = String::with_capacity(4);
    assert_eq!(name.capacity(), 4);
    assert_eq!(counted(|| escaped.read_str(source, &mut name).map(str::len)), (Ok(3), 0));
    assert_eq!(counted(|| plain.read_str(source, &mut name).map(str::len)), (Ok(4), 0));
    assert_eq!(counted(|| unended.read_str(source, &mut name).map_err(|why| why.number())), (Err(6), 0));
    assert_eq!((&*name, name.capacity()), ("Balm", 4));
}

#[test]
fn single_calls_allocate_nothing() {
    let (text, rows, long) = wholesale();
    let mut out = [0; 256];
    let mut name_len = |row: &Asked| row.literal.as_str_in(&text, row.settings, &mut out).expect("a name").len();
    let (one_by_one, made) = counted(|| rows.iter().map(&mut name_len).sum::<usize>());
    assert_eq!((one_by_one, made), (long, 0));
}
