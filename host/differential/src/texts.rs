//! Every call over a text: verdict, image, tables, statements, starting values, start.

use crate::guard::Guarded;
use generate::Random;
use reference::text::{Library, Placed};
use wrapper::layout::TABLE_WORDS;
use wrapper::machine::{lent, NotStarted, STATE_WORDS};
use wrapper::{Fault, NotCompiled, NotFound, NotPrinted, NotWritten};

/// What the second implementation says of a text.
struct Expected {
    reading: Result<Library, Fault>,
    image: Vec<u8>,
    tables: Vec<u8>,
}

fn expected(text: &[u8]) -> Expected {
    let fault = |f: reference::Fault| Fault { number: f.number, line: f.line };
    Expected {
        reading: reference::read(text).map_err(fault),
        image: reference::image::image(text).unwrap_or_default(),
        tables: reference::image::tables(text).into_bytes(),
    }
}

/// Bytes that are no image's and no table's.
fn rubbish(random: &mut Random, size: usize) -> Vec<u8> {
    (0..size).map(|_| 0x80 | random.next() as u8).collect()
}

/// Sizes around a length: any shorter one, one short, exact, and longer.
fn sizes(random: &mut Random, length: usize) -> Vec<usize> {
    let mut sizes = vec![random.below(length), length.saturating_sub(1), length, length + 1 + random.below(300)];
    sizes.sort_unstable();
    sizes.dedup();
    sizes
}

fn compile(text: &[u8], expected: &Expected, random: &mut Random) {
    for size in sizes(random, expected.image.len()) {
        let before = rubbish(random, size);
        let mut buffer = Guarded::new(&before, 0xa5);
        let answer = wrapper::compile(text, buffer.lent());
        let mut after = before.clone();
        let right = match &expected.reading {
            Err(fault) => Err(NotCompiled::Text(*fault)),
            Ok(_) if size < expected.image.len() => Err(NotCompiled::ShortBuffer),
            Ok(_) => {
                after[..expected.image.len()].copy_from_slice(&expected.image);
                Ok(expected.image.len())
            }
        };
        assert_eq!(answer, right, "compile into {size} bytes");
        assert!(buffer.contents() == after, "the buffer of {size} bytes after compile");
    }
}

fn tables(text: &[u8], expected: &Expected, random: &mut Random) {
    for size in sizes(random, expected.tables.len()) {
        let before = rubbish(random, size);
        let mut out = Guarded::new(&before, 0xa5);
        let answer = wrapper::print_tables(text, out.lent());
        let length = expected.tables.len();
        let mut after = before.clone();
        if length <= size {
            after[..length].copy_from_slice(&expected.tables);
        }
        let right = if length <= size { Ok(length) } else { Err(NotPrinted) };
        assert_eq!(answer, right, "what is printed into {size} bytes");
        assert!(out.contents() == after, "the buffer of {size} bytes after printing");
    }
}

/// One statement, or none, at its own place in the text.
fn statement(text: &[u8], statements: &Result<Vec<&Placed>, Fault>, count: u32) {
    let placed = match statements {
        Err(fault) => Err(NotFound::Text(*fault)),
        Ok(statements) => statements.get(count as usize).map(|s| (s.at, s.size)).ok_or(NotFound::CountTooHigh),
    };
    let part = wrapper::statement(text, count);
    assert_eq!(wrapper::statement_fault(text, count), placed.map(|_| ()), "the number of statement {count}");
    match placed {
        Ok((at, size)) => assert_eq!((part.as_ptr() as usize - text.as_ptr() as usize, part.len()), (at, size), "statement {count}"),
        Err(_) => assert_eq!((part.as_ptr(), part.len()), (text.as_ptr(), 0), "statement {count} is refused and handed back"),
    }
}

/// Every statement of a text, one past the last, and counts far past it.
fn statements(text: &[u8], expected: &Expected) {
    let statements = expected.reading.as_ref().map(Library::statements).map_err(|fault| *fault);
    let many = statements.as_ref().map_or(0, |all| all.len() as u32);
    for count in (0..=many + 1).chain([65_536, u32::MAX]) {
        statement(text, &statements, count);
    }
}

fn starting_values(text: &[u8], expected: &Expected, random: &mut Random) {
    let right = expected.reading.as_ref().map(Library::starting_values).unwrap_or_default();
    for count in sizes(random, right.len()) {
        let before: Vec<u32> = (0..count).map(|_| random.next() as u32).collect();
        let mut values = Guarded::new(&before, 0xa5a5_a5a5);
        let answer = wrapper::starting_values(text, values.lent());
        let (told, after) = match &expected.reading {
            Err(fault) => (Err(NotWritten::Text(*fault)), &before),
            Ok(_) if count != right.len() => (Err(NotWritten::OtherCount), &before),
            Ok(_) => (Ok(()), &right),
        };
        assert_eq!(answer, told, "starting values into a list of {count}");
        assert!(values.contents() == after.as_slice(), "the list of {count} after starting values");
    }
}

/// A start in a state of this size on so many values. What it leaves in the state is looked at call by call elsewhere.
fn start_on(text: &[u8], expected: &Expected, count: usize, size: usize, random: &mut Random) {
    let right = expected.reading.as_ref().map(|l| l.starting_values().len());
    let values: Vec<u32> = (0..count).map(|_| random.next() as u32).collect();
    let before: Vec<u32> = (0..size as u32).map(|k| k.wrapping_mul(0x9e37_79b9)).collect();
    let (lent_values, mut state) = (Guarded::new(&values, 0xa5a5_a5a5), Guarded::new(&before, 0xa5a5_a5a5));
    let answer = lent::start(text, lent_values.contents(), state.lent());
    let told = match right {
        Err(fault) => Err(NotStarted::Text(*fault)),
        Ok(_) if size < STATE_WORDS => Err(NotStarted::ShortState),
        Ok(right) if count != right => Err(NotStarted::OtherCount),
        Ok(_) => Ok(()),
    };
    assert_eq!(answer, told, "a start on {count} values in {size} words");
    let kept = if told.is_ok() { STATE_WORDS } else { 0 };
    assert!(state.contents()[kept..] == before[kept..], "the state of {size} words after a start on {count} values");
    assert!(lent_values.contents() == values, "a start altered the values");
}

fn start(text: &[u8], expected: &Expected, random: &mut Random) {
    let count = expected.reading.as_ref().map_or(0, |l| l.starting_values().len());
    start_on(text, expected, count, STATE_WORDS + random.below(9), random);
    start_on(text, expected, count + 1 + random.below(3), STATE_WORDS, random);
    start_on(text, expected, random.below(count), STATE_WORDS, random);
    start_on(text, expected, count + random.below(2), *random.pick(&[0, 1, TABLE_WORDS, STATE_WORDS - 1]), random);
}

/// Compares every call on a text. Gives the number of the verdict.
pub fn compare(text: &[u8], random: &mut Random) -> u32 {
    // A text in memory of exactly its size: reading past it is seen by valgrind.
    let text: &[u8] = &text.to_vec().into_boxed_slice();
    let before = text.to_vec();
    let expected = expected(text);
    assert_eq!(wrapper::check(text), expected.reading.as_ref().map(|_| ()).map_err(|f| *f), "the verdict");
    compile(text, &expected, random);
    tables(text, &expected, random);
    statements(text, &expected);
    starting_values(text, &expected, random);
    start(text, &expected, random);
    assert!(text == before, "a call altered the text");
    expected.reading.err().map_or(0, |fault| fault.number)
}

/// The same, with the text in the message where something differs.
pub fn compare_named(name: &str, text: &[u8], random: &mut Random) -> u32 {
    let compared = std::panic::catch_unwind(std::panic::AssertUnwindSafe(|| compare(text, random)));
    compared.unwrap_or_else(|_| panic!("{name} differs, {} bytes:\n{}", text.len(), String::from_utf8_lossy(text)))
}
