//! The proved library for Rust programs. Slices meet what `host/include/cishmolaq.h` needs (no null, aligned, set, nothing
//! written that is lent twice), so each function is safe; the types say which numbers each can give.

/// The longest text, in bytes.
pub const LONGEST_TEXT: usize = 32_768;
/// No text has a longer image, prints more, or has more values.
pub const LONGEST_IMAGE: usize = 40_992;
pub const LONGEST_TABLES: usize = 51_200;
pub const MOST_VALUES: usize = layout::VALUES;

pub mod layout;
pub mod machine;

/// The functions of the archive, as the header declares them.
mod entries {
    extern "C" {
        pub fn cishmolaq_check(text: *const u8, text_length: usize, line: *mut usize) -> u32;
        pub fn cishmolaq_compile(text: *const u8, text_length: usize, image: *mut u8, image_length: usize, detail: *mut usize) -> u32;
        pub fn cishmolaq_statement(text: *const u8, text_length: usize, count: u32, size: *mut usize) -> usize;
        pub fn cishmolaq_statement_fault(text: *const u8, text_length: usize, count: u32, line: *mut usize) -> u32;
        pub fn cishmolaq_starting_values(
            text: *const u8, text_length: usize, values: *mut u32, value_count: usize, line: *mut usize,
        ) -> u32;
        pub fn cishmolaq_print_tables(
            text: *const u8, text_length: usize, out: *mut u8, out_length: usize, detail: *mut usize,
        ) -> u32;
        pub fn cishmolaq_start(
            text: *const u8, text_length: usize, values: *const u32, value_count: usize, state: *mut u32,
            state_words: usize, line: *mut usize,
        ) -> u32;
        pub fn cishmolaq_send(
            text: *const u8, text_length: usize, state: *mut u32, state_words: usize, values: *const u32,
            value_count: usize, slot: u32, kind: u32, named: u32, method: u32, argument: u32, detail: *mut u32,
        ) -> u32;
        pub fn cishmolaq_step(
            text: *const u8, text_length: usize, state: *mut u32, state_words: usize, values: *mut u32, value_count: usize,
            slot: u32, detail: *mut u32,
        ) -> u32;
        pub fn cishmolaq_commit(
            text: *const u8, text_length: usize, state: *mut u32, state_words: usize, values: *const u32,
            value_count: usize, slot: u32, detail: *mut u32,
        ) -> u32;
        pub fn cishmolaq_abort(
            text: *const u8, text_length: usize, state: *mut u32, state_words: usize, values: *mut u32, value_count: usize,
            slot: u32, detail: *mut u32,
        ) -> u32;
    }
}

/// The fault of a text: its number, 11 to 17, and its line.
#[derive(Clone, Copy, Debug, PartialEq, Eq)]
pub struct Fault {
    pub number: u32,
    pub line: usize,
}

/// Why a text was not compiled.
#[derive(Clone, Copy, Debug, PartialEq, Eq)]
pub enum NotCompiled {
    Text(Fault),
    /// 21: the buffer is shorter than the image.
    ShortBuffer,
}

/// 21: the buffer is shorter than what is printed.
#[derive(Clone, Copy, Debug, PartialEq, Eq)]
pub struct NotPrinted;

/// Why a statement was not found.
#[derive(Clone, Copy, Debug, PartialEq, Eq)]
pub enum NotFound {
    Text(Fault),
    /// 23: the text has no statement with this count.
    CountTooHigh,
}

/// Why the starting values were not written.
#[derive(Clone, Copy, Debug, PartialEq, Eq)]
pub enum NotWritten {
    Text(Fault),
    /// 22: the list has another count than the fields.
    OtherCount,
}

impl Fault {
    /// The fault that a number with a line names; any other number is not in the header.
    fn named(number: u32, line: usize) -> Fault {
        assert!((11..=17).contains(&number), "number {number} is not in the header");
        Fault { number, line }
    }
}

/// The verdict on a text.
pub fn check(text: &[u8]) -> Result<(), Fault> {
    let mut line = 0;
    match unsafe { entries::cishmolaq_check(text.as_ptr(), text.len(), &mut line) } {
        0 => Ok(()),
        number => Err(Fault::named(number, line)),
    }
}

/// Writes the image of a text into the front of the buffer, and answers its length.
pub fn compile(text: &[u8], image: &mut [u8]) -> Result<usize, NotCompiled> {
    let mut detail = 0;
    match unsafe { entries::cishmolaq_compile(text.as_ptr(), text.len(), image.as_mut_ptr(), image.len(), &mut detail) } {
        0 => Ok(detail),
        21 => Err(NotCompiled::ShortBuffer),
        number => Err(NotCompiled::Text(Fault::named(number, detail))),
    }
}

/// The statement with this count, a part of the text; empty where `statement_fault` gives a refusal.
pub fn statement(text: &[u8], count: u32) -> &[u8] {
    let mut size = 0;
    let place = unsafe { entries::cishmolaq_statement(text.as_ptr(), text.len(), count, &mut size) };
    &text[place..place + size]
}

/// Whether the text has a statement with this count.
pub fn statement_fault(text: &[u8], count: u32) -> Result<(), NotFound> {
    let mut line = 0;
    match unsafe { entries::cishmolaq_statement_fault(text.as_ptr(), text.len(), count, &mut line) } {
        0 => Ok(()),
        23 => Err(NotFound::CountTooHigh),
        number => Err(NotFound::Text(Fault::named(number, line))),
    }
}

/// Writes the text's starting values, object by object.
pub fn starting_values(text: &[u8], values: &mut [u32]) -> Result<(), NotWritten> {
    let mut line = 0;
    match unsafe { entries::cishmolaq_starting_values(text.as_ptr(), text.len(), values.as_mut_ptr(), values.len(), &mut line) } {
        0 => Ok(()),
        22 => Err(NotWritten::OtherCount),
        number => Err(NotWritten::Text(Fault::named(number, line))),
    }
}

/// Writes what `tables` prints for a text, and answers its length.
pub fn print_tables(text: &[u8], out: &mut [u8]) -> Result<usize, NotPrinted> {
    let mut detail = usize::MAX;
    match unsafe { entries::cishmolaq_print_tables(text.as_ptr(), text.len(), out.as_mut_ptr(), out.len(), &mut detail) } {
        0 => Ok(detail),
        21 if detail == 0 => Err(NotPrinted),
        number => panic!("number {number} with {detail} is not in the header"),
    }
}
