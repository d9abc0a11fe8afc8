//! A rehearsal as it goes prints what the whole one does, whatever the parts of its input.

use reference::rehearsal::{rehearse, rehearsed};
use reference::stored::{bytes, bytes_if_any, numbers};
use std::io::{Read, Result};

/// An input that is read in parts of the sizes named, then in parts of the last size.
struct Parts<'a> {
    left: &'a [u8],
    sizes: Vec<usize>,
}

impl Read for Parts<'_> {
    fn read(&mut self, into: &mut [u8]) -> Result<usize> {
        let size = if self.sizes.len() > 1 { self.sizes.remove(0) } else { self.sizes[0] };
        let size = size.min(self.left.len()).min(into.len());
        into[..size].copy_from_slice(&self.left[..size]);
        self.left = &self.left[size..];
        Ok(size)
    }
}

fn in_parts(text: &[u8], calls: &[u8], sizes: Vec<usize>) -> String {
    let mut out = Vec::new();
    rehearse(text, Parts { left: calls, sizes }, &mut out).unwrap();
    String::from_utf8(out).unwrap()
}

#[test]
fn parts() {
    for n in numbers("calls") {
        let (text, calls) = (bytes_if_any(n, "txt").unwrap_or_default(), bytes(n, "calls"));
        let whole = rehearsed(&text, &calls);
        for size in [1, 7, usize::MAX] {
            assert_eq!(in_parts(&text, &calls, vec![size]), whole, "rehearsal {n} in parts of {size} bytes");
        }
        let cuts = if calls.len() < 200 { 1..calls.len() } else { 0..0 };
        for cut in cuts {
            assert_eq!(in_parts(&text, &calls, vec![cut, usize::MAX]), whole, "rehearsal {n} cut after {cut} bytes");
        }
    }
}
