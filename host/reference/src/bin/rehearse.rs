//! `rehearse` by the second implementation: the class text in `lib.txt`, call lines on standard input.

use std::fs::File;
use std::io::{self, Read};

/// What can be read of `lib.txt`, and no more than decides its verdict.
fn library() -> Vec<u8> {
    let mut text = Vec::new();
    if let Ok(file) = File::open("lib.txt") {
        let _ = file.take(32_769).read_to_end(&mut text);
    }
    text
}

fn main() -> io::Result<()> {
    reference::rehearsal::rehearse(&library(), io::stdin().lock(), io::stdout().lock())
}
