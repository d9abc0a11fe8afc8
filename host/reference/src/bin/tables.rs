//! `tables` by the second implementation: a class text on standard input.

use std::io::{self, Read, Write};

fn main() -> io::Result<()> {
    let mut text = Vec::new();
    io::stdin().read_to_end(&mut text)?;
    io::stdout().write_all(reference::image::tables(&text).as_bytes())
}
