//! The image of a text, and what `tables` prints.

use crate::text::{read, Fault};
use crate::vectors::{all, commute, Mode};

fn word(into: &mut Vec<u8>, value: usize) {
    into.extend((value as u32).to_le_bytes());
}

fn mask(bits: impl Iterator<Item = bool>) -> usize {
    bits.enumerate().map(|(k, b)| (b as usize) << k).sum()
}

/// The image of a text.
pub fn image(text: &[u8]) -> Result<Vec<u8>, Fault> {
    let library = read(text)?;
    let vectors = all(&library);
    let mut parts = [Vec::new(), Vec::new(), Vec::new(), Vec::new()];
    for s in library.statements() {
        word(&mut parts[0], s.at);
        word(&mut parts[0], s.size);
    }
    for class in &vectors {
        for v in class {
            word(&mut parts[1], mask(v.iter().map(|&m| m == Mode::Read)));
            word(&mut parts[1], mask(v.iter().map(|&m| m == Mode::Write)));
            word(&mut parts[2], mask(class.iter().map(|w| commute(v, w))));
            word(&mut parts[3], mask(v.iter().map(|&m| m == Mode::Add)));
        }
    }
    let mut image = Vec::new();
    let mut at = 32;
    for part in &parts {
        word(&mut image, at);
        word(&mut image, part.len());
        at += part.len();
    }
    image.extend(parts.concat());
    Ok(image)
}

/// What `tables` prints.
pub fn tables(text: &[u8]) -> String {
    let library = match read(text) {
        Ok(library) => library,
        Err(fault) => return format!("{fault}\n"),
    };
    let mut out = String::new();
    for (class, vectors) in library.classes.iter().zip(all(&library)) {
        for (method, v) in library.methods(&class.name).iter().zip(&vectors) {
            let letter = |m: &Mode| match m {
                Mode::Null => 'N',
                Mode::Read => 'R',
                Mode::Add => 'A',
                Mode::Write => 'W',
            };
            let letters: String = if v.is_empty() { "-".into() } else { v.iter().map(letter).collect() };
            let commuting: String = vectors.iter().map(|w| if commute(v, w) { 'y' } else { 'n' }).collect();
            out += &format!("{} {} {} {}\n", class.name, method, letters, commuting);
        }
    }
    out
}
