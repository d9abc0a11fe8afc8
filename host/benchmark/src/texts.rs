//! The texts that are timed.

use generate::text::{text, Size, LARGE, MIDDLE};
use generate::{limits, Random};

pub const SAMPLE: &[u8] = include_bytes!("../../../samples/lanes.txt");

/// Generated texts, the longest first.
fn generated(size: Size) -> Vec<Vec<u8>> {
    let mut made: Vec<Vec<u8>> = (0..100).map(|seed| text(&mut Random::new(seed), size)).collect();
    made.sort_by_key(|t| std::cmp::Reverse(t.len()));
    made
}

pub fn large() -> Vec<Vec<u8>> {
    generated(LARGE)
}

/// The sample, a middling text, and the largest of several shapes, with their names.
pub fn samples() -> Vec<(String, Vec<u8>)> {
    let named = [
        ("the sample", SAMPLE.to_vec()),
        ("middling", generated(MIDDLE).swap_remove(0)),
        ("generated, large", large().swap_remove(0)),
        ("32 KiB of sets", limits::of_length(32_768)),
        ("most statements", limits::most_statements()),
        ("widest", limits::widest()),
    ];
    named.into_iter().map(|(name, text)| (format!("{name}, {} bytes", text.len()), text)).collect()
}

/// Texts whose method 0 makes a long message.
pub fn messages() -> Vec<(String, Vec<u8>)> {
    let adds = "add x * arg 3\n".repeat(31);
    let sets = "set x + x * arg 3\n".repeat(31);
    let deep = "set x + + x * arg 3 - - got 7 * = x y < y arg\n".repeat(31);
    let text = |body: &str| format!("class a\nfield x\nfield y\nmethod m\n{body}reply x\nend\nobject o a\n").into_bytes();
    vec![
        ("short adds".into(), text(&adds)),
        ("short sets".into(), text(&sets)),
        ("long sets".into(), text(&deep)),
        ("sets and calls".into(), limits::message_of(1_023)),
    ]
}
