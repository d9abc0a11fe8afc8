//! Texts: the vectors, each limit, and generated texts, whole and damaged. CISHMOLAQ_TEXTS sets how many are generated.

use differential::texts::compare_named;
use differential::{amount, each_seed};
use generate::text::{text, LARGE, MIDDLE, SMALL};
use generate::{damage, limits, tally, Random};
use reference::stored;
use std::collections::BTreeMap;

/// The library on each vector: what the vector's files say, then every call beside the second implementation.
#[test]
fn vectors() {
    for (kind, tables) in [("txt", "tables"), ("bad", "bad.tables")] {
        let numbers = stored::numbers(tables);
        each_seed(numbers.len() as u64, |k| {
            let n = numbers[k as usize];
            let text = stored::bytes(n, kind);
            let mut out = vec![0; wrapper::LONGEST_TABLES];
            let size = wrapper::print_tables(&text, &mut out).unwrap();
            assert_eq!(out[..size], stored::bytes(n, tables), "tables of {n}.{kind}");
            compare_named(&format!("{n}.{kind}"), &text, &mut Random::new(n));
        });
    }
    for n in stored::numbers("image") {
        let mut image = vec![0; wrapper::LONGEST_IMAGE];
        let size = wrapper::compile(&stored::bytes(n, "txt"), &mut image).unwrap();
        assert_eq!(image[..size], stored::bytes(n, "image"), "image of {n}");
    }
}

#[test]
fn limits_and_one_past() {
    let mut random = Random::new(7);
    for limit in limits::limits() {
        assert_eq!(compare_named(limit.name, &limit.at, &mut random), 0, "at the limit: {}", limit.name);
        assert_eq!(compare_named(limit.name, &limit.past, &mut random), limit.number, "past the limit: {}", limit.name);
    }
    assert_eq!(compare_named("most statements", &limits::most_statements(), &mut random), 0);
    assert_eq!(compare_named("widest", &limits::widest(), &mut random), 0);
    assert_eq!(compare_named("most tallies", &limits::most_tallies(), &mut random), 0);
}

/// A valid text: small ones mostly, some of tallies, some large.
fn valid(random: &mut Random) -> Vec<u8> {
    match random.below(200) {
        0 => text(random, LARGE),
        1..=20 => text(random, MIDDLE),
        21..=50 => tally::text(random),
        _ => text(random, SMALL),
    }
}

/// A generated text: whole, damaged or with a fault that is aimed at; some noise.
fn generated(random: &mut Random, seed: u64) -> Vec<u8> {
    match seed % 20 {
        0..=5 => valid(random),
        6..=14 => {
            let whole = valid(random);
            damage::damaged(random, &whole)
        }
        15 | 16 => {
            let whole = valid(random);
            damage::aimed(random, &whole)
        }
        17 => damage::noise(random),
        18 => (0..random.below(200)).map(|_| random.next() as u8).collect(),
        _ => {
            let limits = limits::limits();
            let limit = random.pick(&limits);
            let whole = if random.one_in(2) { &limit.at } else { &limit.past };
            damage::damaged(random, whole)
        }
    }
}

#[test]
fn generated_texts() {
    let count = amount("CISHMOLAQ_TEXTS", 20_000);
    let numbers = each_seed(count, |seed| {
        let mut random = Random::new(seed);
        let text = generated(&mut random, seed);
        compare_named(&format!("seed {seed}"), &text, &mut random)
    });
    let mut found = BTreeMap::new();
    for number in numbers {
        *found.entry(number).or_insert(0u64) += 1;
    }
    println!("{count} texts by verdict: {found:?}");
    if count < 5_000 {
        return;
    }
    for number in [0, 11, 12, 13, 14, 15, 16, 17] {
        assert!(found.get(&number).copied().unwrap_or(0) * 1_000 >= count, "{number} is rare: {found:?}");
    }
}
