//! The texts and lists with `add` (document 02, Ticket 6) on the second implementation: the lists keep demand 3 and Ticket 4, and several
//! slots do add to one field at once.

use generate::calls::Caller;
use generate::{damage, tally, Random};
use reference::course::Course;
use reference::machine::{Answer, Call, Machine};
use reference::text::Library;
use std::collections::BTreeMap;

/// A list's calls on the second implementation, with the course beside them.
struct List<'a> {
    machine: Machine<'a>,
    course: Course<'a>,
}

impl<'a> List<'a> {
    fn start(library: &'a Library) -> List<'a> {
        let start = library.starting_values();
        List { machine: Machine::start(library, &start).unwrap(), course: Course::start(library, &start) }
    }

    /// A call; then what undoing all that is open would give, and what the tablets saw.
    fn call(&mut self, call: Call) -> Answer {
        let answer = self.machine.call(call);
        self.course.feed(call, answer);
        let mut undone = self.machine.clone();
        for slot in 0..8 {
            undone.call(Call::Abort(slot));
        }
        assert_eq!(undone.values(), self.course.values(), "the fields after {call:?} and all aborts");
        assert!(self.course.seen_right(), "the answers after {call:?}");
        answer
    }

    fn end(mut self) -> Vec<u32> {
        for slot in 0..8 {
            self.call(Call::Abort(slot));
        }
        assert!(self.machine.idle() && self.course.right());
        self.machine.values()
    }
}

#[test]
fn texts_are_valid() {
    let mut letters = BTreeMap::new();
    for seed in 0..600 {
        let text = tally::text(&mut Random::new(seed));
        let printed = reference::image::tables(&text);
        assert!(!printed.starts_with("refused"), "seed {seed}: {printed}\n{}", String::from_utf8_lossy(&text));
        for letter in printed.lines().flat_map(|line| line.split(' ').nth(2).unwrap().chars()) {
            *letters.entry(letter).or_insert(0) += 1;
        }
    }
    let all: u32 = letters.values().sum();
    assert!("NRAW".chars().all(|letter| letters[&letter] * 20 > all), "a mode is rare: {letters:?}");
}

#[test]
fn lists_keep_the_commit_order() {
    let mut adding = [0; 9];
    for seed in 0..400 {
        let mut random = Random::new(seed + 7_000_000);
        let library = reference::read(&tally::text(&mut random)).unwrap();
        let mut list = List::start(&library);
        let mut caller = Caller::tallying(&mut random, &library);
        for _ in 0..100 {
            let call = caller.next(&mut random, &library);
            caller.told(call, list.call(call));
            adding[list.machine.most_adding()] += 1;
        }
        list.end();
    }
    let all: u32 = adding.iter().sum();
    println!("{all} calls by how many slots add to one field: {adding:?}");
    assert!(adding[2..].iter().sum::<u32>() * 5 > all && adding[4] > 0, "slots that add to one field at once: {adding:?}");
}

/// Each list of all orders: what is left is what the committed ones added.
#[test]
fn every_order_of_ends() {
    let library = reference::read(tally::LANE).unwrap();
    let lists = tally::ends();
    assert_eq!(lists.len(), 24 * 16);
    for list in lists {
        let mut made = List::start(&library);
        let (mut added, mut right) = ([0u32; 8], 7u32);
        for &call in &list {
            made.call(call);
            match call {
                Call::Send { slot, method: 0, argument, .. } => added[slot as usize] = added[slot as usize].wrapping_add(argument),
                Call::Commit(slot) => right = right.wrapping_add(added[slot as usize]),
                _ => {}
            }
        }
        assert_eq!(made.end(), [right], "{list:?}");
    }
}

#[test]
fn every_mix() {
    let library = reference::read(tally::LANE).unwrap();
    let lists = tally::mixed();
    assert_eq!(lists.len(), 216 * 24);
    for list in lists {
        let mut made = List::start(&library);
        for call in list {
            made.call(call);
        }
        made.end();
    }
}

/// A text with an `add` that is wrong is 12 or 14, or it is right after all.
#[test]
fn adds_are_misused() {
    let mut found = BTreeMap::new();
    for seed in 0..4_000 {
        let mut random = Random::new(seed);
        let whole = tally::text(&mut random);
        let text = damage::aimed(&mut random, &whole);
        let adds = |text: &[u8]| text.windows(3).filter(|word| *word == b"add").count();
        if adds(&text) > adds(&whole) {
            *found.entry(reference::read(&text).err().map_or(0, |fault| fault.number)).or_insert(0) += 1;
        }
    }
    assert!([0, 12, 14].iter().all(|number| found.get(number).is_some_and(|&times| times >= 20)), "{found:?}");
}
