//! The lists in which sends wait or would close a circle of waits (document 02, Tickets 7 and 8) on the second implementation: the promises
//! of the line, demand 3 and Ticket 4 are kept, and the lists have what they are made for.

use generate::calls::{text_to_call, Caller};
use generate::{circle, line, tally, Random};
use reference::course::Course;
use reference::machine::{Answer, Call, Machine};
use reference::text::Library;
use reference::waiting::{Seen, Watch};
use std::collections::{BTreeMap, HashSet};

/// How often each thing was seen.
type Counts = BTreeMap<&'static str, u32>;

/// A list's calls on the second implementation, with the course and the watch beside them.
struct List<'a> {
    machine: Machine<'a>,
    course: Course<'a>,
    watch: Watch<'a>,
    /// The slots that were told 42 since they opened.
    refused: HashSet<u32>,
}

impl<'a> List<'a> {
    fn start(library: &'a Library) -> List<'a> {
        let start = library.starting_values();
        let machine = Machine::start(library, &start).unwrap();
        let watch = Watch::start(machine.clashes.clone());
        List { machine, course: Course::start(library, &start), watch, refused: HashSet::new() }
    }

    fn call(&mut self, call: Call, counts: &mut Counts) -> Answer {
        let answer = self.machine.call(call);
        self.course.feed(call, answer);
        let line: Vec<u32> = self.machine.line.iter().map(|waiter| waiter.slot).collect();
        let Seen { broken, woken, passed, withdrawn, excepted, behind_waiters, circle, by_waiters } = self.watch.saw(call, answer, &line);
        assert!(broken.is_empty(), "{call:?} answered {answer:?}: {broken:?}");
        let stopped = answer == Answer::Stopped;
        let (Call::Send { slot, .. } | Call::Step(slot) | Call::Commit(slot) | Call::Abort(slot)) = call;
        let resolved = matches!(call, Call::Abort(_)) && woken > 0 && self.refused.contains(&slot);
        if circle.is_some() {
            self.refused.insert(slot);
        } else if stopped || !matches!(call, Call::Send { .. }) && answer == Answer::Done {
            self.refused.remove(&slot);
        }
        let of = |least: usize, most: usize| circle.is_some_and(|slots| (least..=most).contains(&slots)) as u32;
        for (what, times) in [
            ("three wait", (line.len() >= 3) as u32),
            ("five wait", (line.len() >= 5) as u32),
            ("one starts", (woken == 1) as u32),
            ("two start", (woken == 2) as u32),
            ("three start", (woken >= 3) as u32),
            ("one starts by a stop", (stopped && woken > 0) as u32),
            ("passes a waiter", passed as u32),
            ("withdrawn", withdrawn as u32),
            ("starts by a withdrawal", (withdrawn && woken > 0) as u32),
            ("goes ahead on its own locks", excepted as u32),
            ("waits for waiters only", behind_waiters as u32),
            ("circle of two", of(2, 2)),
            ("circle of three", of(3, 3)),
            ("circle of four or five", of(4, 5)),
            ("circle of six or more", of(6, 8)),
            ("circle by way of waiters", by_waiters as u32),
            ("circle resolved by an abort", resolved as u32),
        ] {
            *counts.entry(what).or_insert(0) += times;
        }
        answer
    }

    /// What undoing all that is open would give, and what the tablets saw.
    fn look(&self) {
        let mut undone = self.machine.clone();
        for slot in 0..8 {
            undone.call(Call::Abort(slot));
        }
        assert!(undone.idle() && undone.line.is_empty());
        assert_eq!(undone.values(), self.course.values(), "the fields after all aborts");
        assert!(self.course.seen_right(), "the answers");
    }

    fn end(mut self, counts: &mut Counts) {
        for slot in [3, 0, 6, 1, 7, 2, 5, 4] {
            self.call(Call::Abort(slot), counts);
        }
        assert!(self.machine.idle() && self.course.right());
        assert_eq!(self.machine.values(), self.course.values());
    }
}

/// So many generated lists, of 150 calls each.
fn generated(lists: u64, text: fn(&mut Random, u64) -> Vec<u8>, caller: fn(&mut Random, &Library) -> Caller) -> Counts {
    let mut counts = Counts::new();
    for seed in 0..lists {
        let mut random = Random::new(seed + 11_000_000);
        let library = reference::read(&text(&mut random, seed)).unwrap();
        let mut list = List::start(&library);
        let mut caller = caller(&mut random, &library);
        for _ in 0..150 {
            let call = caller.next(&mut random, &library);
            caller.told(call, list.call(call, &mut counts));
            list.look();
        }
        list.end(&mut counts);
    }
    println!("{lists} lists: {counts:?}");
    counts
}

#[test]
fn lists_have_what_they_are_made_for() {
    let text = |random: &mut Random, seed| if seed % 4 == 3 { text_to_call(random) } else { tally::text(random) };
    for (what, times) in generated(400, text, Caller::queueing) {
        assert!(times >= 40 || what.starts_with("circle"), "{what} is rare: {times}");
    }
}

#[test]
fn circling_lists_have_circles() {
    let text = |random: &mut Random, seed| if seed % 4 == 3 { text_to_call(random) } else { circle::text(random) };
    for (what, times) in generated(400, text, Caller::circling) {
        assert!(times >= 40 || !what.starts_with("circle") || what == "circle of six or more", "{what} is rare: {times}");
    }
}

/// Every list of the given ones, on its text.
fn given(text: &[u8], lists: Vec<Vec<Call>>) -> Counts {
    let library = reference::read(text).unwrap();
    let mut counts = Counts::new();
    for calls in &lists {
        let mut list = List::start(&library);
        for &call in calls {
            list.call(call, &mut counts);
        }
        list.look();
        list.end(&mut counts);
    }
    println!("{} lists: {counts:?}", lists.len());
    counts
}

#[test]
fn every_order_of_ends() {
    let lists = line::ends();
    assert_eq!(lists.len(), 4 * 64 * 24);
    let counts = given(line::TEXT, lists);
    for what in ["three wait", "one starts", "two start", "three start", "one starts by a stop", "passes a waiter", "withdrawn"] {
        assert!(counts[what] > 200, "{what} is rare: {counts:?}");
    }
}

/// Each list has one circle, of the size that it is made for, and the send that would close it is refused twice.
#[test]
fn circles_of_every_size() {
    for (lists, by_waiters) in [(circle::of_holders(), false), (circle::of_waiters(), true)] {
        let count = lists.len() as u32;
        let counts = given(circle::TEXT, lists);
        let sizes = ["circle of two", "circle of three", "circle of four or five", "circle of six or more"];
        assert!(sizes.iter().map(|what| counts[what]).sum::<u32>() >= 2 * count, "{counts:?}");
        assert!(sizes.iter().all(|&what| counts[what] > 0 || by_waiters && what == "circle of three"), "{counts:?}");
        assert_eq!(counts["circle by way of waiters"] > 0, by_waiters);
        assert!(counts["circle resolved by an abort"] > 0);
    }
}
