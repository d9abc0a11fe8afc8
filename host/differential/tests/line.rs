//! Call lists in which sends wait, or would close a circle of waits (document 02, Tickets 7 and 8): a slot that holds, three that join and
//! their ends in every order, circles of two to eight slots, and generated lists. After each call the answer, all fields, what is kept of
//! each slot, the line, its promises and Ticket 4 are compared.
//! CISHMOLAQ_QUEUES sets how many lists are generated.

use differential::library::beside;
use differential::machine::{added_up, Counts, List};
use differential::{amount, each_seed};
use generate::calls::{text_to_call, values_for, Caller};
use generate::{circle, limits, line, tally, Random};
use reference::machine::{Answer, Call, Target};

/// Every list of the given ones, on the text's own values.
fn made(text: &[u8], lists: &[Vec<Call>]) -> Counts {
    let values = reference::read(text).unwrap().starting_values();
    let counts = added_up(each_seed(lists.len() as u64, |k| {
        beside(text, &values, &mut Random::new(k), |mut list, _| {
            for &call in &lists[k as usize] {
                list.call(call);
            }
            list.end()
        })
    }));
    println!("{} lists: {counts:?}", lists.len());
    counts
}

#[test]
fn circles_of_every_size() {
    let counts = made(circle::TEXT, &circle::of_holders());
    for slots in 2..=8 {
        assert!(counts[&format!("circle of {slots}")] >= 16, "{counts:?}");
    }
    let counts = made(circle::TEXT, &circle::of_waiters());
    for slots in [2, 4, 6, 8] {
        assert!(counts[&format!("circle of {slots}")] >= 4, "{counts:?}");
    }
    assert_eq!(counts["circle by way of waiters"], counts["send 42"]);
}

#[test]
fn every_order_of_ends() {
    let counts = made(line::TEXT, &line::ends());
    for kind in ["3 waiting", "1 woken", "2 woken", "3 woken", "woken by a stop", "woken past a waiter", "woken by a withdrawal"] {
        assert!(counts.get(kind).is_some_and(|&times| times > 200), "{kind} is rare: {counts:?}");
    }
}

/// Steps the slot's message to its end.
fn finish(list: &mut List, slot: u32) {
    while list.call(Call::Step(slot)) == Answer::Going {}
}

fn send(slot: u32, target: Target, method: u32) -> Call {
    Call::Send { slot, target, method, argument: slot }
}

/// Seven slots wait for one that has locked all, on seven objects: its end starts them all. Then the eighth waits for the seven, and
/// starts when the last of them has ended.
#[test]
fn seven_wait() {
    let text: String = (0..7).map(|k| format!("object o{k} a\n")).collect();
    let text = format!("class a\nfield x\nmethod m\nset x arg\nend\n{text}");
    for (holder, commits) in (0..8).zip([true, false].into_iter().cycle()) {
        let end = |slot: u32| if commits { Call::Commit(slot) } else { Call::Abort(slot) };
        let others: Vec<u32> = (1..8).map(|k| (holder + 3 * k) % 8).collect();
        beside(text.as_bytes(), &[0; 7], &mut Random::new(holder as u64), |mut list, _| {
            assert_eq!(list.call(send(holder, Target::Domain(0), 0)), Answer::Done);
            for (object, &slot) in (0..).zip(&others) {
                assert_eq!(list.call(send(slot, Target::Object(object), 0)), Answer::Held(holder));
            }
            finish(&mut list, holder);
            assert_eq!(list.call(end(holder)), Answer::Done);
            assert_eq!(list.call(send(holder, Target::Class(0), 0)), Answer::Held((holder == 0) as u32));
            for &slot in &others {
                assert_eq!(list.call(Call::Step(holder)), Answer::Refused(37));
                finish(&mut list, slot);
                assert_eq!(list.call(end(slot)), Answer::Done);
            }
            finish(&mut list, holder);
            assert_eq!(list.call(Call::Commit(holder)), Answer::Done);
            let counts = list.end();
            assert!(counts["7 woken"] == 1 && counts["1 woken"] == 1 && counts["7 waiting"] > 0, "{counts:?}");
            counts
        });
    }
}

/// Seven wait, each for the next, and the eighth would close the circle; when it is aborted all start one after another.
#[test]
fn circle_of_eight() {
    let text: String = (0..8).map(|k| format!("object o{k} a\n")).collect();
    let text = format!("class a\nfield x\nmethod m\nset x + x 1\nend\n{text}");
    for first in 0..8 {
        beside(text.as_bytes(), &[0; 8], &mut Random::new(first as u64), |mut list, _| {
            for slot in 0..8 {
                list.call(send(slot, Target::Object(slot), 0));
                finish(&mut list, slot);
            }
            for slot in (1..8).map(|k| (k + first) % 8) {
                assert_eq!(list.call(send(slot, Target::Object((slot + 1) % 8), 0)), Answer::Held((slot + 1) % 8));
            }
            assert_eq!(list.call(send(first, Target::Object((first + 1) % 8), 0)), Answer::Refused(42));
            for slot in (0..8).map(|k| (first + 8 - k) % 8) {
                let aborted = slot == first;
                finish(&mut list, slot);
                assert_eq!(list.call(if aborted { Call::Abort(slot) } else { Call::Commit(slot) }), Answer::Done);
            }
            let counts = list.end();
            assert!(counts["7 waiting"] > 0 && counts["1 woken"] == 7 && counts["circle of 8"] == 1, "{counts:?}");
            counts
        });
    }
}

/// Sixteen classes, each below the one before, with four objects each: a domain's send has up to sixteen locks.
fn chain() -> Vec<u8> {
    let mut text = String::from("class c0\nfield x\nmethod put\nset x arg\nend\nmethod look\nreply x\nend\n");
    for k in 1..16 {
        text += &format!("class c{k} : c{}\n", k - 1);
    }
    for k in 0..64 {
        text += &format!("object o{k} c{}\n", k * 5 % 16);
    }
    text.into_bytes()
}

/// Large texts, and one with many locks, with long lines.
#[test]
fn largest() {
    for (n, text) in [limits::of_length(32_768), limits::most_tallies(), chain(), chain()].iter().enumerate() {
        let mut random = Random::new(n as u64 + 60);
        let library = reference::read(text).unwrap();
        let values = values_for(&mut random, &library);
        beside(text, &values, &mut random, |list, random| {
            let caller = Caller::queueing(random, &library);
            list.made_by(caller, random, 300)
        });
    }
}

/// One generated list.
fn generated(seed: u64) -> Counts {
    let mut random = Random::new(seed + 13_000_000);
    let text = match seed % 4 {
        3 => text_to_call(&mut random),
        2 => circle::text(&mut random),
        _ => tally::text(&mut random),
    };
    let library = reference::read(&text).expect("an accepted text");
    let values = values_for(&mut random, &library);
    let made = std::panic::catch_unwind(|| {
        let mut random = Random::new(seed + 14_000_000);
        beside(&text, &values, &mut random, |list, random| {
            let caller = if seed % 4 == 2 { Caller::circling } else { Caller::queueing };
            list.made_by(caller(random, &library), random, 100)
        })
    });
    made.unwrap_or_else(|_| panic!("seed {seed} differs, values {values:?}, text:\n{}", String::from_utf8_lossy(&text)))
}

#[test]
fn generated_lists() {
    let count = amount("CISHMOLAQ_QUEUES", 6_000);
    let counts = added_up(each_seed(count, generated));
    println!("{count} lists with lines: {counts:?}");
    if count < 1_000 {
        return;
    }
    for (kind, least) in [
        ("3 waiting", count),
        ("4 waiting", count),
        ("5 waiting", count),
        ("7 waiting", count / 4),
        ("1 woken", count),
        ("2 woken", count / 4),
        ("3 woken", count / 20),
        ("4 woken", count / 100),
        ("woken by a stop", count / 10),
        ("woken by a withdrawal", count / 5),
        ("woken past a waiter", count / 10),
        ("withdrawn", count),
        ("ahead on its own locks", count / 4),
        ("behind waiters only", count),
        ("send 42", count),
        ("circle of 2", count),
        ("circle of 3", count / 10),
        ("circle of 4", count / 100),
        ("circle by way of waiters", count / 2),
        ("step 37", count),
        ("send 37", count / 4),
        ("commit 37", count / 4),
    ] {
        assert!(counts.get(kind).is_some_and(|&times| times >= least), "{kind} is rare: {counts:?}");
    }
}
