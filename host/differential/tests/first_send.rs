//! Sends to closed slots (document 02, Tickets 3, 7 and 8): a granted one opens its slot, one that gets 40 opens it and waits, one that gets
//! 36 leaves it closed and alters nothing. Memory looks at all words after each call.

use differential::altered::Memory;
use differential::library::Lent;
use differential::machine::{added_up, Counts, List};
use differential::{amount, each_seed};
use generate::calls::{text_to_call, values_for, Caller};
use generate::Random;
use reference::machine::{Answer, Call, Target};
use wrapper::layout;

/// The sample with a second lane.
fn text() -> Vec<u8> {
    [&include_bytes!("../../../samples/lanes.txt")[..], b"object lane2 lane\n"].concat()
}

const VALUES: [u32; 6] = [1, 2, 3, 4, 5, 6];

/// Places in the text; class run has shot and plot.
const RUN: u32 = 0;
const LANE: u32 = 1;
const SHOT: u32 = 0;
const PLOT: u32 = 1;
const TUNE: u32 = 2;

fn send(slot: u32, target: Target, method: u32) -> Call {
    Call::Send { slot, target, method, argument: 40 }
}

/// Sends on the first lane, both lanes, and every run.
fn shots(slot: u32) -> [Call; 3] {
    [Target::Object(0), Target::Class(LANE), Target::Domain(RUN)].map(|target| send(slot, target, SHOT))
}

/// Step, commit and abort say that the slot is closed.
fn is_closed(memory: &mut Memory, slot: u32) {
    for call in [Call::Step(slot), Call::Commit(slot), Call::Abort(slot)] {
        assert_eq!(memory.call(call), Answer::Refused(32), "{call:?}");
    }
}

/// Steps to the message's answer.
fn finish(memory: &mut Memory, slot: u32) {
    while memory.call(Call::Step(slot)) == Answer::Going {}
    assert_eq!(memory.call(Call::Step(slot)), Answer::Refused(35));
}

#[test]
fn closed_at_first() {
    let mut memory = Memory::started(&text(), &VALUES);
    (0..8).for_each(|slot| is_closed(&mut memory, slot));
}

#[test]
fn nothing_there() {
    let mut memory = Memory::started(&text(), &VALUES);
    let fresh = memory.state().to_vec();
    for slot in 0..8 {
        for target in [Target::Object(2), Target::Object(u32::MAX), Target::Class(2), Target::Domain(2)] {
            assert_eq!(memory.call(send(slot, target, SHOT)), Answer::Refused(36), "{target:?}");
            is_closed(&mut memory, slot);
        }
        for target in [Target::Object(0), Target::Class(LANE), Target::Domain(LANE)] {
            assert_eq!(memory.call(send(slot, target, 3)), Answer::Refused(36), "method 3 of {target:?}");
        }
        assert_eq!(memory.call(send(slot, Target::Domain(RUN), TUNE)), Answer::Refused(36));
        is_closed(&mut memory, slot);
    }
    assert!(memory.state() == fresh && memory.values() == VALUES, "a refused send altered something");
}

/// Send, step and commit say that the slot waits.
fn waits(memory: &mut Memory, slot: u32) {
    for call in [Call::Step(slot), Call::Commit(slot), send(slot, Target::Object(1), PLOT), send(slot, Target::Object(9), SHOT)] {
        assert_eq!(memory.call(call), Answer::Refused(37), "{call:?}");
    }
}

/// A send is held whatever it names. Its slot waits, and others that clash with it are held by it; it starts when the last of those before
/// it has ended, or is withdrawn and leaves nothing.
#[test]
fn held() {
    for call in shots(5) {
        let mut memory = Memory::started(&text(), &VALUES);
        assert_eq!(memory.call(send(2, Target::Object(0), TUNE)), Answer::Done);
        let before = memory.state().to_vec();
        for _ in 0..3 {
            assert_eq!(memory.call(call), Answer::Held(2), "{call:?}");
            waits(&mut memory, 5);
            assert!(memory.values() == VALUES, "{call:?} altered a value");
            assert_eq!(memory.call(Call::Abort(5)), Answer::Done);
            is_closed(&mut memory, 5);
            let rows = ..memory.state().len() - layout::LINE_WORDS;
            assert!(memory.state()[rows] == before[rows], "{call:?} and its abort left something");
            assert_eq!(memory.state()[layout::LINE_AT], 0, "{call:?} is still in line");
        }
        assert_eq!(memory.call(call), Answer::Held(2), "{call:?}");
        // Only a send to one lane leaves the other to others.
        let beside = matches!(call, Call::Send { target: Target::Object(_), .. });
        let right = if beside { Answer::Done } else { Answer::Held(5) };
        assert_eq!(memory.call(send(0, Target::Object(1), TUNE)), right, "after {call:?}");
        finish(&mut memory, 2);
        waits(&mut memory, 5);
        assert_eq!(memory.call(Call::Commit(2)), Answer::Done);
        assert_eq!(memory.call(Call::Step(5)), Answer::Going, "{call:?} after the commit");
        finish(&mut memory, 5);
        assert_eq!(memory.call(Call::Commit(5)), Answer::Done);
        assert_eq!(memory.call(Call::Step(0)), Answer::Going, "the tune of the other lane");
    }
}

/// 31 before 36 before 40 on a closed slot; on an open one 37 or 34 before 36, and 36 before 40 and 42.
#[test]
fn order_of_the_tests() {
    let mut memory = Memory::started(&text(), &VALUES);
    let nobody = |slot: u32| send(slot, Target::Object(9), SHOT);
    assert_eq!(memory.call(nobody(8)), Answer::Refused(31));
    assert_eq!(memory.call(send(8, Target::Object(0), SHOT)), Answer::Refused(31));
    assert_eq!(memory.call(send(2, Target::Domain(RUN), SHOT)), Answer::Done);
    assert_eq!(memory.call(nobody(5)), Answer::Refused(36));
    assert_eq!(memory.call(send(5, Target::Object(0), 3)), Answer::Refused(36));
    assert_eq!(memory.call(send(5, Target::Object(0), PLOT)), Answer::Done);
    assert_eq!(memory.call(nobody(5)), Answer::Refused(34));
    assert_eq!(memory.call(send(5, Target::Object(0), SHOT)), Answer::Refused(34));
    finish(&mut memory, 5);
    assert_eq!(memory.call(nobody(5)), Answer::Refused(36));
    assert_eq!(memory.call(send(5, Target::Object(0), SHOT)), Answer::Held(2));
    assert_eq!(memory.call(nobody(5)), Answer::Refused(37));
    waits(&mut memory, 5);
    assert_eq!(memory.call(send(6, Target::Object(0), SHOT)), Answer::Held(2));
    waits(&mut memory, 6);
    // Slot 6 waits for slot 2, and a tune of slot 2 would wait for slot 6.
    assert_eq!(memory.call(send(2, Target::Object(0), TUNE)), Answer::Refused(34));
    finish(&mut memory, 2);
    assert_eq!(memory.call(nobody(2)), Answer::Refused(36));
    let before = (memory.state().to_vec(), memory.values().to_vec());
    for _ in 0..2 {
        assert_eq!(memory.call(send(2, Target::Object(0), TUNE)), Answer::Refused(42));
    }
    assert!((memory.state(), memory.values()) == (&before.0[..], &before.1[..]), "42 altered something");
    assert_eq!(memory.call(send(2, Target::Domain(RUN), SHOT)), Answer::Done);
}

/// A transaction of one send in each slot, to each kind of target; then its slot is closed, and the next send opens it again.
#[test]
fn granted() {
    let mut memory = Memory::started(&text(), &VALUES);
    for (k, slot) in (0..8).chain(0..8).enumerate() {
        for call in shots(slot) {
            let before = memory.values().to_vec();
            assert_eq!(memory.call(call), Answer::Done, "{call:?}");
            assert_eq!(memory.call(Call::Step(slot)), Answer::Going);
            assert_eq!(memory.call(call), Answer::Refused(34), "{call:?} while it runs");
            assert_eq!(memory.call(Call::Commit(slot)), Answer::Refused(34));
            finish(&mut memory, slot);
            assert_eq!(memory.call(call), Answer::Done, "{call:?} once more");
            finish(&mut memory, slot);
            let undoes = k % 2 == 1;
            assert_eq!(memory.call(if undoes { Call::Abort(slot) } else { Call::Commit(slot) }), Answer::Done);
            assert_eq!(memory.values() == before, undoes, "{call:?} and its end");
            is_closed(&mut memory, slot);
        }
    }
}

/// A message that is stopped closes the slot that its send opened.
#[test]
fn stopped() {
    let mut memory = Memory::started(b"class a\nmethod m\nsend m to self 0\nend\nobject o a\n", &[]);
    let fresh = memory.state().to_vec();
    for slot in 0..8 {
        assert_eq!(memory.call(send(slot, Target::Object(0), 0)), Answer::Done);
        let last = (0..).map(|_| memory.call(Call::Step(slot))).find(|answer| *answer != Answer::Going);
        assert_eq!(last, Some(Answer::Stopped));
        is_closed(&mut memory, slot);
        assert!(memory.state() == fresh, "a stopped message left something");
    }
}

/// One list of a caller whose first sends clash.
fn crowded(seed: u64) -> Counts {
    let mut random = Random::new(seed + 5_000_000);
    let text = text_to_call(&mut random);
    let library = reference::read(&text).expect("an accepted text");
    let values = values_for(&mut random, &library);
    let made = std::panic::catch_unwind(|| {
        let mut random = Random::new(seed + 6_000_000);
        let mut machine = Lent::start(&mut random, &text, &values).expect("a start");
        let caller = Caller::crowded(&mut random, &library);
        List::new(&library, &values, &mut machine).made_by(caller, &mut random, 200)
    });
    made.unwrap_or_else(|_| panic!("seed {seed} differs, values {values:?}, text:\n{}", String::from_utf8_lossy(&text)))
}

#[test]
fn crowded_lists() {
    let count = amount("CISHMOLAQ_LISTS", 2_000);
    let calls = added_up(each_seed(count, crowded));
    println!("{count} crowded lists: {calls:?}");
    if count < 1_000 {
        return;
    }
    let made = |kind: &str| calls.get(kind).copied().unwrap_or(0);
    assert!(made("first send 40") * 2 > made("first send ok"), "few first sends clash: {calls:?}");
    for kind in ["first send 36", "send ok", "send 40", "send 42", "send 37", "step 32", "step 37", "commit 32", "commit 37", "abort 32"] {
        assert!(made(kind) >= count / 2, "{kind} is rare: {calls:?}");
    }
}
