//! The line of waiting sends (document 02, Tickets 7 and 8) in the second implementation, rule by rule; after each call the watch says
//! that the promises are kept.

use reference::machine::{Answer, Call, Machine, Target};
use reference::text::Library;
use reference::waiting::{Seen, Watch};
use Answer::{Done, Held, Refused};

/// Two lanes and a dish of one domain. A put clashes with puts and looks, a look with puts.
const TEXT: &[u8] = b"class run
field focus
method put
set focus arg
end
method look
reply focus
end
method deep
set focus arg
send deep to self arg
end
class lane : run
class dish : run
object lane1 lane 1
object lane2 lane 2
object dish1 dish 3
";

const PUT: u32 = 0;
const LOOK: u32 = 1;
const DEEP: u32 = 2;
const LANE1: Target = Target::Object(0);
const LANE2: Target = Target::Object(1);
const DISH1: Target = Target::Object(2);
const LANES: Target = Target::Class(1);
const RUNS: Target = Target::Domain(0);

struct List<'a> {
    machine: Machine<'a>,
    watch: Watch<'a>,
}

fn library() -> Library {
    reference::read(TEXT).unwrap()
}

impl<'a> List<'a> {
    fn start(library: &'a Library) -> List<'a> {
        let machine = Machine::start(library, &library.starting_values()).unwrap();
        let watch = Watch::start(machine.clashes.clone());
        List { machine, watch }
    }

    /// A call that must be answered this.
    fn call(&mut self, call: Call, right: Answer) -> Seen {
        let answer = self.machine.call(call);
        assert_eq!(answer, right, "{call:?}");
        let seen = self.watch.saw(call, answer, &self.line());
        assert!(seen.broken.is_empty(), "{call:?}: {seen:?}");
        seen
    }

    fn send(&mut self, slot: u32, target: Target, method: u32, right: Answer) -> Seen {
        self.call(Call::Send { slot, target, method, argument: 10 + slot }, right)
    }

    /// Steps to the message's answer.
    fn finish(&mut self, slot: u32, answer: u32) {
        self.call(Call::Step(slot), Answer::Going);
        self.call(Call::Step(slot), Answer::Answer(answer));
    }

    fn line(&self) -> Vec<u32> {
        self.machine.line.iter().map(|waiter| waiter.slot).collect()
    }
}

/// Those that wait for one lane start in order of arrival, each by the end of the one before, and leave the fields of that order.
#[test]
fn in_order_of_arrival() {
    let library = library();
    let mut list = List::start(&library);
    list.send(0, LANE1, PUT, Done);
    for slot in [7, 3, 5] {
        list.send(slot, LANE1, PUT, Held(0));
    }
    assert_eq!(list.line(), [7, 3, 5]);
    list.finish(0, 0);
    for (ends, rest) in [(0, vec![3, 5]), (7, vec![5]), (3, vec![])] {
        assert_eq!(list.call(Call::Commit(ends), Done).woken, 1);
        assert_eq!(list.line(), rest);
        if let Some(next) = [7, 3, 5].into_iter().find(|&slot| list.machine.is_running(slot)) {
            list.finish(next, 0);
            assert_eq!(list.machine.values()[0], 10 + next);
        }
    }
}

/// One end starts several, those that start in the same call included in what the next ones clash with; and one that clashes with
/// nobody ahead passes those that still wait.
#[test]
fn several_at_once() {
    let library = library();
    let mut list = List::start(&library);
    list.send(0, RUNS, PUT, Done);
    list.send(1, LANE1, LOOK, Held(0));
    list.send(2, LANE1, PUT, Held(0));
    list.send(3, LANE1, LOOK, Held(0));
    list.send(4, LANE2, PUT, Held(0));
    list.send(5, DISH1, LOOK, Held(0));
    list.send(6, LANE1, LOOK, Held(0));
    for _ in 0..5 {
        list.call(Call::Step(0), Answer::Going);
    }
    list.call(Call::Step(0), Answer::Answer(0));
    let seen = list.call(Call::Commit(0), Done);
    assert_eq!((seen.woken, seen.passed), (3, 2));
    assert_eq!(list.line(), [2, 3, 6]);
    list.finish(1, 10);
    assert_eq!(list.call(Call::Commit(1), Done).woken, 1);
    list.finish(2, 0);
    let seen = list.call(Call::Commit(2), Done);
    assert_eq!((seen.woken, list.line().len()), (2, 0));
    list.finish(6, 12);
}

/// 40 names the lowest slot, holder or waiter, whatever its place in the line; and a send that clashes with waiters only joins.
#[test]
fn the_lowest_slot() {
    let library = library();
    let mut list = List::start(&library);
    list.send(6, LANE1, LOOK, Done);
    list.send(5, LANE1, PUT, Held(6));
    assert!(list.send(2, LANE1, LOOK, Held(5)).behind_waiters);
    list.send(3, LANE1, PUT, Held(2));
    list.send(0, LANE1, PUT, Held(2));
    list.send(4, LANE1, LOOK, Held(0));
    assert_eq!(list.line(), [5, 2, 3, 0, 4]);
    list.send(1, LANE2, PUT, Done);
    list.send(7, DISH1, PUT, Done);
}

/// 31, 32, 37, then 34, 35 and 36.
#[test]
fn thirty_seven() {
    let library = library();
    let mut list = List::start(&library);
    list.send(0, LANE1, PUT, Done);
    list.send(1, LANE1, PUT, Held(0));
    list.send(8, LANE1, PUT, Refused(31));
    for slot in [1, 2] {
        let waits = slot == 1;
        list.call(Call::Step(slot), Refused(if waits { 37 } else { 32 }));
        list.call(Call::Commit(slot), Refused(if waits { 37 } else { 32 }));
        list.send(slot, Target::Object(9), PUT, Refused(if waits { 37 } else { 36 }));
    }
    list.send(1, LANE2, PUT, Refused(37));
    list.send(0, Target::Object(9), PUT, Refused(34));
    list.finish(0, 0);
    list.call(Call::Step(1), Refused(37));
    list.call(Call::Commit(0), Done);
    list.send(1, LANE2, PUT, Refused(34));
    list.finish(1, 0);
}

/// An abort of a waiting slot withdraws its send, puts its fields back, and starts what waited for it.
#[test]
fn withdrawn() {
    let library = library();
    let mut list = List::start(&library);
    list.send(0, LANE1, LOOK, Done);
    list.send(1, LANE2, PUT, Done);
    list.finish(1, 0);
    assert_eq!(list.machine.values()[1], 11);
    list.send(1, LANE1, PUT, Held(0));
    list.send(2, LANE1, LOOK, Held(1));
    list.send(3, LANE2, PUT, Held(1));
    let seen = list.call(Call::Abort(1), Done);
    assert!(seen.withdrawn && seen.woken == 2 && !list.machine.is_open(1));
    assert_eq!(list.machine.values()[1], 2);
    // The place in line is gone with it: its next send arrives last.
    list.send(1, LANE2, PUT, Held(3));
    list.finish(0, 1);
    list.call(Call::Commit(0), Done);
    assert_eq!(list.line(), [1]);
}

/// A stopped message ends its transaction, and the line is gone through.
#[test]
fn stopped() {
    let library = library();
    let mut list = List::start(&library);
    list.send(0, LANE1, DEEP, Done);
    list.send(1, LANE1, PUT, Held(0));
    list.send(2, LANE1, LOOK, Held(0));
    for _ in 0..15 {
        list.call(Call::Step(0), Answer::Going);
    }
    assert_eq!(list.call(Call::Step(0), Answer::Stopped).woken, 1);
    assert_eq!((list.line(), list.machine.values()[0]), (vec![2], 1));
}

/// A send whose locks its slot got by earlier sends starts whoever waits. Locks are compared as locks: a class of the domain
/// is one of its locks, an object of the class is not.
#[test]
fn own_locks() {
    let library = library();
    for (first, again, excepted) in [
        (LANE1, LANE1, true),
        (LANES, LANES, true),
        (RUNS, RUNS, true),
        (RUNS, LANES, true),
        (RUNS, Target::Class(2), true),
        (RUNS, Target::Domain(1), true),
        (LANES, RUNS, false),
        (LANES, LANE1, false),
        (RUNS, LANE1, false),
        (RUNS, DISH1, false),
    ] {
        let mut list = List::start(&library);
        list.send(3, first, LOOK, Done);
        while list.machine.is_running(3) {
            list.machine.call(Call::Step(3));
        }
        list.send(1, RUNS, PUT, Held(3));
        // Behind the waiter it would wait for its own slot's locks (Ticket 8).
        let right = if excepted { Done } else { Refused(42) };
        assert_eq!(list.send(3, again, LOOK, right).excepted, excepted, "{first:?}, then {again:?}");
    }
    // A lock of another method is not excepted either.
    let mut list = List::start(&library);
    list.send(3, LANE1, LOOK, Done);
    list.finish(3, 1);
    list.send(1, LANE1, PUT, Held(3));
    list.send(3, LANE1, PUT, Refused(42));
    list.call(Call::Abort(1), Done);
    list.send(3, LANE1, PUT, Done);
    list.finish(3, 0);
}

/// A waiting slot keeps the locks of its earlier sends, which others meet.
#[test]
fn waiters_hold_locks() {
    let library = library();
    let mut list = List::start(&library);
    list.send(4, LANE1, LOOK, Done);
    list.send(5, LANE2, PUT, Done);
    list.finish(5, 0);
    list.send(5, LANE1, PUT, Held(4));
    list.send(0, LANE2, LOOK, Held(5));
    list.finish(4, 1);
    list.call(Call::Commit(4), Done);
    list.finish(5, 0);
    list.call(Call::Step(0), Refused(37));
    assert_eq!(list.call(Call::Commit(5), Done).woken, 1);
    list.finish(0, 15);
}

/// Eight lanes, so that a circle may go by way of every slot.
fn lanes() -> Library {
    let objects: String = (0..8).map(|lane| format!("object lane{lane} lane {lane}\n")).collect();
    let class = "class lane\nfield focus\nmethod put\nset focus arg\nend\nmethod look\nreply focus\nend\n";
    reference::read(format!("{class}{objects}").as_bytes()).unwrap()
}

/// Slots put each to its own lane and then to the next one's: the last to do so would close the circle. It is told 42 and keeps what it
/// has; when it is aborted the one that waits for it starts.
#[test]
fn circles() {
    let library = lanes();
    for many in 2..=8 {
        let mut list = List::start(&library);
        for slot in 0..many {
            list.send(slot, Target::Object(slot), PUT, Done);
            list.finish(slot, 0);
        }
        for slot in 0..many - 1 {
            list.send(slot, Target::Object(slot + 1), PUT, Held(slot + 1));
        }
        let (line, values) = (list.line(), list.machine.values());
        let last = many - 1;
        for _ in 0..2 {
            assert_eq!(list.send(last, Target::Object(0), PUT, Refused(42)).circle, Some(many as usize));
            assert_eq!((list.line(), list.machine.values()), (line.clone(), values.clone()));
        }
        // A send that its slot has the locks for starts all the same, and one that nobody waits behind joins.
        list.send(last, Target::Object(last), PUT, Done);
        list.finish(last, 0);
        if many < 8 {
            list.send(7, Target::Object(0), PUT, Held(0));
        }
        let seen = list.call(Call::Abort(last), Done);
        assert!(!seen.withdrawn && seen.woken == 1, "{many}: {seen:?}");
        for slot in (0..last).rev() {
            list.finish(slot, 0);
            list.call(Call::Commit(slot), Done);
        }
        assert_eq!(list.machine.idle(), many == 8);
    }
}

/// A slot that is told 42 may wait for somebody else, or go on with another lane.
#[test]
fn no_circle() {
    let library = lanes();
    let mut list = List::start(&library);
    for (slot, lane) in [(0, 0), (1, 1), (2, 2)] {
        list.send(slot, Target::Object(lane), PUT, Done);
        list.finish(slot, 0);
    }
    list.send(0, Target::Object(1), PUT, Held(1));
    list.send(1, Target::Object(0), PUT, Refused(42));
    list.send(1, Target::Object(2), PUT, Held(2));
    list.send(2, Target::Object(0), LOOK, Refused(42));
    list.send(2, Target::Object(1), LOOK, Refused(42));
    list.send(2, Target::Object(3), LOOK, Done);
    list.finish(2, 3);
    assert_eq!(list.call(Call::Commit(2), Done).woken, 1);
    // Nobody waits for a closed slot: its send joins.
    for lane in 0..3 {
        list.send(4 + lane, Target::Object(lane), PUT, Held([0, 0, 1][lane as usize]));
    }
}

/// By way of a waiter: nobody holds a lock that the look clashes with, but the put that waits ahead waits for the looking slot itself.
#[test]
fn circles_of_fairness() {
    let library = lanes();
    let mut list = List::start(&library);
    list.send(0, Target::Object(0), LOOK, Done);
    list.finish(0, 0);
    list.send(1, Target::Object(1), LOOK, Done);
    list.finish(1, 1);
    list.send(2, Target::Object(1), PUT, Held(1));
    // The put of lane 0 waits for slot 0; a look at all lanes would wait for it and for slot 2.
    list.send(3, Target::Object(0), PUT, Held(0));
    assert!(list.send(0, Target::Class(0), LOOK, Refused(42)).by_waiters);
    assert!(list.send(1, Target::Class(0), LOOK, Refused(42)).by_waiters);
    // Slot 0 may wait for slot 2; then slot 1 would wait for itself by way of slots 3, 0 and 2.
    assert!(list.send(0, Target::Object(1), LOOK, Held(2)).behind_waiters);
    let seen = list.send(1, Target::Object(0), LOOK, Refused(42));
    assert_eq!((seen.circle, seen.by_waiters, list.line()), (Some(4), true, vec![2, 3, 0]));
    list.call(Call::Abort(2), Done);
    list.finish(0, 1);
    list.call(Call::Commit(0), Done);
    assert_eq!(list.line(), []);
}
