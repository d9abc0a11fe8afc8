//! A line of seven (document 02, Tickets 7 and 8): the calls that start those who wait, that join, that would close a circle of waits and
//! that withdraw, ours and the second implementation's in turn; and the hand-over beside Berkeley DB's, whose lockers wait in threads.

use crate::clock::{self, shown, Time};
use reference::machine::{Answer, Call, Target};
use wrapper::machine::lent::{self, Outcome};
use wrapper::machine::STATE_WORDS;

/// The slots that wait; slot 0 holds.
const WAITERS: std::ops::Range<u32> = 1..8;

/// One for each slot.
const OBJECTS: u32 = 8;

fn text() -> Vec<u8> {
    let objects: String = (0..OBJECTS).map(|k| format!("object lane{k} lane\n")).collect();
    format!("class lane\nfield focus\nmethod tune\nset focus arg\nend\n{objects}").into_bytes()
}

fn send(slot: u32, target: Target) -> Call {
    Call::Send { slot, target, method: 0, argument: slot }
}

/// Calls, of which one is timed: those before it, the number that refuses it, or 0, and those that leave nothing open after it.
struct Timed {
    what: &'static str,
    before: Vec<Call>,
    call: Call,
    refused: u32,
    after: Vec<Call>,
}

/// Slot 0 locks all objects and has its answer; the others send to these objects.
fn waiting(object: impl Fn(u32) -> u32, joined: u32) -> Vec<Call> {
    let holds = [send(0, Target::Class(0))].into_iter().chain([Call::Step(0); 2 * OBJECTS as usize]);
    holds.chain(WAITERS.take(joined as usize).map(|slot| send(slot, Target::Object(object(slot))))).collect()
}

/// Each slot sends to its object and has its answer, then each but the last to the next one's.
fn in_a_row() -> Vec<Call> {
    let holds = (0..8).flat_map(|slot| [send(slot, Target::Object(slot)), Call::Step(slot), Call::Step(slot)]);
    holds.chain((0..7).map(|slot| send(slot, Target::Object(slot + 1)))).collect()
}

fn aborts() -> Vec<Call> {
    (0..8).map(Call::Abort).collect()
}

fn all() -> Vec<Timed> {
    let (own, first) = (|slot: u32| slot - 1, |_: u32| 0);
    let timed = |what, before, call| Timed { what, before, call, refused: 0, after: aborts() };
    let refused = |what, before, call| Timed { refused: 42, ..timed(what, before, call) };
    vec![
        timed("a commit that starts seven, on seven objects", waiting(own, 7), Call::Commit(0)),
        timed("a commit that starts the first of seven, on one object", waiting(first, 7), Call::Commit(0)),
        timed("the same commit with nobody in line", waiting(own, 0), Call::Commit(0)),
        timed("a send that starts, with nobody in line", Vec::new(), send(1, Target::Object(0))),
        timed("a send that joins as the first", waiting(own, 0), send(1, Target::Object(0))),
        timed("a send that joins as the seventh", waiting(own, 6), send(7, Target::Object(6))),
        timed("the same, where all seven are on one object", waiting(first, 6), send(7, Target::Object(0))),
        refused("a send of the holder that is told 42, with seven in line", waiting(own, 7), send(0, Target::Object(0))),
        refused("the same, where all seven are on one object", waiting(first, 7), send(0, Target::Object(0))),
        refused("a send that is told 42 for a circle of eight", in_a_row(), send(7, Target::Object(0))),
        timed("an abort that withdraws the last of seven", waiting(own, 7), Call::Abort(7)),
    ]
}

/// Makes calls, and tells the time of the one that is timed.
fn made(timed: &Timed, mut call: impl FnMut(Call) -> u32) -> Time {
    for &before in &timed.before {
        assert_eq!(call(before), 0, "{before:?}");
    }
    let mut refused = 0;
    let time = clock::timed(|| refused = call(timed.call));
    assert_eq!(refused, timed.refused, "{:?}", timed.call);
    for &after in &timed.after {
        call(after);
    }
    time
}

/// The library's machine: the number of a call that is refused or stopped, 0 for one that is done, going on, answered, or joins.
fn ours(text: &[u8]) -> impl FnMut(Call) -> u32 + '_ {
    let mut values = vec![0; OBJECTS as usize];
    let mut state = vec![0; STATE_WORDS];
    lent::start(text, &values, &mut state).unwrap();
    move |call| {
        let outcome = match call {
            Call::Send { slot, target, method, argument } => {
                let target = match target {
                    Target::Object(n) => wrapper::machine::Target::Object(n),
                    Target::Class(n) => wrapper::machine::Target::Class(n),
                    Target::Domain(n) => wrapper::machine::Target::Domain(n),
                };
                lent::send(text, &mut state, &values, slot, target, method, argument)
            }
            Call::Step(slot) => lent::step(text, &mut state, &mut values, slot),
            Call::Commit(slot) => lent::commit(text, &mut state, &values, slot),
            Call::Abort(slot) => lent::abort(text, &mut state, &mut values, slot),
        };
        match outcome {
            Outcome::Refused(number) => number,
            Outcome::Stopped => 41,
            _ => 0,
        }
    }
}

/// The times of each, ours and the second implementation's.
pub fn table() {
    let text = text();
    let library = reference::read(&text).unwrap();
    println!("\n| with a line | ours | second | ratio |\n|---|---|---|---|");
    for timed in all() {
        let mut first = ours(&text);
        let mut machine = reference::machine::Machine::start(&library, &library.starting_values()).unwrap();
        let mut second = |call| match machine.call(call) {
            Answer::Refused(number) => number,
            Answer::Stopped => 41,
            _ => 0,
        };
        let times = clock::parts(|| made(&timed, &mut first), || made(&timed, &mut second));
        println!("| {} | {} | {} | {:.3} |", timed.what, shown(times.0), shown(times.1), times.0 / times.1);
    }
}

/// The hand-over to seven, beside Berkeley DB's to seven lockers that wait in threads.
pub fn beside(berkeley: &str) {
    let text = text();
    let mut calls = ours(&text);
    let timed = &all()[0];
    let (ours, _) = clock::parts(|| made(timed, &mut calls), || 0.0);
    let times = clock::of_programs(&[vec![berkeley, "waiting"]]);
    println!("\n| hand-over to seven that wait | time | times ours |\n|---|---|---|");
    println!("| ours: the commit | {} | 1 |", shown(ours));
    for (what, time) in ["the call that puts the holder's lock", "until the last of seven threads has gone on"].iter().zip(&times[0]) {
        println!("| Berkeley DB: {what} | {} | {:.1} |", shown(*time), time / ours);
    }
}
