//! Tallies with `add` beside the same with `set` (document 02, Ticket 6): both ours, in turn.

use crate::clock::{both, shown, Time};
use wrapper::machine::lent::{self, Outcome};
use wrapper::machine::{Target, STATE_WORDS};

const ADD: &str = "add clusters arg\n";
const SET: &str = "set clusters + clusters arg\n";

/// How many tablets tally.
const TABLETS: usize = 4;
/// How many statements a long tally has.
const LONG: usize = 32;

/// A lane whose tally makes this statement as often as named.
fn lane(statement: &str, times: usize) -> Vec<u8> {
    format!("class lane\nfield clusters\nmethod tally\n{}end\nobject lane1 lane\n", statement.repeat(times)).into_bytes()
}

/// A machine on such a lane.
struct Lane {
    text: Vec<u8>,
    state: Vec<u32>,
    values: [u32; 1],
}

/// What was done until all tablets had committed: turns, calls, and how many of these were told that they wait, by 40 or 37.
#[derive(Clone, Copy, Debug, Default, PartialEq)]
struct Work {
    turns: u32,
    calls: u32,
    waited: u32,
}

/// The slot's send waits.
const WAITS: Outcome = Outcome::Refused(37);

#[derive(Clone, Copy, PartialEq)]
enum Next {
    Send,
    Step,
    Commit,
    Nothing,
}

impl Lane {
    fn start(statement: &str, times: usize) -> Lane {
        let (text, values, mut state) = (lane(statement, times), [0], vec![0; STATE_WORDS]);
        lent::start(&text, &values, &mut state).unwrap();
        Lane { text, state, values }
    }

    fn send(&mut self, slot: u32) -> Outcome {
        lent::send(&self.text, &mut self.state, &self.values, slot, Target::Object(0), 0, slot + 1)
    }

    fn step(&mut self, slot: u32) -> Outcome {
        lent::step(&self.text, &mut self.state, &mut self.values, slot)
    }

    fn commit(&mut self, slot: u32) -> Outcome {
        lent::commit(&self.text, &mut self.state, &self.values, slot)
    }

    /// A transaction of one tally in slot 0.
    fn transaction(&mut self) -> bool {
        self.send(0);
        while self.step(0) == Outcome::Going {}
        self.commit(0) == Outcome::Done
    }

    /// One call of a tablet: what it does next.
    fn turn(&mut self, slot: u32, next: Next) -> (Next, Outcome) {
        let outcome = match next {
            Next::Send => self.send(slot),
            Next::Step => self.step(slot),
            _ => self.commit(slot),
        };
        let then = match (next, outcome) {
            (Next::Send, Outcome::Done | Outcome::Held(_)) | (Next::Step, Outcome::Going | WAITS) => Next::Step,
            (Next::Step, Outcome::Answer(_)) => Next::Commit,
            (Next::Commit, Outcome::Done) => Next::Nothing,
            _ => panic!("{outcome:?}"),
        };
        (then, outcome)
    }

    /// A transaction of one tally by each tablet. They make a call each in turn; one that waits steps again when its turn comes.
    fn in_turn(&mut self) -> Work {
        let mut next = [Next::Send; TABLETS];
        let mut work = Work::default();
        while next != [Next::Nothing; TABLETS] {
            work.turns += 1;
            for slot in 0..TABLETS {
                if next[slot] != Next::Nothing {
                    let (then, outcome) = self.turn(slot as u32, next[slot]);
                    work.calls += 1;
                    work.waited += matches!(outcome, Outcome::Held(_) | WAITS) as u32;
                    next[slot] = then;
                }
            }
        }
        work
    }
}

fn row(what: &str, (add, set): (Time, Time)) {
    println!("| {what} | {} | {} | {:.2} |", shown(add), shown(set), set / add);
}

/// Four tablets in turn, one by itself, and one step, with `add` and with `set`.
pub fn table() {
    let (mut add, mut set) = (Lane::start(ADD, 1), Lane::start(SET, 1));
    let (with_add, with_set) = (add.in_turn(), set.in_turn());
    assert_eq!((add.values, with_add.waited), (set.values, 0));
    println!("\n| {TABLETS} tablets tally into one field, a call each in turn | turns | calls | answered 40 or 37 |\n|---|---|---|---|");
    for (what, work) in [("with `add`", with_add), ("with `set`", with_set)] {
        println!("| {what} | {} | {} | {} |", work.turns, work.calls, work.waited);
    }
    println!("\n| ours | with `add` | with `set` | ratio |\n|---|---|---|---|");
    row(&format!("{TABLETS} tablets in turn, until all have committed"), both(|| add.in_turn() == with_add, || set.in_turn() == with_set));
    row("one tablet: send, 2 steps, commit", both(|| add.transaction(), || set.transaction()));
    let (mut add, mut set) = (Lane::start(ADD, LONG), Lane::start(SET, LONG));
    let (adds, sets) = both(|| add.transaction(), || set.transaction());
    let steps = (LONG + 1) as f64;
    row(&format!("one of {steps} steps"), (adds / steps, sets / steps));
}
