//! The proved library's machine, as a machine that is compared: on guarded memory, and by the wrapper's `Machine`.

use crate::guard::Guarded;
use crate::machine::{Counts, List, Machine, Note, Slot};
use generate::Random;
use reference::machine::{Answer, Target};
use wrapper::layout::{ARGUMENT_AT, FIRST_IN_LINE_AT, LINE_AT, MARKS_AT, NOTES_AT, PHASE_AT, ROW_WORDS};
use wrapper::layout::{SET_MARKS_AT, TABLE_WORDS, WAITING_AT, WAITING_WORDS};
use wrapper::machine::lent::{self, Outcome};
use wrapper::machine::{NotStarted, Refusal, Sent, Step, STATE_WORDS};

/// The guard element of words.
pub const GUARD: u32 = 0xa5a5_a5a5;

pub fn target(target: Target) -> wrapper::machine::Target {
    match target {
        Target::Object(n) => wrapper::machine::Target::Object(n),
        Target::Class(n) => wrapper::machine::Target::Class(n),
        Target::Domain(n) => wrapper::machine::Target::Domain(n),
    }
}

pub fn answer(outcome: Outcome) -> Answer {
    match outcome {
        Outcome::Done => Answer::Done,
        Outcome::Going => Answer::Going,
        Outcome::Answer(value) => Answer::Answer(value),
        Outcome::Refused(number) => Answer::Refused(number),
        Outcome::Held(slot) => Answer::Held(slot),
        Outcome::Stopped => Answer::Stopped,
    }
}

/// A machine on lent memory with guards around it; the state is longer than it must be, by words that no call may alter.
#[derive(Clone)]
pub struct Lent {
    text: Guarded<u8>,
    state: Guarded<u32>,
    values: Guarded<u32>,
    text_before: Vec<u8>,
    past: Vec<u32>,
}

impl Lent {
    /// Starts in a state that holds anything.
    pub fn start(random: &mut Random, text: &[u8], values: &[u32]) -> Result<Lent, NotStarted> {
        let longer = random.below(3) * random.below(20);
        let rubbish: Vec<u32> = (0..STATE_WORDS + longer).map(|_| random.next() as u32).collect();
        let mut machine = Lent {
            text: Guarded::new(text, 0xa5),
            state: Guarded::new(&rubbish, GUARD),
            values: Guarded::new(values, GUARD),
            text_before: text.to_vec(),
            past: rubbish[STATE_WORDS..].to_vec(),
        };
        lent::start(machine.text.contents(), machine.values.contents(), machine.state.lent())?;
        Ok(machine)
    }
}

/// Starts the library's machine on a text and makes a list of calls beside the second implementation.
pub fn beside(text: &[u8], values: &[u32], random: &mut Random, make: impl FnOnce(List, &mut Random) -> Counts) -> Counts {
    let library = reference::read(text).expect("an accepted text");
    let mut machine = Lent::start(random, text, values).expect("a start");
    make(List::new(&library, values, &mut machine), random)
}

/// What a row says of its slot, on so many values. A closed slot's is all zero, and the words of a waiting send are where none waits.
fn slot(row: &[u32], values: usize) -> Slot {
    let phase = row[PHASE_AT];
    assert!(phase != 0 || row.iter().all(|&word| word == 0), "the row of a closed slot holds something");
    let waiting = &row[WAITING_AT..][..WAITING_WORDS];
    assert!(phase == 3 || waiting.iter().all(|&word| word == 0), "the row of a slot that does not wait holds a waiting send");
    let bit = |at: usize, k: usize| row[at + k / 32] >> (k % 32) & 1 == 1;
    let note = |k: usize| if bit(SET_MARKS_AT, k) { Note::Old(row[NOTES_AT + k]) } else { Note::Added(row[NOTES_AT + k]) };
    for k in 0..values {
        assert!(bit(MARKS_AT, k) || note(k) == Note::Added(0), "value {k} has a note and no mark");
    }
    let waits_with = (phase == 3).then_some(waiting[ARGUMENT_AT]);
    Slot { phase, waits_with, notes: (0..values).filter(|&k| bit(MARKS_AT, k)).map(|k| (k, note(k))).collect() }
}

impl Machine for Lent {
    fn slots(&self) -> Option<Vec<Slot>> {
        let (rows, values) = (&self.state.contents()[TABLE_WORDS..], self.values.contents().len());
        Some(rows.chunks(ROW_WORDS).take(8).map(|row| slot(row, values)).collect())
    }

    fn line(&self) -> Option<Vec<u32>> {
        let state = self.state.contents();
        Some(state[FIRST_IN_LINE_AT..][..state[LINE_AT] as usize].to_vec())
    }

    fn send(&mut self, slot: u32, to: Target, method: u32, argument: u32) -> Answer {
        answer(lent::send(self.text.contents(), self.state.lent(), self.values.contents(), slot, target(to), method, argument))
    }

    fn step(&mut self, slot: u32) -> Answer {
        answer(lent::step(self.text.contents(), self.state.lent(), self.values.lent(), slot))
    }

    fn commit(&mut self, slot: u32) -> Answer {
        answer(lent::commit(self.text.contents(), self.state.lent(), self.values.contents(), slot))
    }

    fn abort(&mut self, slot: u32) -> Answer {
        answer(lent::abort(self.text.contents(), self.state.lent(), self.values.lent(), slot))
    }

    fn fields(&self) -> Vec<u32> {
        assert!(self.text.contents() == self.text_before, "a call altered the text");
        assert!(self.state.contents()[STATE_WORDS..] == self.past, "a call wrote past the state's words");
        self.values.contents().to_vec()
    }
}

fn refused(refusal: Refusal) -> Answer {
    Answer::Refused(match refusal {
        Refusal::NoSuchSlot => 31,
        Refusal::NotOpen => 32,
        Refusal::Running => 34,
        Refusal::NotRunning => 35,
        Refusal::NothingThere => 36,
        Refusal::Waiting => 37,
        Refusal::Circle => 42,
    })
}

fn done(result: Result<(), Refusal>) -> Answer {
    result.map_or_else(refused, |()| Answer::Done)
}

impl Machine for wrapper::machine::Machine<'_> {
    fn send(&mut self, slot: u32, to: Target, method: u32, argument: u32) -> Answer {
        match self.send(slot, target(to), method, argument) {
            Ok(Sent::Granted) => Answer::Done,
            Ok(Sent::Held(by)) => Answer::Held(by),
            Err(refusal) => refused(refusal),
        }
    }

    fn step(&mut self, slot: u32) -> Answer {
        match self.step(slot) {
            Ok(Step::Going) => Answer::Going,
            Ok(Step::Answer(value)) => Answer::Answer(value),
            Ok(Step::Stopped) => Answer::Stopped,
            Err(refusal) => refused(refusal),
        }
    }

    fn commit(&mut self, slot: u32) -> Answer {
        done(self.commit(slot))
    }

    fn abort(&mut self, slot: u32) -> Answer {
        done(self.abort(slot))
    }

    fn fields(&self) -> Vec<u32> {
        self.values().to_vec()
    }
}
