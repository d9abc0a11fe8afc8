//! Calls with a look at all memory after each, also where it is something other than start and the calls left: each call ends, answers
//! what its slot's phase allows, and alters nothing but its slot's row, the values that it notes or has noted, and by 40 or by an end the
//! line and the rows of slots that wait. A send that waits starts only where its words name a target and a method.

use crate::guard::Guarded;
use crate::library::{answer, target, GUARD};
use crate::machine::Counts;
use reference::machine::{Answer, Call};
use std::ops::Range;
use wrapper::layout::{self, FIRST_IN_LINE_AT, LINE_AT, MARKS_AT, NOTES_AT, PHASE_AT, ROW_WORDS, SPARE_AT, TABLE_WORDS, WAITING_AT, WAITING_WORDS};
use wrapper::machine::{lent, STATE_WORDS};

/// A text, a state and values, with guards, and what each was before the next call.
pub struct Memory {
    text: Guarded<u8>,
    state: Guarded<u32>,
    values: Guarded<u32>,
    text_before: Vec<u8>,
    state_before: Vec<u32>,
    values_before: Vec<u32>,
    pub counts: Counts,
}

impl Memory {
    pub fn new(text: &[u8], state: &[u32], values: &[u32]) -> Memory {
        Memory {
            text: Guarded::new(text, 0xa5),
            state: Guarded::new(state, GUARD),
            values: Guarded::new(values, GUARD),
            text_before: text.to_vec(),
            state_before: state.to_vec(),
            values_before: values.to_vec(),
            counts: Counts::new(),
        }
    }

    /// A machine after its start.
    pub fn started(text: &[u8], values: &[u32]) -> Memory {
        let mut state = vec![0; STATE_WORDS];
        lent::start(text, values, &mut state).expect("a start");
        Memory::new(text, &state, values)
    }

    pub fn text(&self) -> &[u8] {
        &self.text_before
    }

    pub fn state(&self) -> &[u32] {
        &self.state_before
    }

    pub fn values(&self) -> &[u32] {
        &self.values_before
    }

    /// Takes over a state and values of the same lengths.
    pub fn set(&mut self, state: &[u32], values: &[u32]) {
        self.state.lent().copy_from_slice(state);
        self.values.lent().copy_from_slice(values);
        self.state_before.copy_from_slice(state);
        self.values_before.copy_from_slice(values);
    }

    pub fn put_word(&mut self, place: usize, word: u32) {
        self.state.lent()[place] = word;
        self.state_before[place] = word;
    }

    pub fn put_byte(&mut self, place: usize, byte: u8) {
        self.text.lent()[place] = byte;
        self.text_before[place] = byte;
    }

    /// Makes a call and looks at all memory after it. The wrapper looks at the number.
    pub fn call(&mut self, call: Call) -> Answer {
        let (text, state, values) = (self.text.contents(), self.state.lent(), self.values.lent());
        let (slot, outcome) = match call {
            Call::Send { slot, target: to, method, argument } => (slot, lent::send(text, state, values, slot, target(to), method, argument)),
            Call::Step(slot) => (slot, lent::step(text, state, values, slot)),
            Call::Commit(slot) => (slot, lent::commit(text, state, values, slot)),
            Call::Abort(slot) => (slot, lent::abort(text, state, values, slot)),
        };
        let answer = answer(outcome);
        self.look(call, answer, slot as usize);
        let said = reference::lines::said(answer);
        *self.counts.entry(said.split(' ').next().unwrap().to_string()).or_insert(0) += 1;
        answer
    }

    /// The number by which a call is refused before its send or its step is looked at: 21, 24, 31, then what the slot's phase says.
    fn refusal(&self, call: Call, slot: usize) -> Option<u32> {
        let (state, values) = (&self.state_before, self.values_before.len());
        if state.len() < STATE_WORDS {
            return Some(21);
        }
        let lengths = [(layout::TEXT_LENGTH_AT, self.text_before.len()), (layout::VALUE_COUNT_AT, values)];
        let started = state[layout::START_MARK_AT] == layout::START_MARK && values <= layout::VALUES;
        if !started || lengths.iter().any(|&(place, length)| state[place] as usize != length) || ROOMS.iter().any(|&(place, room)| state[place] > room) {
            return Some(24);
        }
        if slot >= 8 {
            return Some(31);
        }
        match (phase(state, slot), call) {
            (0, Call::Send { .. }) | (1, Call::Send { .. } | Call::Commit(_)) | (2, Call::Step(_)) | (1..=3, Call::Abort(_)) => None,
            (0, _) => Some(32),
            (1, _) => Some(35),
            (2, _) => Some(34),
            (3, _) => Some(37),
            _ => Some(24),
        }
    }

    fn look(&mut self, call: Call, answer: Answer, slot: usize) {
        assert!(self.text.contents() == self.text_before, "{call:?} altered the text");
        match self.refusal(call, slot) {
            Some(number) => assert_eq!(answer, Answer::Refused(number), "{call:?}"),
            None => assert!(is_answer(call, answer), "{call:?} answered {answer:?}"),
        }
        let (state, values) = (self.state.contents(), self.values.contents());
        if let Answer::Held(by) = answer {
            assert!(by < 8 && by as usize != slot, "{call:?} is held by slot {by}");
            assert!(phase(state, by as usize) != 0, "{call:?} is held by slot {by}, which is closed");
            assert!(phase(state, slot) == 3, "{call:?} is held, and its slot does not wait");
            assert_eq!(in_line(state), [in_line(&self.state_before), vec![slot as u32]].concat(), "the line after {call:?}");
        }
        if ends(call, answer) {
            look_at_waking(&self.state_before, state, call, slot);
        }
        for v in (0..values.len()).filter(|&v| values[v] != self.values_before[v]) {
            assert!(may_change(&self.state_before, state, call, answer, slot, v), "{call:?} answered {answer:?} and altered value {v}");
        }
        self.values_before.copy_from_slice(values);
        // By parts, of which most are the same.
        for (from, part) in (0..).step_by(PART).zip(state.chunks(PART)) {
            let range = from..from + part.len();
            if self.state_before[range.clone()] == *part {
                continue;
            }
            for place in range.clone().filter(|&place| state[place] != self.state_before[place]) {
                let may = may_alter(&self.state_before, state, call, answer, slot, place);
                assert!(may, "{call:?} answered {answer:?} and altered word {place}");
            }
        }
        self.state_before.copy_from_slice(state);
    }
}

/// How many words are compared at once.
const PART: usize = 512;

/// The counts in a state's words, and the room that each has.
pub const ROOMS: [(usize, u32); 4] = [
    (layout::CLASS_COUNT_AT, layout::CLASSES),
    (layout::STATEMENT_COUNT_AT, layout::STATEMENTS),
    (layout::OBJECT_COUNT_AT, layout::OBJECTS),
    (LINE_AT, layout::SLOTS),
];

/// The words of a row that hold its waiting send.
pub const WAITING: Range<usize> = WAITING_AT..WAITING_AT + WAITING_WORDS;

/// Where a word of a slot's row stands.
pub fn row_at(slot: usize, word: usize) -> usize {
    TABLE_WORDS + slot * ROW_WORDS + word
}

pub fn phase(state: &[u32], slot: usize) -> u32 {
    state[row_at(slot, PHASE_AT)]
}

/// What the words say of the line: the slots that wait.
pub fn in_line(state: &[u32]) -> Vec<u32> {
    state[FIRST_IN_LINE_AT..][..state[LINE_AT] as usize].to_vec()
}

/// Whether a slot's row has a note of a value, or marks it as changed or as set.
pub fn is_noted(state: &[u32], slot: usize, value: usize) -> bool {
    let marked = |marks: usize| state[row_at(slot, marks + value / 32)] >> (value % 32) & 1 == 1;
    marked(MARKS_AT) || marked(layout::SET_MARKS_AT) || state[row_at(slot, NOTES_AT + value)] != 0
}

/// Whether a call that its slot's phase allows may answer this.
fn is_answer(call: Call, answer: Answer) -> bool {
    match call {
        Call::Send { .. } => matches!(answer, Answer::Done | Answer::Held(_) | Answer::Refused(24 | 36 | 42)),
        Call::Step(_) => matches!(answer, Answer::Going | Answer::Answer(_) | Answer::Stopped | Answer::Refused(24)),
        Call::Commit(_) | Call::Abort(_) => answer == Answer::Done,
    }
}

/// Whether a call that was answered so has ended its slot's transaction.
fn ends(call: Call, answer: Answer) -> bool {
    matches!((call, answer), (Call::Commit(_) | Call::Abort(_), Answer::Done) | (Call::Step(_), Answer::Stopped))
}

/// Whether the words of a slot's waiting send name a target that exists, and a method that its class has.
fn is_sendable(state: &[u32], slot: usize) -> bool {
    let [kind, number, place] = [layout::KIND_AT, layout::NUMBER_AT, layout::PLACE_AT].map(|word| state[row_at(slot, WAITING_AT + word)]);
    let class = match kind {
        layout::OBJECT_KIND if number < state[layout::OBJECT_COUNT_AT] => {
            state[layout::OBJECTS_AT + number as usize * layout::OBJECT_WORDS + layout::OBJECT_CLASS_AT as usize]
        }
        layout::CLASS_KIND | layout::DOMAIN_KIND => number,
        _ => return false,
    };
    if class >= state[layout::CLASS_COUNT_AT] {
        return false;
    }
    let methods = state[layout::CLASSES_AT + class as usize * layout::CLASS_WORDS + layout::METHOD_COUNT_AT as usize];
    place < methods.min(layout::MEMBERS)
}

/// After an end its slot is closed; those of the line that still wait are in line, in the order in which they were; and whoever has started
/// was in line, with a send that could be sent.
fn look_at_waking(before: &[u32], after: &[u32], call: Call, slot: usize) {
    assert_eq!(phase(after, slot), 0, "{call:?} left its slot open");
    let line = in_line(before);
    let waits = |t: &u32| *t < 8 && phase(after, *t as usize) == 3;
    assert_eq!(in_line(after), line.iter().copied().filter(waits).collect::<Vec<_>>(), "the line after {call:?}");
    for t in (0..8).filter(|&t| t != slot && phase(before, t) != phase(after, t)) {
        assert!(phase(before, t) == 3 && phase(after, t) == 2 && line.contains(&(t as u32)), "{call:?} altered the phase of slot {t}");
        assert!(is_sendable(before, t), "{call:?} started the send of slot {t}, which names no target or no method");
    }
}

/// Whether a call may change this value: a step the one that it notes, an end those that its slot has noted.
fn may_change(before: &[u32], after: &[u32], call: Call, answer: Answer, slot: usize, value: usize) -> bool {
    match (call, answer) {
        (Call::Step(_), Answer::Going | Answer::Answer(_)) => is_noted(after, slot, value),
        (Call::Step(_), Answer::Stopped) | (Call::Abort(_), Answer::Done) => is_noted(before, slot, value),
        _ => false,
    }
}

/// Whether a call that was answered so may alter this word, of its slot's row, of the line, or of the row of a slot that waits.
fn may_alter(before: &[u32], after: &[u32], call: Call, answer: Answer, slot: usize, place: usize) -> bool {
    let joins = matches!(answer, Answer::Held(_));
    if matches!(answer, Answer::Refused(_)) || !(TABLE_WORDS..STATE_WORDS).contains(&place) {
        return false;
    }
    if place >= LINE_AT {
        return joins || ends(call, answer);
    }
    let (of, word) = ((place - TABLE_WORDS) / ROW_WORDS, (place - TABLE_WORDS) % ROW_WORDS);
    if of != slot {
        // A send that waited starts: it has its message and its locks, and no note.
        return ends(call, answer) && phase(before, of) == 3 && phase(after, of) == 2 && (word < MARKS_AT || WAITING.contains(&word));
    }
    match call {
        // A send that joins leaves its slot's locks and notes.
        Call::Send { .. } if joins => word == PHASE_AT || WAITING.contains(&word),
        Call::Send { .. } => word < MARKS_AT,
        _ => !(SPARE_AT..NOTES_AT).contains(&word),
    }
}
