//! The lock machine: `Machine` keeps a state and holds its text and values, so that nobody else alters them; `lent` has the
//! same calls for a host that keeps the memory itself.

use crate::{entries, Fault};

/// The length of a state, the same for every text.
pub use crate::layout::STATE_WORDS;

/// Whom a send names, by number: an object, a class's own objects, or a class with all its descendants.
#[derive(Clone, Copy, Debug, PartialEq, Eq)]
pub enum Target {
    Object(u32),
    Class(u32),
    Domain(u32),
}

/// Why a machine was not started.
#[derive(Clone, Copy, Debug, PartialEq, Eq)]
pub enum NotStarted {
    Text(Fault),
    /// 21: the state is shorter than `STATE_WORDS`.
    ShortState,
    /// 22: the list has another count than the fields.
    OtherCount,
}

/// What a tablet did wrong; nothing is altered.
#[derive(Clone, Copy, Debug, PartialEq, Eq)]
pub enum Refusal {
    /// 31: the slot is above 7.
    NoSuchSlot,
    /// 32: the slot is not open.
    NotOpen,
    /// 34: a message runs.
    Running,
    /// 35: no message runs.
    NotRunning,
    /// 36: no such object, class or method.
    NothingThere,
    /// 37: the slot's send waits in line.
    Waiting,
    /// 42: the send would have to wait, and would close a circle of waits.
    Circle,
}

/// A send that is not refused.
#[derive(Clone, Copy, Debug, PartialEq, Eq)]
pub enum Sent {
    /// Its message is at its start.
    Granted,
    /// 40: it waits in line. This slot is the lowest that it clashes with, one that holds locks or one that waits.
    Held(u32),
}

/// A step that is not refused.
#[derive(Clone, Copy, Debug, PartialEq, Eq)]
pub enum Step {
    Going,
    /// The message's answer.
    Answer(u32),
    /// 41: the message is stopped and its transaction undone.
    Stopped,
}

/// The calls on a text, a state and values that the caller keeps.
pub mod lent {
    use super::{entries, Fault, NotStarted, Target};

    /// What a call answers.
    #[derive(Clone, Copy, Debug, PartialEq, Eq)]
    pub enum Outcome {
        /// Done; a send: granted.
        Done,
        Going,
        Answer(u32),
        /// 21, 24, 31 to 37, or 42.
        Refused(u32),
        /// 40.
        Held(u32),
        /// 41.
        Stopped,
    }

    /// An answer by its number, one of those that the header lists for the call, and what goes with it.
    fn outcome(number: u32, detail: u32, listed: &[u32]) -> Outcome {
        assert!(listed.contains(&number), "number {number} is not in the header");
        assert!(detail == 0 || number == 2 || number == 40, "{detail} goes with number {number}");
        match number {
            0 => Outcome::Done,
            1 => Outcome::Going,
            2 => Outcome::Answer(detail),
            40 => Outcome::Held(detail),
            41 => Outcome::Stopped,
            number => Outcome::Refused(number),
        }
    }

    pub fn start(text: &[u8], values: &[u32], state: &mut [u32]) -> Result<(), NotStarted> {
        let mut line = 0;
        let number = unsafe {
            entries::cishmolaq_start(text.as_ptr(), text.len(), values.as_ptr(), values.len(), state.as_mut_ptr(), state.len(), &mut line)
        };
        match number {
            0 => Ok(()),
            21 => Err(NotStarted::ShortState),
            22 => Err(NotStarted::OtherCount),
            number => Err(NotStarted::Text(Fault::named(number, line))),
        }
    }

    pub fn send(text: &[u8], state: &mut [u32], values: &[u32], slot: u32, target: Target, method: u32, argument: u32) -> Outcome {
        let (kind, named) = match target {
            Target::Object(object) => (0, object),
            Target::Class(class) => (1, class),
            Target::Domain(class) => (2, class),
        };
        send_to(text, state, values, slot, kind, named, method, argument)
    }

    /// A send to a target by its kind, whatever that is.
    #[allow(clippy::too_many_arguments)]
    pub fn send_to(text: &[u8], state: &mut [u32], values: &[u32], slot: u32, kind: u32, named: u32, method: u32, argument: u32) -> Outcome {
        let (mut detail, text, values) = (u32::MAX, (text.as_ptr(), text.len()), (values.as_ptr(), values.len()));
        let number = unsafe {
            let (state, words) = (state.as_mut_ptr(), state.len());
            entries::cishmolaq_send(text.0, text.1, state, words, values.0, values.1, slot, kind, named, method, argument, &mut detail)
        };
        outcome(number, detail, &[0, 21, 24, 31, 34, 36, 37, 40, 42])
    }

    pub fn step(text: &[u8], state: &mut [u32], values: &mut [u32], slot: u32) -> Outcome {
        let (mut detail, text, values) = (u32::MAX, (text.as_ptr(), text.len()), (values.as_mut_ptr(), values.len()));
        let number = unsafe {
            entries::cishmolaq_step(text.0, text.1, state.as_mut_ptr(), state.len(), values.0, values.1, slot, &mut detail)
        };
        outcome(number, detail, &[1, 2, 21, 24, 31, 32, 35, 37, 41])
    }

    pub fn commit(text: &[u8], state: &mut [u32], values: &[u32], slot: u32) -> Outcome {
        let (mut detail, text, values) = (u32::MAX, (text.as_ptr(), text.len()), (values.as_ptr(), values.len()));
        let number = unsafe {
            entries::cishmolaq_commit(text.0, text.1, state.as_mut_ptr(), state.len(), values.0, values.1, slot, &mut detail)
        };
        outcome(number, detail, &[0, 21, 24, 31, 32, 34, 37])
    }

    pub fn abort(text: &[u8], state: &mut [u32], values: &mut [u32], slot: u32) -> Outcome {
        let (mut detail, text, values) = (u32::MAX, (text.as_ptr(), text.len()), (values.as_mut_ptr(), values.len()));
        let number = unsafe {
            entries::cishmolaq_abort(text.0, text.1, state.as_mut_ptr(), state.len(), values.0, values.1, slot, &mut detail)
        };
        outcome(number, detail, &[0, 21, 24, 31, 32])
    }
}

use lent::Outcome;

/// The tablet's fault of an answer. 21, 22 and 24 are not given on what a start and the calls left.
fn refusal(answer: Outcome) -> Refusal {
    match answer {
        Outcome::Refused(31) => Refusal::NoSuchSlot,
        Outcome::Refused(32) => Refusal::NotOpen,
        Outcome::Refused(34) => Refusal::Running,
        Outcome::Refused(35) => Refusal::NotRunning,
        Outcome::Refused(36) => Refusal::NothingThere,
        Outcome::Refused(37) => Refusal::Waiting,
        Outcome::Refused(42) => Refusal::Circle,
        other => panic!("{other:?} of memory that only the machine altered"),
    }
}

fn done(answer: Outcome) -> Result<(), Refusal> {
    match answer {
        Outcome::Done => Ok(()),
        other => Err(refusal(other)),
    }
}

/// A machine after its start: eight slots, each with at most one open transaction.
pub struct Machine<'a> {
    text: &'a [u8],
    values: &'a mut [u32],
    state: Box<[u32]>,
}

impl<'a> Machine<'a> {
    /// Starts on a text and a list of values, object by object, which is taken as it is.
    pub fn start(text: &'a [u8], values: &'a mut [u32]) -> Result<Machine<'a>, NotStarted> {
        let mut state = vec![0; STATE_WORDS].into_boxed_slice();
        lent::start(text, values, &mut state)?;
        Ok(Machine { text, values, state })
    }

    /// The values now.
    pub fn values(&self) -> &[u32] {
        self.values
    }

    /// Sends the method at a place of the target's class, and opens the slot where that is closed. If held, the send waits in line
    /// until those that it clashes with have ended: then it starts by itself, and the slot's next call is not `Waiting`. One that would
    /// wait for its own slot, by way of others, is refused. Gives `NoSuchSlot`, `Waiting`, `Running`, `NothingThere` or `Circle`.
    pub fn send(&mut self, slot: u32, target: Target, method: u32, argument: u32) -> Result<Sent, Refusal> {
        match lent::send(self.text, &mut self.state, self.values, slot, target, method, argument) {
            Outcome::Done => Ok(Sent::Granted),
            Outcome::Held(by) => Ok(Sent::Held(by)),
            other => Err(refusal(other)),
        }
    }

    /// Runs one statement of the slot's message, or ends a body. Gives `NoSuchSlot`, `NotOpen`, `Waiting` or `NotRunning`.
    pub fn step(&mut self, slot: u32) -> Result<Step, Refusal> {
        match lent::step(self.text, &mut self.state, self.values, slot) {
            Outcome::Going => Ok(Step::Going),
            Outcome::Answer(value) => Ok(Step::Answer(value)),
            Outcome::Stopped => Ok(Step::Stopped),
            other => Err(refusal(other)),
        }
    }

    /// Closes the slot, leaves the values, and starts what waits for it. Gives `NoSuchSlot`, `NotOpen`, `Waiting` or `Running`.
    pub fn commit(&mut self, slot: u32) -> Result<(), Refusal> {
        done(lent::commit(self.text, &mut self.state, self.values, slot))
    }

    /// Puts back each value that the transaction set, takes back what it added to others, withdraws its send where that waits, closes
    /// the slot, and starts what waits for it. Gives `NoSuchSlot` or `NotOpen`.
    pub fn abort(&mut self, slot: u32) -> Result<(), Refusal> {
        done(lent::abort(self.text, &mut self.state, self.values, slot))
    }
}
