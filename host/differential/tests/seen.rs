//! The comparison sees machines that are wrong: each fault that a reviewer of documents 01 and 02 tries, put around the second
//! implementation. Ticket 4 by itself, with nothing to compare with, sees machines that demand 3 does not; and it sees additions that are
//! undone wrongly (Ticket 6).

use differential::machine::{make, Copied, List, Machine, ORDERS};
use generate::calls::{text_to_call, values_for, Caller};
use generate::{tally, Random};
use reference::course::{alone, Course};
use reference::machine::{message, Answer, Call, Change, Message, Target};
use reference::text::Library;
use std::collections::HashMap;

type Second<'a> = reference::machine::Machine<'a>;

#[derive(Clone, Copy, Debug, PartialEq)]
enum Fault {
    None,
    EverySendHeld,
    EveryAnswer0,
    NoFieldAltered,
    AllInTheFirstStep,
    StopsEarly,
    CommitUndoes,
    AbortCommits,
    HeldByTheWrongSlot,
    FirstSendRefused,
    GrantedSendLeavesClosed,
    HeldSendLeavesClosed,
    RefusedSendOpens,
    CircleToldAsHeld,
    HeldToldAsCircle,
}

#[derive(Clone)]
struct Faulty<'a> {
    machine: Second<'a>,
    fault: Fault,
    start: Vec<u32>,
    /// Steps made, and an answer that is kept back, by slot.
    steps: [u32; 8],
    kept: [Option<Answer>; 8],
    /// Open because of a send that was refused.
    opened: [bool; 8],
}

impl Machine for Faulty<'_> {
    fn send(&mut self, slot: u32, target: Target, method: u32, argument: u32) -> Answer {
        let first = slot < 8 && !self.machine.is_open(slot);
        match self.fault {
            Fault::EverySendHeld => return Answer::Held(0),
            Fault::FirstSendRefused if first => return Answer::Refused(32),
            _ => {}
        }
        let answer = Machine::send(&mut self.machine, slot, target, method, argument);
        match (self.fault, answer) {
            (Fault::HeldByTheWrongSlot, Answer::Held(by)) => return Answer::Held((by + 1) % 8),
            (Fault::CircleToldAsHeld, Answer::Refused(42)) => return Answer::Held(0),
            (Fault::HeldToldAsCircle, Answer::Held(_)) => return Answer::Refused(42),
            (Fault::GrantedSendLeavesClosed, Answer::Done) if first => drop(Machine::abort(&mut self.machine, slot)),
            (Fault::HeldSendLeavesClosed, Answer::Held(_)) if first => drop(Machine::abort(&mut self.machine, slot)),
            (Fault::RefusedSendOpens, answer) if first => self.opened[slot as usize] = answer == Answer::Refused(36),
            _ => {}
        }
        answer
    }

    fn step(&mut self, slot: u32) -> Answer {
        let answer = Machine::step(&mut self.machine, slot);
        if answer == Answer::Refused(32) && self.opened[slot as usize] {
            return Answer::Refused(35);
        }
        if !matches!(answer, Answer::Going | Answer::Answer(_)) {
            return answer;
        }
        let at = slot as usize;
        self.steps[at] += 1;
        match self.fault {
            Fault::EveryAnswer0 if answer != Answer::Going => Answer::Answer(0),
            Fault::StopsEarly if self.steps[at] == 40 => {
                Machine::abort(&mut self.machine, slot);
                self.steps[at] = 0;
                Answer::Stopped
            }
            Fault::AllInTheFirstStep => {
                while self.kept[at].is_none() {
                    self.kept[at] = Some(Machine::step(&mut self.machine, slot)).filter(|a| *a != Answer::Going);
                }
                Answer::Going
            }
            _ => answer,
        }
    }

    fn commit(&mut self, slot: u32) -> Answer {
        let undoes = self.fault == Fault::CommitUndoes;
        if undoes { Machine::abort(&mut self.machine, slot) } else { Machine::commit(&mut self.machine, slot) }
    }

    fn abort(&mut self, slot: u32) -> Answer {
        let commits = self.fault == Fault::AbortCommits;
        if commits { Machine::commit(&mut self.machine, slot) } else { Machine::abort(&mut self.machine, slot) }
    }

    fn fields(&self) -> Vec<u32> {
        if self.fault == Fault::NoFieldAltered { self.start.clone() } else { self.machine.values() }
    }
}

/// Among how many of 60 lists the fault is seen.
fn seen(fault: Fault) -> usize {
    (0..60).filter(|&seed| {
        let mut random = Random::new(seed + 1_000_000);
        let library = reference::read(&text_to_call(&mut random)).unwrap();
        let values = values_for(&mut random, &library);
        let machine = Second::start(&library, &values).unwrap();
        let mut faulty = Faulty { machine, fault, start: values.clone(), steps: [0; 8], kept: [None; 8], opened: [false; 8] };
        let list = std::panic::AssertUnwindSafe(|| List::new(&library, &values, &mut faulty).generated(&mut random, 300));
        std::panic::catch_unwind(list).is_err()
    }).count()
}

#[test]
fn faults_are_seen() {
    std::panic::set_hook(Box::new(|_| {}));
    let faults = [
        Fault::EverySendHeld,
        Fault::EveryAnswer0,
        Fault::NoFieldAltered,
        Fault::AllInTheFirstStep,
        Fault::StopsEarly,
        Fault::CommitUndoes,
        Fault::AbortCommits,
        Fault::HeldByTheWrongSlot,
        Fault::FirstSendRefused,
        Fault::GrantedSendLeavesClosed,
        Fault::HeldSendLeavesClosed,
        Fault::RefusedSendOpens,
        Fault::CircleToldAsHeld,
        Fault::HeldToldAsCircle,
    ];
    let none = seen(Fault::None);
    let counts: Vec<(Fault, usize)> = faults.into_iter().map(|fault| (fault, seen(fault))).collect();
    let _ = std::panic::take_hook();
    assert_eq!(none, 0, "a difference where there is no fault");
    for (fault, count) in counts {
        println!("{fault:?}: seen in {count} of 60 lists");
        // Few sends name nothing.
        let least = if fault == Fault::RefusedSendOpens { 4 } else { 20 };
        assert!(count >= least, "{fault:?} is seen in {count} of 60 lists only");
    }
}

/// The slot of a viewer.
const VIEWER: u32 = 0;

/// A machine with a viewer: it takes no locks, runs on a copy of the fields, and its commits are refused.
#[derive(Clone)]
struct Viewed<'a> {
    library: &'a Library,
    machine: Second<'a>,
    /// Whether the viewer reads what others have set and not committed.
    reads_open: bool,
    /// The messages of its transaction, of which the last may be running.
    messages: Vec<Message>,
    running: bool,
}

impl Viewed<'_> {
    /// Runs the viewer's transaction; its answer is the last message's.
    fn view(&mut self) -> Answer {
        let mut copy = self.machine.clone();
        if !self.reads_open {
            for slot in 0..8 {
                copy.call(Call::Abort(slot));
            }
        }
        self.running = false;
        let answers = self.messages.iter().map(|message| alone(self.library, message, &mut copy.fields));
        match answers.last().flatten() {
            Some(value) => Answer::Answer(value),
            None => {
                self.messages.clear();
                Answer::Stopped
            }
        }
    }
}

impl Machine for Viewed<'_> {
    fn send(&mut self, slot: u32, target: Target, method: u32, argument: u32) -> Answer {
        if slot != VIEWER {
            return Machine::send(&mut self.machine, slot, target, method, argument);
        }
        match message(self.library, target, method, argument) {
            _ if self.running => Answer::Refused(34),
            None => Answer::Refused(36),
            Some(message) => {
                self.messages.push(message);
                self.running = true;
                Answer::Done
            }
        }
    }

    fn step(&mut self, slot: u32) -> Answer {
        match slot {
            VIEWER if self.running => self.view(),
            VIEWER if !self.messages.is_empty() => Answer::Refused(35),
            _ => Machine::step(&mut self.machine, slot),
        }
    }

    fn commit(&mut self, slot: u32) -> Answer {
        match slot {
            VIEWER if !self.messages.is_empty() => Answer::Refused(34),
            _ => Machine::commit(&mut self.machine, slot),
        }
    }

    fn abort(&mut self, slot: u32) -> Answer {
        match slot {
            VIEWER if !self.messages.is_empty() => {
                self.messages.clear();
                self.running = false;
                Answer::Done
            }
            _ => Machine::abort(&mut self.machine, slot),
        }
    }

    fn fields(&self) -> Vec<u32> {
        self.machine.values()
    }
}

/// A machine that undoes late: it puts values back at the call after the abort. Demand 3 looks at a list's end only, so it sees this
/// where the last call is such an abort.
#[derive(Clone)]
struct Late<'a> {
    machine: Second<'a>,
    aborted: Option<u32>,
}

impl<'a> Late<'a> {
    /// The machine with all values put back.
    fn undone(&mut self) -> &mut Second<'a> {
        if let Some(slot) = self.aborted.take() {
            self.machine.call(Call::Abort(slot));
        }
        &mut self.machine
    }
}

impl Machine for Late<'_> {
    fn send(&mut self, slot: u32, target: Target, method: u32, argument: u32) -> Answer {
        Machine::send(self.undone(), slot, target, method, argument)
    }

    fn step(&mut self, slot: u32) -> Answer {
        Machine::step(self.undone(), slot)
    }

    fn commit(&mut self, slot: u32) -> Answer {
        Machine::commit(self.undone(), slot)
    }

    fn abort(&mut self, slot: u32) -> Answer {
        let answer = Machine::abort(&mut self.undone().clone(), slot);
        self.aborted = Some(slot).filter(|_| answer == Answer::Done);
        answer
    }

    fn fields(&self) -> Vec<u32> {
        self.machine.values()
    }
}

/// Wrong ways to undo what was added.
#[derive(Clone, Copy, Debug, PartialEq)]
enum Undoes {
    /// Each field gets the value before the transaction's first change: what others added meanwhile is lost.
    ToTheFirstValue,
    /// What was added is left there.
    NoAddition,
    /// A field that was set gets the value right before that: what was added until then is left there.
    ToTheFirstSet,
    /// From a field that was set what was added afterwards is taken too.
    AdditionsAfterTheSet,
}

/// The changes that a transaction made to a field, by the object and the field's name.
type Changes = Vec<((usize, String), Vec<Change>)>;

#[derive(Clone)]
struct Undoer<'a> {
    machine: Second<'a>,
    undoes: Undoes,
    /// The values before each slot's first change, by the object and the field's name.
    first: [HashMap<(usize, String), u32>; 8],
}

impl Undoer<'_> {
    fn changes(&self, slot: u32) -> Changes {
        let known = slot < 8;
        (0..8).filter(|&s| known && s == slot).flat_map(|s| self.machine.changes(s)).map(|(f, c)| (f.clone(), c.clone())).collect()
    }

    /// Alters the fields after these changes were undone; the fields were these before.
    fn spoil(&mut self, slot: u32, changes: Changes, before: &[std::collections::BTreeMap<String, u32>]) {
        for (field, changes) in changes {
            let (object, name) = &field;
            let set = changes.iter().position(|change| matches!(change, Change::Set(_)));
            let value = self.machine.fields[*object].get_mut(name).unwrap();
            let added = |change: &Change| if let Change::Add(more) = change { *more } else { 0 };
            match (self.undoes, set) {
                (Undoes::ToTheFirstValue, _) => *value = self.first[slot as usize][&field],
                (Undoes::NoAddition, None) => *value = before[*object][name],
                (Undoes::ToTheFirstSet, Some(at)) => *value = changes[..at].iter().map(added).fold(*value, u32::wrapping_add),
                (Undoes::AdditionsAfterTheSet, Some(at)) => *value = changes[at..].iter().map(added).fold(*value, u32::wrapping_sub),
                _ => {}
            }
        }
    }
}

impl Machine for Undoer<'_> {
    fn send(&mut self, slot: u32, target: Target, method: u32, argument: u32) -> Answer {
        Machine::send(&mut self.machine, slot, target, method, argument)
    }

    fn step(&mut self, slot: u32) -> Answer {
        let (changes, before) = (self.changes(slot), self.machine.fields.clone());
        let answer = Machine::step(&mut self.machine, slot);
        for ((object, name), _) in self.changes(slot) {
            let value = before[object][&name];
            self.first[slot as usize].entry((object, name)).or_insert(value);
        }
        if answer == Answer::Stopped {
            self.spoil(slot, changes, &before);
            self.first[slot as usize].clear();
        }
        answer
    }

    fn commit(&mut self, slot: u32) -> Answer {
        let answer = Machine::commit(&mut self.machine, slot);
        if answer == Answer::Done {
            self.first[slot as usize].clear();
        }
        answer
    }

    fn abort(&mut self, slot: u32) -> Answer {
        let (changes, before) = (self.changes(slot), self.machine.fields.clone());
        let answer = Machine::abort(&mut self.machine, slot);
        if answer == Answer::Done {
            self.spoil(slot, changes, &before);
            self.first[slot as usize].clear();
        }
        answer
    }

    fn fields(&self) -> Vec<u32> {
        self.machine.values()
    }
}

/// How lists are made: on which texts, and by whom.
type Lists = (fn(&mut Random) -> Vec<u8>, fn(&mut Random, &Library) -> Caller);

const ANY: Lists = (text_to_call, Caller::new);
const TALLIES: Lists = (tally::text, Caller::tallying);

/// Whether a list on a machine is right by demand 3, at its end, and by Ticket 4, after each call.
fn right(machine: &mut dyn Copied, library: &Library, values: &[u32], mut caller: Caller, random: &mut Random) -> (bool, bool) {
    let mut course = Course::start(library, values);
    let mut seen = true;
    for k in 0..308 {
        let call = if k < 300 { caller.next(random, library) } else { Call::Abort(k - 300) };
        let answer = make(machine, call);
        caller.told(call, answer);
        course.feed(call, answer);
        let committed = course.values();
        seen &= course.seen_right() && ORDERS.iter().all(|order| machine.after_aborts(order) == committed);
    }
    (machine.fields() == course.values() && course.right(), seen)
}

/// Among how many of 60 lists a machine is seen to be wrong by demand 3, and by Ticket 4.
fn seen_alone((text, caller): Lists, machine: impl for<'a> Fn(&'a Library, Second<'a>) -> Box<dyn Copied + 'a>) -> (usize, usize) {
    let lists: Vec<(bool, bool)> = (0..60).map(|seed| {
        let mut random = Random::new(seed + 1_000_000);
        let library = reference::read(&text(&mut random)).unwrap();
        let values = values_for(&mut random, &library);
        let mut machine = machine(&library, Second::start(&library, &values).unwrap());
        let caller = caller(&mut random, &library);
        right(&mut *machine, &library, &values, caller, &mut random)
    }).collect();
    (lists.iter().filter(|list| !list.0).count(), lists.iter().filter(|list| !list.1).count())
}

/// Says among how many lists a fault was seen.
fn told(fault: &str, (demand_3, ticket_4): (usize, usize)) -> String {
    let seen = format!("{fault}: seen by demand 3 in {demand_3} of 60 lists, by Ticket 4 in {ticket_4}");
    println!("{seen}");
    seen
}

#[test]
fn ticket_4_sees_more_than_demand_3() {
    for (kind, lists) in [("any lists", ANY), ("tallies", TALLIES)] {
        assert_eq!(seen_alone(lists, |_, machine| Box::new(machine)), (0, 0), "a difference where there is no fault, {kind}");
        let viewed = |reads_open: bool| {
            seen_alone(lists, move |library, machine| Box::new(Viewed { library, machine, reads_open, messages: Vec::new(), running: false }))
        };
        let late = seen_alone(lists, |_, machine| Box::new(Late { machine, aborted: None }));
        let faults = [("a viewer reads what is open", viewed(true)), ("a viewer reads what is committed", viewed(false)), ("undoes late", late)];
        for (fault, counts) in faults {
            let seen = told(&format!("{kind}, {fault}"), counts);
            assert!(counts.0 * 5 <= counts.1 && counts.1 >= 4, "{seen}");
        }
    }
}

#[test]
fn additions_undone_wrongly_are_seen() {
    for undoes in [Undoes::ToTheFirstValue, Undoes::NoAddition, Undoes::ToTheFirstSet, Undoes::AdditionsAfterTheSet] {
        let counts = seen_alone(TALLIES, |_, machine| Box::new(Undoer { machine, undoes, first: Default::default() }));
        let seen = told(&format!("undoes {undoes:?}"), counts);
        assert!(counts.1 >= 6, "{seen}");
    }
}
