//! Call lists: a machine beside the second implementation, each call's answer, all fields after it, what is kept of each slot and of the
//! line; the plain course; and after every call what the tablets saw (document 02, Ticket 4) and the promises of the line (Tickets
//! 7 and 8).

use generate::calls::Caller;
use generate::Random;
use reference::course::Course;
use reference::machine::{Answer, Call, Change, Fields, Target};
use reference::text::Library;
use reference::waiting::{Seen, Watch};
use std::collections::{BTreeMap, HashMap};

/// A machine after its start.
pub trait Machine {
    fn send(&mut self, slot: u32, target: Target, method: u32, argument: u32) -> Answer;
    fn step(&mut self, slot: u32) -> Answer;
    fn commit(&mut self, slot: u32) -> Answer;
    fn abort(&mut self, slot: u32) -> Answer;
    /// All field values, object by object.
    fn fields(&self) -> Vec<u32>;
    /// What is kept of each slot, where that can be looked at.
    fn slots(&self) -> Option<Vec<Slot>> {
        None
    }
    /// The slots that wait, in the line's order, where that can be looked at.
    fn line(&self) -> Option<Vec<u32>> {
        None
    }
}

/// What a machine keeps of a slot: its phase (0 closed, 1 open, 2 a message runs, 3 a send waits), the waiting send's argument, and for
/// each value that its transaction changed, by its place, what undoing needs.
#[derive(Debug, PartialEq)]
pub struct Slot {
    pub phase: u32,
    pub waits_with: Option<u32>,
    pub notes: BTreeMap<usize, Note>,
}

/// What undoing needs of a value: the sum of what was added, or, once it was set, the value to put back.
#[derive(Debug, PartialEq)]
pub enum Note {
    Added(u32),
    Old(u32),
}

impl Machine for reference::machine::Machine<'_> {
    fn send(&mut self, slot: u32, target: Target, method: u32, argument: u32) -> Answer {
        self.call(Call::Send { slot, target, method, argument })
    }

    fn step(&mut self, slot: u32) -> Answer {
        self.call(Call::Step(slot))
    }

    fn commit(&mut self, slot: u32) -> Answer {
        self.call(Call::Commit(slot))
    }

    fn abort(&mut self, slot: u32) -> Answer {
        self.call(Call::Abort(slot))
    }

    fn fields(&self) -> Vec<u32> {
        self.values()
    }

    fn line(&self) -> Option<Vec<u32>> {
        Some(self.line.iter().map(|waiter| waiter.slot).collect())
    }
}

/// A machine that is copied with all its memory.
pub trait Copied: Machine {
    /// The fields after aborts of these slots, in this order, on a copy.
    fn after_aborts(&self, slots: &[u32]) -> Vec<u32>;
}

impl<M: Machine + Clone> Copied for M {
    fn after_aborts(&self, slots: &[u32]) -> Vec<u32> {
        aborted(self, slots).fields()
    }
}

/// A copy of a machine after aborts of these slots.
fn aborted<M: Machine + Clone>(machine: &M, slots: &[u32]) -> M {
    let mut copy = machine.clone();
    for &slot in slots {
        copy.abort(slot);
    }
    copy
}

/// All slots, in two orders to abort them in.
pub const ORDERS: [[u32; 8]; 2] = [[0, 1, 2, 3, 4, 5, 6, 7], [7, 6, 5, 4, 3, 2, 1, 0]];

/// Makes a call.
pub fn make<M: Machine + ?Sized>(machine: &mut M, call: Call) -> Answer {
    match call {
        Call::Send { slot, target, method, argument } => machine.send(slot, target, method, argument),
        Call::Step(slot) => machine.step(slot),
        Call::Commit(slot) => machine.commit(slot),
        Call::Abort(slot) => machine.abort(slot),
    }
}

/// How often each call was answered in which way (`step answer`, `send 40`, and on a closed slot `first send 40`), how often values were
/// put back, how often so many slots were adding to one field at once (`2 adding`), and what was undone then; how many waited (`3
/// waiting`) and started by a call (`2 woken`), of how many slots a circle would be (`circle of 3`), and what else befell those who wait.
pub type Counts = BTreeMap<String, u64>;

/// The counts of several lists together.
pub fn added_up(counts: impl IntoIterator<Item = Counts>) -> Counts {
    let mut all = Counts::new();
    for (kind, times) in counts.into_iter().flatten() {
        *all.entry(kind).or_insert(0) += times;
    }
    all
}

/// The note of a value by the changes that a transaction made to it.
fn note(changes: &[Change]) -> Note {
    let until_set = |change: &Change| if let Change::Add(more) = change { Some(*more) } else { None };
    let added = changes.iter().map_while(until_set).fold(0, u32::wrapping_add);
    let first_set = changes.iter().find_map(|change| if let Change::Set(before) = change { Some(*before) } else { None });
    first_set.map_or(Note::Added(added), |before| Note::Old(before.wrapping_sub(added)))
}

/// What undoing a slot's transaction meets: fields that others have added to, fields that it added to and set.
fn undoing(machine: &reference::machine::Machine, slot: u32) -> Vec<&'static str> {
    let mut met = Vec::new();
    for (field, changes) in machine.changes(slot) {
        let set = changes.iter().position(|change| matches!(change, Change::Set(_)));
        let added = |changes: &[Change]| changes.iter().any(|change| matches!(change, Change::Add(_)));
        let others = (0..8).filter(|&other| other != slot).any(|other| machine.changes(other).any(|(f, _)| f == field));
        met.extend(others.then_some("undone beside additions"));
        met.extend(set.filter(|&at| added(&changes[..at])).map(|_| "undone set after add"));
        met.extend(set.filter(|&at| added(&changes[at..])).map(|_| "undone add after set"));
    }
    met
}

/// A list in the making, on both machines and on the course.
pub struct List<'a> {
    library: &'a Library,
    machine: &'a mut dyn Copied,
    second: reference::machine::Machine<'a>,
    /// The names of each object's fields, in order; and the place of each field's value.
    names: Vec<Vec<String>>,
    places: HashMap<(usize, String), usize>,
    course: Course<'a>,
    watch: Watch<'a>,
    made: Vec<(Call, Answer)>,
    fields: Vec<u32>,
    counts: Counts,
}

impl<'a> List<'a> {
    /// After a start of the machine on these values.
    pub fn new(library: &'a Library, values: &[u32], machine: &'a mut dyn Copied) -> List<'a> {
        let second = reference::machine::Machine::start(library, values).expect("a value for each field");
        assert_eq!(machine.fields(), values, "the fields after a start");
        let (course, fields) = (Course::start(library, values), values.to_vec());
        let names = |class: &str| library.fields(class).into_iter().map(|(_, name)| name).collect();
        let by_class: BTreeMap<&str, Vec<String>> = library.classes.iter().map(|c| (c.name.as_str(), names(&c.name))).collect();
        let names: Vec<Vec<String>> = library.objects.iter().map(|o| by_class[o.class.as_str()].clone()).collect();
        let fields_of = |(object, names): (usize, &Vec<String>)| names.iter().map(|n| (object, n.clone())).collect::<Vec<_>>();
        let places = names.iter().enumerate().flat_map(fields_of).zip(0..).collect();
        let watch = Watch::start(second.clashes.clone());
        List { library, machine, second, names, places, course, watch, made: Vec::new(), fields, counts: Counts::new() }
    }

    /// Fields by object and name as a flat list.
    fn flat(&self, fields: &Fields) -> Vec<u32> {
        self.names.iter().zip(fields).flat_map(|(names, of)| names.iter().map(|n| of[n])).collect()
    }

    /// What the second implementation keeps of each slot.
    fn slots(&self) -> Vec<Slot> {
        let waits_with = |slot: u32| self.second.line.iter().find(|waiter| waiter.slot == slot).map(|waiter| waiter.message.argument);
        let phase = |slot: u32| self.second.is_open(slot) as u32 + self.second.is_running(slot) as u32;
        let slot = |slot: u32| Slot {
            phase: if self.second.is_waiting(slot) { 3 } else { phase(slot) },
            waits_with: waits_with(slot),
            notes: self.second.changes(slot).map(|(field, changes)| (self.places[field], note(changes))).collect(),
        };
        (0..8).map(slot).collect()
    }

    /// One call on both.
    pub fn call(&mut self, call: Call) -> Answer {
        let first = matches!(call, Call::Send { slot, .. } if slot < 8 && !self.second.is_open(slot));
        let met = match call {
            Call::Step(slot) | Call::Abort(slot) if slot < 8 => undoing(&self.second, slot),
            _ => Vec::new(),
        };
        let right = self.second.call(call);
        let answer = make(self.machine, call);
        self.made.push((call, answer));
        assert_eq!(answer, right, "the answer of {call:?}");
        let fields = self.machine.fields();
        assert_eq!(fields, self.flat(&self.second.fields), "the fields after {call:?}, which answered {answer:?}");
        if let Some(slots) = self.machine.slots() {
            assert_eq!(slots, self.slots(), "what is kept of the slots after {call:?}, which answered {answer:?}");
        }
        let line = Machine::line(&self.second).expect("the second implementation's line");
        assert_eq!(self.machine.line().as_ref().unwrap_or(&line), &line, "the line after {call:?}, which answered {answer:?}");
        self.watch(call, answer, &line);
        self.course.feed(call, answer);
        let put_back = fields != self.fields && !matches!(answer, Answer::Going | Answer::Answer(_));
        self.count(call, first, answer, put_back);
        let undone = matches!((call, answer), (Call::Abort(_), Answer::Done) | (Call::Step(_), Answer::Stopped));
        met.into_iter().filter(|_| undone).for_each(|what| self.count_one(what.into()));
        self.fields = fields;
        self.look(call, answer);
        answer
    }

    /// The promises of the line, and what befell those who wait.
    fn watch(&mut self, call: Call, answer: Answer, line: &[u32]) {
        let Seen { broken, woken, passed, withdrawn, excepted, behind_waiters, circle, by_waiters } = self.watch.saw(call, answer, line);
        assert!(broken.is_empty(), "{call:?}, which answered {answer:?}: {broken:?}");
        let stopped = answer == Answer::Stopped;
        for (what, seen) in [
            (format!("{} waiting", line.len()), !line.is_empty()),
            (format!("{woken} woken"), woken > 0),
            ("woken by a stop".into(), stopped && woken > 0),
            ("woken by a withdrawal".into(), withdrawn && woken > 0),
            ("woken past a waiter".into(), passed > 0),
            ("withdrawn".into(), withdrawn),
            ("ahead on its own locks".into(), excepted),
            ("behind waiters only".into(), behind_waiters),
            (format!("circle of {}", circle.unwrap_or(0)), circle.is_some()),
            ("circle by way of waiters".into(), by_waiters),
        ] {
            if seen {
                self.count_one(what);
            }
        }
    }

    /// Ticket 4 on both: undoing all open transactions gives the course's fields, and every transaction's answers are those it would
    /// get running alone.
    fn look(&self, call: Call, answer: Answer) {
        let committed = self.flat(&self.course.fields);
        for order in &ORDERS {
            assert_eq!(self.machine.after_aborts(order), committed, "the fields after {call:?} and aborts of {order:?}");
            let second = aborted(&self.second, order).fields;
            assert_eq!(second, self.course.fields, "the second's fields after {call:?} and aborts of {order:?}");
        }
        // A send, a step that is going and a refused call alter neither the course's lists nor its fields.
        let same = matches!(call, Call::Send { .. }) || matches!(answer, Answer::Going | Answer::Refused(_));
        assert!(same || self.course.seen_right(), "the answers seen, after {call:?}");
    }

    fn count(&mut self, call: Call, first: bool, answer: Answer, put_back: bool) {
        let name = match call {
            Call::Send { .. } if first => "first send",
            Call::Send { .. } => "send",
            Call::Step(_) => "step",
            Call::Commit(_) => "commit",
            Call::Abort(_) => "abort",
        };
        let said = reference::lines::said(answer);
        let said = said.split(' ').next().unwrap();
        self.count_one(format!("{name} {said}"));
        if put_back {
            self.count_one("put back".into());
        }
        if let adding @ 2.. = self.second.most_adding() {
            self.count_one(format!("{adding} adding"));
        }
    }

    fn count_one(&mut self, what: String) {
        *self.counts.entry(what).or_insert(0) += 1;
    }

    /// Leaves nothing open, and compares with the course: the fields, and the answers at their commits.
    pub fn end(mut self) -> Counts {
        for slot in 0..8 {
            self.call(Call::Abort(slot));
        }
        assert_eq!(self.machine.fields(), self.course.values(), "the course's fields");
        assert!(self.course.right(), "the course's answers: {:?}", self.course.compared);
        std::mem::take(&mut self.counts)
    }

    /// As many generated calls.
    pub fn generated(self, random: &mut Random, calls: usize) -> Counts {
        let caller = Caller::new(random, self.library);
        self.made_by(caller, random, calls)
    }

    /// As many calls of this caller.
    pub fn made_by(mut self, mut caller: Caller, random: &mut Random, calls: usize) -> Counts {
        for _ in 0..calls {
            let call = caller.next(random, self.library);
            let answer = self.call(call);
            caller.told(call, answer);
        }
        self.end()
    }
}

/// Where something differs the list is told: the calls made, each with its answer.
impl Drop for List<'_> {
    fn drop(&mut self) {
        if std::thread::panicking() {
            let made: Vec<String> = self.made.iter().map(|(call, answer)| format!("{call:?} answered {answer:?}")).collect();
            eprintln!("the list:\n{}", made.join("\n"));
        }
    }
}
