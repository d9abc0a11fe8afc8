//! The promises of the line (document 02, Tickets 7 and 8) over a list of calls, watched from the outside: by the calls, their answers, and
//! which slots wait after each call, in the line's order.

use crate::machine::{message, Answer, Call, Clashes, Lock, Message};
use std::collections::HashSet;

/// What a machine may break.
#[derive(Clone, Copy, Debug, PartialEq, Eq, PartialOrd, Ord)]
pub enum Broken {
    /// (a) A send waits that clashes with no lock of another slot and with none that waits ahead of it.
    CouldStart,
    /// (b) A send waits although every transaction that it clashed with when it joined has ended.
    Late,
    /// (c) A send started that arrived later than one that waits, clashes with it and needed a new lock.
    Overtaken,
    /// Two slots hold locks that clash.
    HeldTwice,
    /// A send joined although its slot holds its locks.
    OwnLocks,
    /// 40 names another slot than the lowest that the send clashes with.
    Named,
    /// 37 for a slot that does not wait, or another answer to a send, step or commit of one that does.
    Told,
    /// The line is not the sends that joined and have neither started nor ended, in order of arrival; or one started although no
    /// transaction ended.
    Line,
    /// A slot waits for itself, by way of any others.
    Circle,
    /// Some transaction is open, and all that are wait.
    AllWait,
    /// 42 for a send that would not join the line, or that would close no circle of waits there.
    NoCircle,
    /// 32 for a slot that is open, or another answer to a step, commit or abort of one that is not.
    Open,
}

/// What was seen of a call.
#[derive(Debug, Default)]
pub struct Seen {
    pub broken: Vec<Broken>,
    /// How many waiting sends it started.
    pub woken: usize,
    /// How many of them passed one that waits ahead.
    pub passed: usize,
    /// It ended a slot that waited.
    pub withdrawn: bool,
    /// A send that started past a waiter that it clashes with, since its slot holds its locks.
    pub excepted: bool,
    /// It joined, and clashes with waiters only.
    pub behind_waiters: bool,
    /// How many slots the smallest circle has that the send would close.
    pub circle: Option<usize>,
    /// It would close one only since slots wait for those ahead of them.
    pub by_waiters: bool,
}

/// A transaction: its slot, and how many of the slot's have ended before it.
type Transaction = (u32, u64);

struct Waiting {
    slot: u32,
    message: Message,
    /// What it clashed with when it joined, as holder or ahead in line.
    in_the_way: Vec<Transaction>,
}

/// Whom each slot waits for.
type Waits = [Vec<u32>; 8];

/// The fewest steps by which a slot waits for itself.
fn circle(waits: &Waits, slot: u32) -> Option<usize> {
    let mut reached = HashSet::from([slot]);
    (1..=8).find(|_| {
        reached = reached.iter().flat_map(|&other| waits[other as usize].iter().copied()).collect();
        reached.contains(&slot)
    })
}

/// The watch over a list of calls.
pub struct Watch<'a> {
    clashes: Clashes<'a>,
    held: Vec<HashSet<Lock>>,
    open: [bool; 8],
    ended: [u64; 8],
    line: Vec<Waiting>,
}

impl<'a> Watch<'a> {
    /// Over calls that begin when a machine has started.
    pub fn start(clashes: Clashes<'a>) -> Watch<'a> {
        Watch { clashes, held: vec![HashSet::new(); 8], open: [false; 8], ended: [0; 8], line: Vec::new() }
    }

    /// How many wait.
    pub fn waiting(&self) -> usize {
        self.line.len()
    }

    fn holder(&self, other: u32, message: &Message) -> bool {
        self.clashes.any(message, &self.held[other as usize])
    }

    /// The slots, other than this one, that hold a lock that clashes with the message.
    fn holders(&self, slot: u32, message: &Message) -> Vec<u32> {
        (0..8).filter(|&other| other != slot && self.holder(other, message)).collect()
    }

    /// Those of these waiters, of other slots, that the message clashes with.
    fn waiters(&self, slot: u32, message: &Message, line: &[Waiting]) -> Vec<u32> {
        let clashes = |v: &&Waiting| v.slot != slot && self.clashes.any(message, &v.message.locks);
        line.iter().filter(clashes).map(|v| v.slot).collect()
    }

    /// Whom each slot waits for: those that hold a lock that clashes with its send and, where they count, those ahead of it in line with a
    /// send that does.
    fn waits(&self, waiters_count: bool) -> Waits {
        let mut waits = Waits::default();
        for (at, Waiting { slot, message, .. }) in self.line.iter().enumerate() {
            let ahead = if waiters_count { at } else { 0 };
            waits[*slot as usize] = [self.holders(*slot, message), self.waiters(*slot, message, &self.line[..ahead])].concat();
        }
        waits
    }

    /// A send that was told 42: right where it would join the line and close a circle there.
    fn refused(&mut self, slot: u32, message: Message, seen: &mut Seen) {
        let holds = self.holds(slot, &message);
        self.line.push(Waiting { slot, message, in_the_way: Vec::new() });
        seen.circle = circle(&self.waits(true), slot);
        seen.by_waiters = seen.circle.is_some() && circle(&self.waits(false), slot).is_none();
        self.line.pop();
        seen.broken.extend((holds || seen.circle.is_none()).then_some(Broken::NoCircle));
    }

    /// The slot holds every lock of the message.
    fn holds(&self, slot: u32, message: &Message) -> bool {
        message.locks.iter().all(|lock| self.held[slot as usize].contains(lock))
    }

    /// Learns of a call, its answer, and which slots wait after it.
    pub fn saw(&mut self, call: Call, answer: Answer, line: &[u32]) -> Seen {
        let mut seen = Seen::default();
        let (Call::Send { slot, .. } | Call::Step(slot) | Call::Commit(slot) | Call::Abort(slot)) = call;
        let waits = self.line.iter().any(|v| v.slot == slot);
        if (answer == Answer::Refused(37)) != (waits && !matches!(call, Call::Abort(_))) {
            seen.broken.push(Broken::Told);
        }
        let closed = self.open.get(slot as usize) == Some(&false);
        if (answer == Answer::Refused(32)) != (closed && !matches!(call, Call::Send { .. })) {
            seen.broken.push(Broken::Open);
        }
        let ends = match (call, answer) {
            (Call::Commit(_) | Call::Abort(_), Answer::Done) | (Call::Step(_), Answer::Stopped) => true,
            (Call::Send { target, method, argument, .. }, Answer::Done | Answer::Held(_)) => {
                let message = message(self.clashes.library, target, method, argument).expect("a message that was not refused");
                self.arrived(slot, message, answer, &mut seen);
                false
            }
            (Call::Send { target, method, argument, .. }, Answer::Refused(42)) => {
                match message(self.clashes.library, target, method, argument) {
                    Some(message) if slot < 8 => self.refused(slot, message, &mut seen),
                    _ => seen.broken.push(Broken::NoCircle),
                }
                false
            }
            _ => false,
        };
        if ends {
            seen.withdrawn = waits;
            self.line.retain(|v| v.slot != slot);
            self.held[slot as usize].clear();
            self.open[slot as usize] = false;
            self.ended[slot as usize] += 1;
        }
        self.leave(line, &mut seen);
        if self.line.iter().map(|v| v.slot).ne(line.iter().copied()) || seen.woken > 0 && !ends {
            seen.broken.push(Broken::Line);
        }
        // Another call alters neither the locks nor the line.
        if ends || matches!((call, answer), (Call::Send { .. }, Answer::Done | Answer::Held(_))) {
            self.look(&mut seen);
        }
        seen
    }

    /// A send that started or joined.
    fn arrived(&mut self, slot: u32, message: Message, answer: Answer, seen: &mut Seen) {
        let (holders, waiters) = (self.holders(slot, &message), self.waiters(slot, &message, &self.line));
        let holds = self.holds(slot, &message);
        self.open[slot as usize] = true;
        if let Answer::Held(by) = answer {
            seen.broken.extend(holds.then_some(Broken::OwnLocks));
            seen.behind_waiters = holders.is_empty();
            let mut both = [holders, waiters].concat();
            both.sort();
            both.dedup();
            seen.broken.extend((both.first() != Some(&by)).then_some(Broken::Named));
            let in_the_way = both.into_iter().map(|other| (other, self.ended[other as usize])).collect();
            self.line.push(Waiting { slot, message, in_the_way });
        } else {
            seen.excepted = holds && !waiters.is_empty();
            seen.broken.extend((!holds && !waiters.is_empty()).then_some(Broken::Overtaken));
            self.starts(slot, &message, seen);
        }
    }

    fn starts(&mut self, slot: u32, message: &Message, seen: &mut Seen) {
        seen.broken.extend((!self.holders(slot, message).is_empty()).then_some(Broken::HeldTwice));
        self.held[slot as usize].extend(message.locks.iter().cloned());
    }

    /// Those that have left the line have started.
    fn leave(&mut self, line: &[u32], seen: &mut Seen) {
        let mut at = 0;
        while at < self.line.len() {
            if line.contains(&self.line[at].slot) {
                at += 1;
                continue;
            }
            let Waiting { slot, message, .. } = self.line.remove(at);
            seen.woken += 1;
            seen.passed += (at > 0) as usize;
            let overtaken = !self.waiters(slot, &message, &self.line[..at]).is_empty();
            seen.broken.extend(overtaken.then_some(Broken::Overtaken));
            self.starts(slot, &message, seen);
        }
    }

    /// (a) and (b) of each that waits, and that none waits for itself and not all wait.
    fn look(&self, seen: &mut Seen) {
        let waits = self.waits(true);
        seen.broken.extend(self.line.iter().any(|v| circle(&waits, v.slot).is_some()).then_some(Broken::Circle));
        let open = self.open.iter().filter(|&&open| open).count();
        seen.broken.extend((open > 0 && self.line.len() >= open).then_some(Broken::AllWait));
        for (at, Waiting { slot, message, in_the_way }) in self.line.iter().enumerate() {
            let stuck = !self.holders(*slot, message).is_empty() || !self.waiters(*slot, message, &self.line[..at]).is_empty();
            seen.broken.extend((!stuck).then_some(Broken::CouldStart));
            let all_ended = in_the_way.iter().all(|&(other, before)| self.ended[other as usize] > before);
            seen.broken.extend(all_ended.then_some(Broken::Late));
        }
    }
}
