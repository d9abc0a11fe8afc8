//! Machines whose line is wrong (document 02, Tickets 7 and 8), each made of the second implementation: the watch over the promises sees
//! them by itself, and so does the comparison of answers, lines and fields.

use generate::calls::Caller;
use generate::{circle, tally, Random};
use reference::machine::{message, Answer, Call, Machine, Message, Waiter};
use reference::text::Library;
use reference::waiting::{Broken, Watch};
use std::collections::{BTreeMap, HashSet};

#[derive(Clone, Copy, Debug, PartialEq)]
enum Fault {
    None,
    /// The line is gone through from its last to its first.
    WakesFromTheBack,
    /// One that waits starts if it clashes with no lock held, whoever is ahead.
    WakesPastWaiters,
    /// Only the first that may start does.
    WakesOne,
    NoWakingAtACommit,
    NoWakingAtAnAbort,
    NoWakingAtAStop,
    NoWakingAtAWithdrawal,
    /// A send starts if it clashes with no lock held, whoever waits.
    NewSendOvertakes,
    /// A send whose locks its slot holds waits for those that it clashes with in line.
    OwnLocksNotExcepted,
    /// A send of which its slot holds one lock starts whoever waits.
    OneLockExcepts,
    /// 40 names the first in line that the send clashes with.
    NamesTheFirstInLine,
    /// 40 names a holder where there is one, though a waiter's slot may be lower.
    NamesHoldersFirst,
    /// A slot that waits may commit, and its send is forgotten.
    WaitingSlotCommits,
    /// An abort of a slot that waits leaves its send in line.
    WithdrawnStartsLater,
    /// A send that meets 40 becomes the first in line.
    JoinsAtTheFront,
    /// A send that meets 40 changes nothing.
    DoesNotJoin,
    /// A send that names nothing opens its slot.
    UnknownNameOpens,
    /// A send joins whatever circle it closes.
    NoCircleTest,
    /// 42 for every send that would wait.
    RefusesEveryWait,
    /// 42 for every send that would wait, and its slot is open.
    RefusalOpens,
    /// 42, and the send joins all the same.
    RefusalJoins,
    /// A slot waits for those only that hold locks.
    CirclesOfHolders,
    /// A slot waits for those only that wait ahead of it.
    CirclesOfWaiters,
    /// No circle is found by way of slot 7.
    CirclesOfSevenSlots,
    /// Circles of two are found, longer ones are not.
    CirclesOfTwo,
    /// A slot also waits for those behind it in line.
    BehindCountsAsAhead,
    /// A send whose locks its slot holds is refused where it would close a circle.
    OwnLocksRefused,
}

struct Faulty<'a> {
    library: &'a Library,
    machine: Machine<'a>,
    fault: Fault,
}

fn slots(machine: &Machine) -> Vec<u32> {
    machine.line.iter().map(|waiter| waiter.slot).collect()
}

impl Faulty<'_> {
    fn call(&mut self, call: Call) -> Answer {
        let (Call::Send { slot, .. } | Call::Step(slot) | Call::Commit(slot) | Call::Abort(slot)) = call;
        match call {
            Call::Send { target, method, argument, .. } if slot < 8 && !self.machine.is_waiting(slot) && !self.machine.is_running(slot) => {
                match message(self.library, target, method, argument) {
                    Some(message) => self.send(slot, message),
                    None => {
                        if self.fault == Fault::UnknownNameOpens {
                            self.machine.open(slot);
                        }
                        Answer::Refused(36)
                    }
                }
            }
            Call::Abort(_) => self.end(slot, call),
            Call::Commit(_) if self.fault == Fault::WaitingSlotCommits => self.end(slot, call),
            Call::Step(_) | Call::Commit(_) if !self.machine.is_waiting(slot) => self.end(slot, call),
            _ => self.machine.call(call),
        }
    }

    /// Whether 42 is given for a send in place of joining the line.
    fn refuses(&self, slot: u32, message: &Message) -> bool {
        let mut joined = self.machine.clone();
        joined.line.push(Waiter { slot, message: message.clone() });
        let waits_for = |other: u32| {
            let place = joined.line.iter().position(|waiter| waiter.slot == other)?;
            let message = &joined.line[place].message;
            let holders = joined.in_the_way(other, message, 0);
            Some(match self.fault {
                Fault::CirclesOfHolders => holders,
                Fault::CirclesOfWaiters => {
                    joined.in_the_way(other, message, place).into_iter().filter(|slot| !holders.contains(slot)).collect()
                }
                Fault::BehindCountsAsAhead => joined.in_the_way(other, message, joined.line.len()),
                _ => joined.in_the_way(other, message, place),
            })
        };
        let waits_for = |other: u32| waits_for(other).unwrap_or_default();
        let (mut reached, mut next) = (HashSet::new(), waits_for(slot));
        while let Some(other) = next.pop() {
            if reached.insert(other) && !(self.fault == Fault::CirclesOfSevenSlots && other == 7) {
                next.extend(waits_for(other));
            }
        }
        match self.fault {
            Fault::NoCircleTest => false,
            Fault::RefusesEveryWait | Fault::RefusalOpens => true,
            Fault::CirclesOfTwo => waits_for(slot).into_iter().any(|other| waits_for(other).contains(&slot)),
            _ => reached.contains(&slot),
        }
    }

    /// A send that is neither refused nor of a slot that waits or runs.
    fn send(&mut self, slot: u32, message: Message) -> Answer {
        let machine = &self.machine;
        let holders = machine.in_the_way(slot, &message, 0);
        let all = machine.in_the_way(slot, &message, machine.line.len());
        let one_held = message.locks.iter().any(|lock| machine.holds(slot, &Message { locks: vec![lock.clone()], ..message.clone() }));
        let starts = match self.fault {
            Fault::NewSendOvertakes => holders.is_empty(),
            Fault::OwnLocksNotExcepted => all.is_empty(),
            Fault::OneLockExcepts => all.is_empty() || holders.is_empty() && one_held,
            _ => all.is_empty() || machine.holds(slot, &message),
        };
        let refused = (!starts || self.fault == Fault::OwnLocksRefused && !all.is_empty()) && self.refuses(slot, &message);
        let machine = &mut self.machine;
        if refused {
            match self.fault {
                Fault::RefusalOpens => machine.open(slot),
                Fault::RefusalJoins => machine.line.push(Waiter { slot, message }),
                _ => {}
            }
            return Answer::Refused(42);
        }
        if starts {
            machine.begin(slot, message);
            return Answer::Done;
        }
        let lowest = match self.fault {
            Fault::NamesTheFirstInLine => slots(machine).into_iter().find(|slot| all.contains(slot)),
            Fault::NamesHoldersFirst => holders.first().copied(),
            _ => None,
        };
        let place = if self.fault == Fault::JoinsAtTheFront { 0 } else { machine.line.len() };
        if self.fault != Fault::DoesNotJoin {
            machine.open(slot);
            machine.line.insert(place, Waiter { slot, message });
        }
        Answer::Held(lowest.unwrap_or(all[0]))
    }

    /// A call that may end its transaction, made with an empty line; then the line is gone through.
    fn end(&mut self, slot: u32, call: Call) -> Answer {
        let withdrawn = self.machine.is_waiting(slot);
        let line = std::mem::take(&mut self.machine.line);
        let answer = self.machine.call(call);
        self.machine.line = line;
        if !matches!((call, answer), (Call::Commit(_) | Call::Abort(_), Answer::Done) | (_, Answer::Stopped)) {
            return answer;
        }
        if self.fault != Fault::WithdrawnStartsLater {
            self.machine.line.retain(|waiter| waiter.slot != slot);
        }
        match (self.fault, call) {
            (Fault::NoWakingAtACommit, Call::Commit(_)) | (Fault::NoWakingAtAStop, Call::Step(_)) => {}
            (Fault::NoWakingAtAnAbort, Call::Abort(_)) if !withdrawn => {}
            (Fault::NoWakingAtAWithdrawal, Call::Abort(_)) if withdrawn => {}
            (Fault::WakesFromTheBack, _) => {
                self.machine.line.reverse();
                self.wake();
                self.machine.line.reverse();
            }
            _ => self.wake(),
        }
        answer
    }

    fn wake(&mut self) {
        let machine = &mut self.machine;
        let mut ahead = 0;
        while ahead < machine.line.len() {
            let Waiter { slot, message } = &machine.line[ahead];
            let counted = if self.fault == Fault::WakesPastWaiters { 0 } else { ahead };
            if !machine.in_the_way(*slot, message, counted).is_empty() {
                ahead += 1;
                continue;
            }
            let Waiter { slot, message } = machine.line.remove(ahead);
            machine.begin(slot, message);
            if self.fault == Fault::WakesOne {
                return;
            }
        }
    }
}

/// What is broken first on a generated list, and whether it differs from the right machine's.
fn made(fault: Fault, circling: bool, seed: u64) -> (Vec<Broken>, bool) {
    let mut random = Random::new(seed + 12_000_000);
    let text = if circling { circle::text(&mut random) } else { tally::text(&mut random) };
    let library = reference::read(&text).unwrap();
    let mut right = Machine::start(&library, &library.starting_values()).unwrap();
    let mut faulty = Faulty { library: &library, machine: right.clone(), fault };
    let mut watch = Watch::start(right.clashes.clone());
    let caller = if circling { Caller::circling } else { Caller::queueing };
    let mut caller = caller(&mut random, &library);
    let (mut broken, mut differs) = (Vec::new(), false);
    for _ in 0..150 {
        let call = caller.next(&mut random, &library);
        let answer = faulty.call(call);
        caller.told(call, answer);
        if broken.is_empty() {
            broken = watch.saw(call, answer, &slots(&faulty.machine)).broken;
        }
        differs |= right.call(call) != answer || slots(&right) != slots(&faulty.machine) || right.fields != faulty.machine.fields;
    }
    (broken, differs)
}

const LISTS: u64 = 200;

/// Each fault gives differences and breaks these promises, each in ten lists or more.
fn seen(circling: bool, faults: &[(Fault, &[Broken])]) {
    for &(fault, breaks) in faults {
        let (mut counts, mut different) = (BTreeMap::new(), 0);
        for (broken, differs) in (0..LISTS).map(|seed| made(fault, circling, seed)) {
            different += differs as u32;
            broken.into_iter().collect::<std::collections::BTreeSet<_>>().into_iter().for_each(|b| *counts.entry(b).or_insert(0) += 1);
        }
        println!("{fault:?}: of {LISTS} lists {different} differ; what is broken first: {counts:?}");
        assert!(different >= 10, "{fault:?}: a difference in {different} of {LISTS} lists only");
        for broken in breaks {
            assert!(counts.get(broken).is_some_and(|&lists| lists >= 10), "{fault:?}: {broken:?} is seen in few lists: {counts:?}");
        }
    }
}

#[test]
fn wrong_lines_are_seen() {
    seen(false, &[
        (Fault::WakesFromTheBack, &[Broken::Overtaken, Broken::Late, Broken::CouldStart]),
        (Fault::WakesPastWaiters, &[Broken::Overtaken]),
        (Fault::WakesOne, &[Broken::CouldStart, Broken::Late]),
        (Fault::NoWakingAtACommit, &[Broken::CouldStart, Broken::Late]),
        (Fault::NoWakingAtAnAbort, &[Broken::CouldStart, Broken::Late]),
        (Fault::NoWakingAtAStop, &[Broken::CouldStart, Broken::Late]),
        (Fault::NoWakingAtAWithdrawal, &[Broken::CouldStart, Broken::Late]),
        (Fault::NewSendOvertakes, &[Broken::Overtaken]),
        // The waiter that such a send clashes with waits for its slot's locks.
        (Fault::OwnLocksNotExcepted, &[Broken::NoCircle]),
        (Fault::OneLockExcepts, &[Broken::Overtaken]),
        (Fault::NamesTheFirstInLine, &[Broken::Named]),
        (Fault::NamesHoldersFirst, &[Broken::Named]),
        (Fault::WaitingSlotCommits, &[Broken::Told]),
        (Fault::WithdrawnStartsLater, &[Broken::Line]),
        (Fault::JoinsAtTheFront, &[Broken::Line]),
        (Fault::DoesNotJoin, &[Broken::Line]),
        (Fault::UnknownNameOpens, &[Broken::Open]),
    ]);
}

#[test]
fn wrong_circles_are_seen() {
    seen(true, &[
        (Fault::NoCircleTest, &[Broken::Circle, Broken::AllWait]),
        (Fault::RefusesEveryWait, &[Broken::NoCircle]),
        (Fault::RefusalOpens, &[Broken::NoCircle]),
        (Fault::RefusalJoins, &[Broken::Line]),
        (Fault::CirclesOfHolders, &[Broken::Circle]),
        (Fault::CirclesOfWaiters, &[Broken::Circle]),
        (Fault::CirclesOfSevenSlots, &[Broken::Circle]),
        (Fault::CirclesOfTwo, &[Broken::Circle]),
        (Fault::BehindCountsAsAhead, &[Broken::NoCircle]),
        (Fault::OwnLocksRefused, &[Broken::NoCircle]),
    ]);
}

#[test]
fn the_right_line_is_not() {
    for (seed, circling) in (0..LISTS).flat_map(|seed| [(seed, false), (seed, true)]) {
        assert_eq!(made(Fault::None, circling, seed), (Vec::new(), false), "seed {seed}, circling {circling}");
    }
}
