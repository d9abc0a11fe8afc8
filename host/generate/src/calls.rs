//! Call lists on a library: clashes, waits, stops, aborts and commits are all frequent.

use crate::text::{text, LARGE, MIDDLE, SMALL};
use crate::{limits, tally, Random};
use reference::machine::{Answer, Call, Target};
use reference::text::Library;
use reference::vectors::{transitive, Mode};

/// A text that has something to send to: objects and methods, but for a few.
pub fn text_to_call(random: &mut Random) -> Vec<u8> {
    if random.one_in(60) {
        return limits::message_of(1_021 + random.below(5));
    }
    if random.one_in(8) {
        return tally::text(random);
    }
    let size = match random.below(60) {
        0 => LARGE,
        1..=6 => MIDDLE,
        _ => SMALL,
    };
    let any = random.one_in(50);
    loop {
        let found = text(random, size);
        if any || lively(&found) {
            return if random.one_in(2) { telling(random, found) } else { found };
        }
    }
}

/// The text with methods that tell a field in their last statement, and some that set or add to one before it, if that keeps to the
/// limits.
fn telling(random: &mut Random, text: Vec<u8>) -> Vec<u8> {
    let library = reference::read(&text).expect("an accepted text");
    let (mut told, mut fields) = (String::new(), Vec::new());
    for line in std::str::from_utf8(&text).unwrap().split_inclusive('\n') {
        let words: Vec<&str> = line.split_whitespace().collect();
        match words[..] {
            ["class", name, ..] => fields = library.fields(name),
            ["end"] if !fields.is_empty() => {
                if random.one_in(2) {
                    let field = &random.pick(&fields).1;
                    let adds = random.one_in(2);
                    told += &if adds { format!("add {field} arg\n") } else { format!("set {field} + {field} 1\n") };
                }
                told += &format!("reply {}\n", random.pick(&fields).1);
            }
            _ => {}
        }
        told += line;
    }
    let told = told.into_bytes();
    if reference::read(&told).is_ok() { told } else { text }
}

/// The text sets or adds to a field in three places, and has at least two objects.
fn lively(text: &[u8]) -> bool {
    let lines = |word: &[u8]| text.split(|&b| b == b'\n').filter(|l| l.starts_with(word)).count();
    lines(b"set ") + lines(b"add ") > 2 && lines(b"object ") > 1
}

/// A list of values to start on: the text's own, or any.
pub fn values_for(random: &mut Random, library: &Library) -> Vec<u32> {
    let own = library.starting_values();
    if random.one_in(2) {
        return own;
    }
    own.iter().map(|_| random.edge()).collect()
}

#[derive(Clone, Copy, PartialEq)]
enum Phase {
    Closed,
    Open,
    Running,
    Waiting,
}

/// Who makes a list's calls one by one: it is told each answer, and so knows which slots are open.
pub struct Caller {
    phases: [Phase; 8],
    /// How many slots it likes to use.
    slots: usize,
    /// How many steps it makes for each other call.
    patience: usize,
    /// The targets that it likes, and the methods of each that it likes.
    liked: Vec<(Target, Vec<u32>)>,
    /// What each slot's transaction has sent, and whether it likes to send that again, to the same target or to another.
    sent: [Vec<(Target, u32)>; 8],
    repeats: bool,
    /// It rarely ends a transaction that could go on.
    keeps: bool,
}

fn any_target(random: &mut Random, library: &Library) -> Target {
    match random.below(5) {
        0 => Target::Class(random.below(library.classes.len()) as u32),
        1 => Target::Domain(random.below(library.classes.len()) as u32),
        _ => Target::Object(random.below(library.objects.len()) as u32),
    }
}

fn class_of(library: &Library, target: Target) -> Option<&String> {
    match target {
        Target::Object(o) => library.objects.get(o as usize).map(|o| &o.class),
        Target::Class(c) | Target::Domain(c) => library.classes.get(c as usize).map(|c| &c.name),
    }
}

/// How many methods the class of a target has; 0 where there is none.
fn methods(library: &Library, target: Target) -> usize {
    class_of(library, target).map_or(0, |c| library.methods(c).len())
}

/// A target with all methods of its class.
fn with_all(library: &Library, target: Target) -> (Target, Vec<u32>) {
    (target, (0..methods(library, target) as u32).collect())
}

/// A target with the methods of its class that add to a field.
fn with_adding(library: &Library, target: Target) -> (Target, Vec<u32>) {
    let class = class_of(library, target).expect("a target with a class");
    let adds = |method: &String| transitive(library, class, method).contains(&Mode::Add);
    (target, (0..).zip(library.methods(class)).filter(|(_, method)| adds(method)).map(|(k, _)| k).collect())
}

/// A target that has methods, if that is not hard to find.
fn target(random: &mut Random, library: &Library) -> Target {
    let tries: Vec<Target> = (0..6).map(|_| any_target(random, library)).collect();
    tries.iter().copied().find(|&t| methods(library, t) > 0).unwrap_or(tries[0])
}

impl Caller {
    pub fn new(random: &mut Random, library: &Library) -> Caller {
        let liked = (0..1 + random.below(4)).map(|_| with_all(library, target(random, library))).collect();
        let slots = if random.one_in(4) { 8 } else { 2 + random.below(3) };
        Caller::with(slots, 2 + random.below(12), liked)
    }

    fn with(slots: usize, patience: usize, liked: Vec<(Target, Vec<u32>)>) -> Caller {
        Caller { phases: [Phase::Closed; 8], slots, patience, liked, sent: Default::default(), repeats: false, keeps: false }
    }

    /// One that uses all slots and likes one target: most of its first sends clash.
    pub fn crowded(random: &mut Random, library: &Library) -> Caller {
        Caller::with(8, 2, vec![with_all(library, target(random, library))])
    }

    /// One that uses many slots, likes an object, its class and its domain, and another object, and often repeats a send: lines are
    /// long, several start at once, and slots go ahead on locks that they hold.
    pub fn queueing(random: &mut Random, library: &Library) -> Caller {
        if library.objects.is_empty() {
            return Caller::new(random, library);
        }
        let object = random.below(library.objects.len());
        let class = library.number_of(&library.objects[object].class) as u32;
        let other = Target::Object(random.below(library.objects.len()) as u32);
        let targets = [Target::Object(object as u32), other, Target::Class(class), Target::Domain(class), Target::Domain(0)];
        let liked = targets.into_iter().map(|target| with_all(library, target)).collect();
        Caller { repeats: true, ..Caller::with(4 + random.below(5), 2 + random.below(5), liked) }
    }

    /// One that likes the single objects, and whose transactions go from one to another: circles of waits are often close.
    pub fn circling(random: &mut Random, library: &Library) -> Caller {
        let objects = (0..library.objects.len() as u32).map(|object| with_all(library, Target::Object(object)));
        let liked: Vec<_> = objects.filter(|(_, methods)| !methods.is_empty()).collect();
        if liked.is_empty() {
            return Caller::new(random, library);
        }
        let slots = if random.one_in(2) { 8 } else { 2 + random.below(6) };
        Caller { keeps: true, ..Caller::with(slots, 3 + random.below(4), liked) }
    }

    /// One that likes an object, its class and its domain, and the methods that add to a field: several slots add to one at once. With
    /// few slots one of them often sets what it added to.
    pub fn tallying(random: &mut Random, library: &Library) -> Caller {
        if library.objects.is_empty() {
            return Caller::new(random, library);
        }
        let object = random.below(library.objects.len());
        let class = library.number_of(&library.objects[object].class) as u32;
        let object = Target::Object(object as u32);
        let targets = [object, object, Target::Class(class), Target::Domain(class), Target::Domain(0)];
        let mut liked: Vec<_> = targets.into_iter().map(|target| with_adding(library, target)).collect();
        let slots = if random.one_in(3) { 2 } else { 3 + random.below(6) };
        liked.extend(vec![with_all(library, object); if slots == 2 { 5 } else { 1 }]);
        Caller::with(slots, 2 + random.below(4), liked)
    }

    /// Learns what a call was answered.
    pub fn told(&mut self, call: Call, answer: Answer) {
        let (slot, phase) = match (call, answer) {
            (Call::Send { slot, .. }, Answer::Done) => (slot, Phase::Running),
            (Call::Send { slot, .. }, Answer::Held(_)) => (slot, Phase::Waiting),
            (Call::Step(s), Answer::Going) => (s, Phase::Running),
            (Call::Step(s), Answer::Answer(_)) => (s, Phase::Open),
            (Call::Commit(s) | Call::Abort(s), Answer::Done) | (Call::Step(s), Answer::Stopped) => (s, Phase::Closed),
            (Call::Send { slot: s, .. } | Call::Step(s) | Call::Commit(s), Answer::Refused(37)) => (s, Phase::Waiting),
            (Call::Send { slot: s, .. } | Call::Commit(s), Answer::Refused(34)) => (s, Phase::Running),
            // On altered memory a slot may be open although nobody opened it.
            (Call::Step(s), Answer::Refused(35)) => (s, Phase::Open),
            _ => return,
        };
        if let (Call::Send { target, method, .. }, Answer::Done | Answer::Held(_)) = (call, answer) {
            self.sent[slot as usize].push((target, method));
        }
        if phase == Phase::Closed {
            self.sent[slot as usize].clear();
            // Those that waited may have started.
            self.phases.iter_mut().filter(|phase| **phase == Phase::Waiting).for_each(|phase| *phase = Phase::Running);
        }
        self.phases[slot as usize] = phase;
    }

    fn send(&self, random: &mut Random, library: &Library, slot: u32) -> Call {
        let sent = &self.sent[slot as usize];
        if self.repeats && !sent.is_empty() && random.one_in(2) {
            let (mut target, method) = *random.pick(sent);
            if random.one_in(2) {
                target = random.pick(&self.liked).0;
            }
            return Call::Send { slot, target, method, argument: random.edge() };
        }
        let any = random.one_in(if self.keeps { 12 } else { 3 }).then(|| with_all(library, target(random, library)));
        let (target, methods) = any.as_ref().unwrap_or_else(|| random.pick(&self.liked));
        let method = methods.get(random.below(methods.len())).copied().unwrap_or(0);
        Call::Send { slot, target: *target, method, argument: random.edge() }
    }

    /// A call without a thought: a slot that may not be there, a send that may name nothing.
    fn any(&self, random: &mut Random, library: &Library) -> Call {
        let slot = if random.one_in(3) { *random.pick(&[8, 9, 31, 32, u32::MAX]) } else { random.below(8) as u32 };
        match random.below(5) {
            0 => Call::Step(slot),
            1 => Call::Commit(slot),
            2 => Call::Abort(slot),
            _ => {
                let number = |random: &mut Random, n: usize| if random.one_in(3) { random.edge() } else { random.below(n + 1) as u32 };
                let target = match random.below(3) {
                    0 => Target::Object(number(random, library.objects.len())),
                    1 => Target::Class(number(random, library.classes.len())),
                    _ => Target::Domain(number(random, library.classes.len())),
                };
                let slot = if random.one_in(8) { slot } else { random.below(self.slots) as u32 };
                Call::Send { slot, target, method: number(random, 4), argument: random.edge() }
            }
        }
    }

    pub fn next(&self, random: &mut Random, library: &Library) -> Call {
        if random.one_in(20) {
            return self.any(random, library);
        }
        let running: Vec<u32> = (0..8).filter(|&s| self.phases[s as usize] == Phase::Running).collect();
        if !running.is_empty() && random.below(self.patience) > 0 {
            return Call::Step(*random.pick(&running));
        }
        let slot = random.below(self.slots) as u32;
        match self.phases[slot as usize] {
            Phase::Closed => match random.below(24) {
                0 => Call::Step(slot),
                1 => Call::Commit(slot),
                2 => Call::Abort(slot),
                _ => self.send(random, library, slot),
            },
            Phase::Running if random.one_in(if self.keeps { 30 } else { 4 }) => Call::Abort(slot),
            Phase::Running => Call::Step(slot),
            Phase::Waiting => match random.below(if self.keeps { 60 } else { 12 }) {
                0 | 1 => Call::Abort(slot),
                2 => Call::Commit(slot),
                3 => self.send(random, library, slot),
                4 => Call::Step(slot),
                // Rather somebody else.
                _ => self.next(random, library),
            },
            Phase::Open => match random.below(if self.keeps { 20 } else { 8 }) {
                0 | 1 => Call::Commit(slot),
                2 => Call::Abort(slot),
                _ => self.send(random, library, slot),
            },
        }
    }
}
