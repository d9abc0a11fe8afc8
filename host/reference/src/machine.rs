//! The machine: slots, locks, the line of waiting sends, activations, steps, undo.

use crate::syntax::{Action, Expression};
use crate::text::{Library, Method};
use crate::vectors::{commute, transitive, Mode};
use std::collections::{BTreeMap, HashMap, HashSet};
use std::rc::Rc;

#[derive(Clone, Copy, Debug, PartialEq, Eq)]
pub enum Target {
    Object(u32),
    Class(u32),
    Domain(u32),
}

#[derive(Clone, Copy, Debug, PartialEq, Eq)]
pub enum Call {
    Send { slot: u32, target: Target, method: u32, argument: u32 },
    Step(u32),
    Commit(u32),
    Abort(u32),
}

#[derive(Clone, Copy, Debug, PartialEq, Eq)]
pub enum Answer {
    Done,
    Going,
    Answer(u32),
    Refused(u32),
    Held(u32),
    Stopped,
}

/// A send by names: what a message is, whoever runs it.
#[derive(Clone, Debug, PartialEq, Eq, Hash)]
pub struct Message {
    pub objects: Vec<usize>,
    pub locks: Vec<Lock>,
    pub method: String,
    pub argument: u32,
}

/// A lock: a method on an object, or on a class with the flag that says whether all of it is meant.
#[derive(Clone, Debug, PartialEq, Eq, Hash)]
pub enum Lock {
    Object(usize, String),
    Class(String, String, bool),
}

/// An activation: a body, the statement that is next in it, and its three values.
#[derive(Clone, Debug)]
struct Activation<'a> {
    body: &'a Method,
    next: usize,
    argument: u32,
    got: u32,
    reply: u32,
}

/// A message on one object.
#[derive(Clone, Debug)]
pub struct OnObject<'a> {
    object: usize,
    class: &'a str,
    activations: Vec<Activation<'a>>,
    steps: u64,
}

/// What one step on an object comes to.
pub enum Step {
    Going,
    Ended(u32),
    Stopped,
}

/// A change of a field: set, with the value before it, or added to.
#[derive(Clone, Copy, Debug, PartialEq, Eq)]
pub enum Change {
    Set(u32),
    Add(u32),
}

/// Told of each change: the object, the field's name, the change.
type Told<'t> = &'t mut dyn FnMut(usize, &str, Change);

/// The fields, object by object, each a map from names to values.
pub type Fields = Vec<BTreeMap<String, u32>>;

fn value(e: &Expression, fields: &BTreeMap<String, u32>, a: &Activation) -> u32 {
    match e {
        Expression::Number(n) => *n,
        Expression::Field(f) => fields[f],
        Expression::Argument => a.argument,
        Expression::Got => a.got,
        Expression::Apply(o, x, y) => {
            let (x, y) = (value(x, fields, a), value(y, fields, a));
            match o {
                b'+' => x.wrapping_add(y),
                b'-' => x.wrapping_sub(y),
                b'*' => x.wrapping_mul(y),
                b'<' => ((x as i32) < (y as i32)) as u32,
                _ => (x == y) as u32,
            }
        }
    }
}

impl<'a> OnObject<'a> {
    pub fn new(library: &'a Library, object: usize, message: &Message) -> OnObject<'a> {
        let class = &library.objects[object].class;
        let mut run = OnObject { object, class, activations: Vec::new(), steps: 0 };
        run.open(library, class, &message.method, message.argument);
        run
    }

    fn open(&mut self, library: &'a Library, class: &str, method: &str, argument: u32) {
        let body = library.method(class, method).expect("a known method");
        self.activations.push(Activation { body, next: 0, argument, got: 0, reply: 0 });
    }

    /// One step; `told` hears of each change.
    pub fn step(&mut self, library: &'a Library, fields: &mut Fields, told: Told) -> Step {
        self.steps += 1;
        match self.one(library, fields, told) {
            Step::Going if self.steps >= 1_024 => Step::Stopped,
            outcome => outcome,
        }
    }

    /// The end of a body: its reply goes to the caller, or the object has ended.
    fn body_ends(&mut self) -> Step {
        let reply = self.activations.pop().expect("an activation").reply;
        match self.activations.last_mut() {
            Some(caller) => {
                caller.got = reply;
                Step::Going
            }
            None => Step::Ended(reply),
        }
    }

    fn one(&mut self, library: &'a Library, fields: &mut Fields, told: Told) -> Step {
        let object = self.object;
        let depth = self.activations.len();
        let top = self.activations.last_mut().expect("an activation");
        let placed = match top.body.body.get(top.next) {
            Some(placed) => placed,
            None => return self.body_ends(),
        };
        top.next += 1;
        let now = &fields[object];
        if let Some(guard) = &placed.statement.when {
            if value(guard, now, top) == 0 {
                return Step::Going;
            }
        }
        match &placed.statement.action {
            Action::Set(field, e) => {
                let (old, new) = (now[field], value(e, now, top));
                told(object, field, Change::Set(old));
                fields[object].insert(field.clone(), new);
            }
            Action::Add(field, e) => {
                let (old, more) = (now[field], value(e, now, top));
                told(object, field, Change::Add(more));
                fields[object].insert(field.clone(), old.wrapping_add(more));
            }
            Action::Reply(e) => {
                top.reply = value(e, now, top);
                top.next = top.body.body.len();
            }
            Action::Send { class, method, value: e } => {
                let argument = value(e, now, top);
                if depth == 8 {
                    return Step::Stopped;
                }
                let class = class.as_deref().unwrap_or(self.class);
                self.open(library, class, method, argument);
            }
        }
        Step::Going
    }
}

#[derive(Clone, Debug, Default)]
struct Transaction<'a> {
    locks: HashSet<Lock>,
    /// The changes that it made to a field, in order.
    changes: HashMap<(usize, String), Vec<Change>>,
    message: Option<Message>,
    on: Option<OnObject<'a>>,
    left: Vec<usize>,
    sum: u32,
}

/// Which locks of a library clash.
#[derive(Clone)]
pub struct Clashes<'a> {
    pub library: &'a Library,
    /// The vectors by class and method, shared by copies.
    vectors: Rc<HashMap<String, HashMap<String, Vec<Mode>>>>,
}

impl<'a> Clashes<'a> {
    pub fn of(library: &'a Library) -> Clashes<'a> {
        let vectors_of = |class: &str| library.methods(class).into_iter().map(|m| (m.clone(), transitive(library, class, &m))).collect();
        let vectors = library.classes.iter().map(|class| (class.name.clone(), vectors_of(&class.name))).collect();
        Clashes { library, vectors: Rc::new(vectors) }
    }

    fn commute(&self, class: &str, a: &str, b: &str) -> bool {
        let vectors = &self.vectors[class];
        commute(&vectors[a], &vectors[b])
    }

    fn clash(&self, a: &Lock, b: &Lock) -> bool {
        match (a, b) {
            (Lock::Object(o, m), Lock::Object(p, n)) => o == p && !self.commute(&self.library.objects[*o].class, m, n),
            (Lock::Class(c, m, all), Lock::Class(d, n, every)) => c == d && (*all || *every) && !self.commute(c, m, n),
            _ => false,
        }
    }

    /// Whether a lock of the message clashes with one of these.
    pub fn any<'l>(&self, message: &Message, locks: impl IntoIterator<Item = &'l Lock>) -> bool {
        locks.into_iter().any(|held| message.locks.iter().any(|lock| self.clash(lock, held)))
    }
}

/// A send that waits, with its slot.
#[derive(Clone, Debug, PartialEq)]
pub struct Waiter {
    pub slot: u32,
    pub message: Message,
}

#[derive(Clone)]
pub struct Machine<'a> {
    library: &'a Library,
    pub clashes: Clashes<'a>,
    pub fields: Fields,
    slots: Vec<Option<Transaction<'a>>>,
    /// The waiting sends in order of arrival.
    pub line: Vec<Waiter>,
}

/// A flat list of values as fields by object and name.
pub fn fields_of(library: &Library, values: &[u32]) -> Fields {
    let mut values = values.iter().copied();
    let of = |class: &str, values: &mut dyn Iterator<Item = u32>| {
        library.fields(class).into_iter().map(|(_, n)| (n, values.next().expect("a value for each field"))).collect()
    };
    library.objects.iter().map(|o| of(&o.class, &mut values)).collect()
}

/// The flat list back.
pub fn values_of(library: &Library, fields: &Fields) -> Vec<u32> {
    let of = |(o, f): (&crate::text::Object, &BTreeMap<String, u32>)| -> Vec<u32> {
        library.fields(&o.class).iter().map(|(_, n)| f[n]).collect()
    };
    library.objects.iter().zip(fields).flat_map(of).collect()
}

/// The message that a send names, or none (36).
pub fn message(library: &Library, target: Target, method: u32, argument: u32) -> Option<Message> {
    let class = match target {
        Target::Object(o) => &library.objects.get(o as usize)?.class,
        Target::Class(c) | Target::Domain(c) => &library.classes.get(c as usize)?.name,
    };
    let method = library.methods(class).get(method as usize)?.clone();
    let visits = |chosen: &dyn Fn(&str) -> bool| {
        (0..library.objects.len()).filter(|&o| chosen(&library.objects[o].class)).collect::<Vec<usize>>()
    };
    let (objects, locks) = match target {
        Target::Object(o) => {
            let o = o as usize;
            (vec![o], vec![Lock::Object(o, method.clone()), Lock::Class(class.clone(), method.clone(), false)])
        }
        Target::Class(_) => (visits(&|c| c == class), vec![Lock::Class(class.clone(), method.clone(), true)]),
        Target::Domain(_) => {
            let inside = |c: &str| c == class || library.is_ancestor(class, c);
            let classes = library.classes.iter().filter(|c| inside(&c.name));
            (visits(&inside), classes.map(|c| Lock::Class(c.name.clone(), method.clone(), true)).collect())
        }
    };
    Some(Message { objects, locks, method, argument })
}

impl<'a> Machine<'a> {
    /// The machine after a start, or none where the values are of another count than the fields (22).
    pub fn start(library: &'a Library, values: &[u32]) -> Option<Machine<'a>> {
        if values.len() != library.starting_values().len() {
            return None;
        }
        let fields = fields_of(library, values);
        Some(Machine { library, clashes: Clashes::of(library), fields, slots: vec![None; 8], line: Vec::new() })
    }

    pub fn values(&self) -> Vec<u32> {
        values_of(self.library, &self.fields)
    }

    pub fn is_open(&self, slot: u32) -> bool {
        matches!(self.slots.get(slot as usize), Some(Some(_)))
    }

    pub fn is_running(&self, slot: u32) -> bool {
        matches!(self.slots.get(slot as usize), Some(Some(transaction)) if transaction.message.is_some())
    }

    pub fn is_waiting(&self, slot: u32) -> bool {
        self.line.iter().any(|waiter| waiter.slot == slot)
    }

    pub fn idle(&self) -> bool {
        !(0..8).any(|slot| self.is_open(slot))
    }

    /// The changes that a slot's open transaction made to each field, by the object and the field's name, in order.
    pub fn changes(&self, slot: u32) -> impl Iterator<Item = (&(usize, String), &Vec<Change>)> {
        self.slots[slot as usize].iter().flat_map(|transaction| &transaction.changes)
    }

    /// How many slots have added to one field and not ended, of the field where most have.
    pub fn most_adding(&self) -> usize {
        let mut adding: HashMap<&(usize, String), usize> = HashMap::new();
        for (field, changes) in (0..8).flat_map(|slot| self.changes(slot)) {
            *adding.entry(field).or_default() += matches!(changes[0], Change::Add(_)) as usize;
        }
        adding.into_values().max().unwrap_or(0)
    }

    /// The slots, other than this one, that a send clashes with: those that hold locks, and of the line those among so many at its front.
    pub fn in_the_way(&self, slot: u32, message: &Message, ahead: usize) -> Vec<u32> {
        let holds = |other: u32| self.clashes.any(message, self.slots[other as usize].iter().flat_map(|t| &t.locks));
        let waits = |other: u32| {
            self.line[..ahead].iter().any(|waiter| waiter.slot == other && self.clashes.any(message, &waiter.message.locks))
        };
        (0..8).filter(|&other| other != slot && (holds(other) || waits(other))).collect()
    }

    /// The slots that a slot waits for: those that hold a lock that clashes with its waiting send, and those that wait ahead of it with a
    /// send that does.
    pub fn waits_for(&self, slot: u32) -> Vec<u32> {
        let waiting = self.line.iter().position(|waiter| waiter.slot == slot);
        waiting.map_or(Vec::new(), |place| self.in_the_way(slot, &self.line[place].message, place))
    }

    /// Whether a slot that does not wait would wait for itself, by way of any others, with this send as the last in line.
    pub fn closes_a_circle(&self, slot: u32, message: &Message) -> bool {
        let (mut reached, mut next) = (HashSet::new(), self.in_the_way(slot, message, self.line.len()));
        while let Some(other) = next.pop() {
            if reached.insert(other) {
                next.extend(self.waits_for(other));
            }
        }
        reached.contains(&slot)
    }

    /// The slot's open transaction got every lock of the message by an earlier send.
    pub fn holds(&self, slot: u32, message: &Message) -> bool {
        let held = |lock: &Lock| self.slots[slot as usize].iter().any(|t| t.locks.contains(lock));
        message.locks.iter().all(held)
    }

    pub fn call(&mut self, call: Call) -> Answer {
        let (Call::Send { slot, .. } | Call::Step(slot) | Call::Commit(slot) | Call::Abort(slot)) = call;
        if slot > 7 {
            return Answer::Refused(31);
        }
        let open = self.is_open(slot);
        let waiting = self.is_waiting(slot);
        let running = self.is_running(slot);
        match call {
            Call::Step(_) | Call::Commit(_) | Call::Abort(_) if !open => Answer::Refused(32),
            Call::Send { .. } | Call::Step(_) | Call::Commit(_) if waiting => Answer::Refused(37),
            Call::Send { .. } | Call::Commit(_) if running => Answer::Refused(34),
            Call::Step(_) if !running => Answer::Refused(35),
            Call::Send { target, method, argument, .. } => self.send(slot, target, method, argument),
            Call::Step(_) => self.step(slot as usize),
            Call::Commit(_) => {
                self.slots[slot as usize] = None;
                self.wake();
                Answer::Done
            }
            Call::Abort(_) => {
                self.line.retain(|waiter| waiter.slot != slot);
                self.undo(slot as usize);
                self.wake();
                Answer::Done
            }
        }
    }

    /// Takes back the changes to each field, the last one first: an addition is taken from the value that is there, a set gives the
    /// value before it.
    fn undo(&mut self, slot: usize) {
        let transaction = self.slots[slot].take().expect("an open slot");
        for ((object, field), changes) in transaction.changes {
            let back = |value: u32, change: &Change| match change {
                Change::Set(before) => *before,
                Change::Add(more) => value.wrapping_sub(*more),
            };
            let value = changes.iter().rev().fold(self.fields[object][&field], back);
            self.fields[object].insert(field, value);
        }
    }

    /// Goes through the line once from the front: a send starts if it clashes with no lock held and with none that waits ahead of it.
    fn wake(&mut self) {
        let mut ahead = 0;
        while ahead < self.line.len() {
            let waiter = &self.line[ahead];
            if self.in_the_way(waiter.slot, &waiter.message, ahead).is_empty() {
                let Waiter { slot, message } = self.line.remove(ahead);
                self.begin(slot, message);
            } else {
                ahead += 1;
            }
        }
    }

    /// A send opens its slot where that is closed: it starts, or it joins the line and is told the lowest slot that it clashes with. One
    /// whose locks its slot holds starts whoever waits. 36, and 42 in place of joining, alter nothing.
    fn send(&mut self, slot: u32, target: Target, method: u32, argument: u32) -> Answer {
        let message = match message(self.library, target, method, argument) {
            Some(message) => message,
            None => return Answer::Refused(36),
        };
        let in_the_way = self.in_the_way(slot, &message, self.line.len());
        if let (Some(&lowest), false) = (in_the_way.first(), self.holds(slot, &message)) {
            if self.closes_a_circle(slot, &message) {
                return Answer::Refused(42);
            }
            self.open(slot);
            self.line.push(Waiter { slot, message });
            return Answer::Held(lowest);
        }
        self.begin(slot, message);
        Answer::Done
    }

    /// The slot's transaction; a closed slot is opened.
    fn transaction(&mut self, slot: u32) -> &mut Transaction<'a> {
        self.slots[slot as usize].get_or_insert_with(Transaction::default)
    }

    /// Opens a slot where it is closed.
    pub fn open(&mut self, slot: u32) {
        self.transaction(slot);
    }

    /// Takes the message's locks and puts it at its start.
    pub fn begin(&mut self, slot: u32, message: Message) {
        let transaction = self.transaction(slot);
        transaction.locks.extend(message.locks.iter().cloned());
        transaction.left = message.objects.iter().rev().copied().collect();
        transaction.sum = 0;
        transaction.on = None;
        transaction.message = Some(message);
    }

    fn step(&mut self, slot: usize) -> Answer {
        let library = self.library;
        let transaction = self.slots[slot].as_mut().unwrap();
        let message = transaction.message.as_ref().unwrap();
        if transaction.on.is_none() {
            match transaction.left.pop() {
                Some(object) => transaction.on = Some(OnObject::new(library, object, message)),
                None => {
                    transaction.message = None;
                    return Answer::Answer(0);
                }
            }
        }
        let changes = &mut transaction.changes;
        let mut told = |object: usize, field: &str, change: Change| {
            changes.entry((object, field.to_string())).or_default().push(change);
        };
        match transaction.on.as_mut().unwrap().step(library, &mut self.fields, &mut told) {
            Step::Going => Answer::Going,
            Step::Stopped => {
                self.undo(slot);
                self.wake();
                Answer::Stopped
            }
            Step::Ended(reply) => {
                transaction.sum = transaction.sum.wrapping_add(reply);
                transaction.on = None;
                if !transaction.left.is_empty() {
                    return Answer::Going;
                }
                transaction.message = None;
                Answer::Answer(transaction.sum)
            }
        }
    }
}
