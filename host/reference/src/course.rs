//! The plain course of demand 3: committed transactions, one after another in commit order; and the answers that every transaction
//! got beside those it would get running alone (document 02, Ticket 4).

use crate::machine::{fields_of, message, values_of, Answer, Call, Fields, Message, OnObject, Step};
use crate::text::Library;

/// The course, fed the calls with their answers.
pub struct Course<'a> {
    library: &'a Library,
    pub fields: Fields,
    latest: Vec<Option<Message>>,
    lists: Vec<Vec<(Message, u32)>>,
    /// The answers in the lists at their commits, each with the one that its run gives.
    pub compared: Compared,
    /// Those in the lists at an abort or a stop.
    pub undone: Compared,
}

/// Answers, each with the one of the same send run alone; none where that would be stopped.
pub type Compared = Vec<(u32, Option<u32>)>;

fn all_right(compared: &Compared) -> bool {
    compared.iter().all(|&(got, run)| run == Some(got))
}

/// Runs a send alone on the fields; none where it would be stopped.
pub fn alone(library: &Library, message: &Message, fields: &mut Fields) -> Option<u32> {
    let mut sum = 0u32;
    for &object in &message.objects {
        let mut run = OnObject::new(library, object, message);
        loop {
            match run.step(library, fields, &mut |_, _, _| {}) {
                Step::Going => {}
                Step::Stopped => return None,
                Step::Ended(reply) => {
                    sum = sum.wrapping_add(reply);
                    break;
                }
            }
        }
    }
    Some(sum)
}

impl<'a> Course<'a> {
    pub fn start(library: &'a Library, values: &[u32]) -> Course<'a> {
        let fields = fields_of(library, values);
        Course { library, fields, latest: vec![None; 8], lists: vec![Vec::new(); 8], compared: Vec::new(), undone: Vec::new() }
    }

    pub fn values(&self) -> Vec<u32> {
        values_of(self.library, &self.fields)
    }

    /// Runs a slot's list alone, right after the transactions committed so far: its answers compared, and the fields at its end.
    fn run(&self, slot: u32) -> (Compared, Fields) {
        let mut fields = self.fields.clone();
        let run = |(message, got): &(Message, u32)| (*got, alone(self.library, message, &mut fields));
        let compared = self.lists[slot as usize].iter().map(run).collect();
        (compared, fields)
    }

    /// Takes note of a call and its answer.
    pub fn feed(&mut self, call: Call, answer: Answer) {
        match (call, answer) {
            (Call::Abort(s), Answer::Done) | (Call::Step(s), Answer::Stopped) => {
                self.undone.extend(self.run(s).0);
                self.lists[s as usize].clear();
            }
            // A send that joins the line is its slot's latest too (Ticket 7).
            (Call::Send { slot, target, method, argument }, Answer::Done | Answer::Held(_)) => {
                self.latest[slot as usize] = message(self.library, target, method, argument);
            }
            (Call::Step(s), Answer::Answer(v)) => {
                let latest = self.latest[s as usize].clone().expect("a send");
                self.lists[s as usize].push((latest, v));
            }
            (Call::Commit(s), Answer::Done) => {
                let (compared, fields) = self.run(s);
                self.compared.extend(compared);
                self.fields = fields;
                self.lists[s as usize].clear();
            }
            _ => {}
        }
    }

    /// Demand 3: all answers at their commits are those of their runs.
    pub fn right(&self) -> bool {
        all_right(&self.compared)
    }

    /// Ticket 4: the answers of every transaction, committed, undone, stopped or open, are those it would get running alone right after
    /// the transactions committed before its end, or before now.
    pub fn seen_right(&self) -> bool {
        self.right() && all_right(&self.undone) && (0..8).all(|slot| all_right(&self.run(slot).0))
    }
}
