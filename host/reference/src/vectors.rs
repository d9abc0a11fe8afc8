//! Access vectors and commuting methods (definitions 5 to 10 of the paper; document 02, Ticket 6), as maps and sets.

use crate::syntax::{Action, Expression};
use crate::text::{Library, Method};
use std::collections::{BTreeSet, HashMap};

#[derive(Clone, Copy, Debug, PartialEq, Eq)]
pub enum Mode {
    Null,
    Read,
    Add,
    Write,
}
use Mode::{Add, Null, Read, Write};

/// Two modes joined; rows and columns are Null, Read, Add, Write.
const JOINED: [[Mode; 4]; 4] = [
    [Null, Read, Add, Write],
    [Read, Read, Write, Write],
    [Add, Write, Add, Write],
    [Write, Write, Write, Write],
];

/// Whether two modes clash (Table 1 of the paper, with Add), in the same order.
const CLASHES: [[bool; 4]; 4] = [
    [false, false, false, false],
    [false, false, true, true],
    [false, true, false, true],
    [false, true, true, true],
];

/// A mode for each field that occurs; absent ones are Null.
type Modes = HashMap<String, Mode>;

fn raise(modes: &mut Modes, field: &str, mode: Mode) {
    let now = modes.entry(field.to_string()).or_insert(Null);
    *now = JOINED[*now as usize][mode as usize];
}

fn reads(e: &Expression, modes: &mut Modes) {
    match e {
        Expression::Field(f) => raise(modes, f, Read),
        Expression::Apply(_, a, b) => {
            reads(a, modes);
            reads(b, modes);
        }
        _ => {}
    }
}

/// The direct vector of a body.
pub fn direct(method: &Method) -> Modes {
    let mut modes = Modes::new();
    for placed in &method.body {
        if let Some(guard) = &placed.statement.when {
            reads(guard, &mut modes);
        }
        match &placed.statement.action {
            Action::Set(field, e) => {
                raise(&mut modes, field, Write);
                reads(e, &mut modes);
            }
            Action::Add(field, e) => {
                raise(&mut modes, field, Add);
                reads(e, &mut modes);
            }
            Action::Send { value, .. } => reads(value, &mut modes),
            Action::Reply(e) => reads(e, &mut modes),
        }
    }
    modes
}

/// The vertices that a method reaches in the late binding graph of a class.
pub fn reached(library: &Library, class: &str, method: &str) -> BTreeSet<(String, String)> {
    let mut seen = BTreeSet::new();
    let mut left = vec![(class.to_string(), method.to_string())];
    while let Some(node) = left.pop() {
        if !seen.insert(node.clone()) {
            continue;
        }
        for placed in &library.method(&node.0, &node.1).expect("a known method").body {
            if let Action::Send { class: prefix, method, .. } = &placed.statement.action {
                let target = prefix.clone().unwrap_or_else(|| class.to_string());
                left.push((target, method.clone()));
            }
        }
    }
    seen
}

/// The transitive vector of a method in a class, in field order.
pub fn transitive(library: &Library, class: &str, method: &str) -> Vec<Mode> {
    let mut modes = Modes::new();
    for (c, m) in reached(library, class, method) {
        for (field, mode) in direct(library.method(&c, &m).expect("a known method")) {
            raise(&mut modes, &field, mode);
        }
    }
    library.fields(class).iter().map(|(_, n)| modes.get(n).copied().unwrap_or(Null)).collect()
}

/// Two vectors commute if no field clashes.
pub fn commute(a: &[Mode], b: &[Mode]) -> bool {
    a.iter().zip(b).all(|(&x, &y)| !CLASHES[x as usize][y as usize])
}

/// The transitive vectors of each class's methods, in order.
pub fn all(library: &Library) -> Vec<Vec<Vec<Mode>>> {
    let of = |c: &str| library.methods(c).iter().map(|m| transitive(library, c, m)).collect();
    library.classes.iter().map(|c| of(&c.name)).collect()
}
