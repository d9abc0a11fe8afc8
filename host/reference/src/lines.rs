//! Calls and answers as lines: `send 0 lane1 shot 40`, `40 2`.

use crate::machine::{Answer, Call, Target};
use crate::syntax::{name, number};
use crate::text::{Library, Object};

/// A place as a number; a number that nothing has where there is none.
fn place(found: Option<usize>) -> u32 {
    found.map_or(u32::MAX, |p| p as u32)
}

/// The call of a call line without its LF, or none where the line has another form (51).
pub fn call(library: &Library, line: &[u8]) -> Option<Call> {
    let line = std::str::from_utf8(line).ok()?;
    let words: Vec<&str> = line.split(' ').collect();
    match words.as_slice() {
        ["step", slot] => Some(Call::Step(number(slot)?)),
        ["commit", slot] => Some(Call::Commit(number(slot)?)),
        ["abort", slot] => Some(Call::Abort(number(slot)?)),
        [kind, slot, target, method, argument] => {
            let (slot, argument) = (number(slot)?, number(argument)?);
            let (target, method) = (name(target)?, name(method)?);
            let (target, method) = named(library, kind, &target, &method)?;
            Some(Call::Send { slot, target, method, argument })
        }
        _ => None,
    }
}

/// What a send's names stand for: its target, and the method's place in the target's class.
fn named(library: &Library, kind: &str, target: &str, method: &str) -> Option<(Target, u32)> {
    let object = library.objects.iter().position(|o| o.name == target);
    let class = library.classes.iter().position(|c| c.name == target);
    let (target, class) = match kind {
        "send" => (Target::Object(place(object)), object.map(|o| &library.objects[o].class)),
        "all" => (Target::Class(place(class)), class.map(|c| &library.classes[c].name)),
        "tree" => (Target::Domain(place(class)), class.map(|c| &library.classes[c].name)),
        _ => return None,
    };
    let method = class.and_then(|c| library.methods(c).iter().position(|m| m == method));
    Some((target, place(method)))
}

/// An answer as it is printed.
pub fn said(answer: Answer) -> String {
    match answer {
        Answer::Done => "ok".into(),
        Answer::Going => "going".into(),
        Answer::Answer(v) => format!("answer {v}"),
        Answer::Refused(n) => n.to_string(),
        Answer::Held(s) => format!("40 {s}"),
        Answer::Stopped => "41".into(),
    }
}

/// A line of a trace: the answer and all field values after the call.
pub fn traced(answer: Answer, values: &[u32]) -> String {
    let values: Vec<String> = values.iter().map(u32::to_string).collect();
    format!("{} | {}", said(answer), values.join(" "))
}

/// The last lines: each object's name and values.
pub fn objects(library: &Library, values: &[u32]) -> Vec<String> {
    let mut values = values.iter();
    let line = |o: &Object| {
        let count = library.fields(&o.class).len();
        values.by_ref().take(count).fold(o.name.clone(), |line, v| format!("{line} {v}"))
    };
    library.objects.iter().map(line).collect()
}
