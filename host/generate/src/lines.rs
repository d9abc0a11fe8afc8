//! Call lines on a library: a list's calls by their names, and lines of another form among them.

use crate::calls::Caller;
use crate::{damage, Random};
use reference::machine::{Call, Machine, Target};
use reference::text::Library;

/// A name that no generated text has.
const NOBODY: &str = "nobody";

/// The line of a call. What it names by a number that nothing has, the line names by a name that nothing has.
pub fn line(library: &Library, call: Call) -> String {
    match call {
        Call::Step(slot) => format!("step {slot}\n"),
        Call::Commit(slot) => format!("commit {slot}\n"),
        Call::Abort(slot) => format!("abort {slot}\n"),
        Call::Send { slot, target, method, argument } => {
            let class = |c: u32| library.classes.get(c as usize).map(|c| &c.name);
            let object = |o: u32| library.objects.get(o as usize);
            let (kind, name, class) = match target {
                Target::Object(o) => ("send", object(o).map(|o| &o.name), object(o).map(|o| &o.class)),
                Target::Class(c) => ("all", class(c), class(c)),
                Target::Domain(c) => ("tree", class(c), class(c)),
            };
            let methods = class.map_or(Vec::new(), |c| library.methods(c));
            let method = methods.get(method as usize).map_or(NOBODY, |m| m);
            format!("{kind} {slot} {} {method} {argument}\n", name.map_or(NOBODY, |n| n))
        }
    }
}

/// The lines that a caller makes on the text's own starting values, without end.
pub fn lines<'a>(random: &'a mut Random, library: &'a Library) -> impl Iterator<Item = String> + 'a {
    let mut machine = Machine::start(library, &library.starting_values()).expect("a value for each field");
    let mut caller = Caller::new(random, library);
    std::iter::repeat_with(move || {
        let call = caller.next(random, library);
        caller.told(call, machine.call(call));
        line(library, call)
    })
}

const ODD: [&[u8]; 20] = [
    b"",
    b" ",
    b"step",
    b"step 00",
    b"step 8",
    b"step 0\r",
    b"STEP 0",
    b"step\t0",
    b"step 4294967295",
    b"step 4294967296",
    b"step -1",
    b"commit  0",
    b" abort 0",
    b"abort 0 ",
    b"send 0 level m 1",
    b"send 0 abcdefghijklmnopq m 1",
    b"all 0 nobody m 1 1",
    b"tree 0 a 0 1",
    b"\0",
    b"step 0\xff",
];

/// A line that is odd: this one damaged, one of the table, or one that is very long.
fn odd(random: &mut Random, line: &[u8]) -> Vec<u8> {
    match random.below(40) {
        0 => [&line[..line.len() - 1], &vec![*random.pick(b" 0x"); random.below(100_000)], b"\n"].concat(),
        1..=15 => [*random.pick(&ODD), b"\n"].concat(),
        _ => damage::damaged(random, line),
    }
}

/// As many lines of a caller, odd ones among them; some of the lists are damaged as a whole, their last LF included.
pub fn odd_list(random: &mut Random, library: &Library, count: usize) -> Vec<u8> {
    let made: Vec<String> = lines(random, library).take(count).collect();
    let mut list = Vec::new();
    for line in &made {
        if random.one_in(8) {
            list.extend(odd(random, line.as_bytes()));
        }
        list.extend(line.as_bytes());
    }
    if random.one_in(3) {
        list = damage::damaged(random, &list);
    }
    list
}
