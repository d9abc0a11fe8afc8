//! Texts whose methods add to, set and read the same two fields, and lists in which several slots add to one field at once
//! (document 02, Ticket 6).

use crate::Random;
use reference::machine::{Call, Target};

/// Methods by their first letter: `t` adds, `s` also sets, `r` reads, `m` does all of it. The first class has them all.
const METHODS: [&str; 6] = ["t0", "t1", "t2", "s0", "r0", "m0"];

/// What a method may call: one that only adds calls only such ones.
fn called(random: &mut Random, method: &str) -> &'static str {
    let many = match &method[..1] {
        "t" => 3,
        "s" => 4,
        _ => METHODS.len(),
    };
    METHODS[random.below(many)]
}

fn field(random: &mut Random) -> &'static str {
    if random.one_in(4) { "y" } else { "x" }
}

/// An expression without fields.
fn plain(random: &mut Random) -> String {
    match random.below(6) {
        0 => "got".into(),
        1 => format!("+ arg {}", random.below(9)),
        2 => format!("- {} arg", random.below(9)),
        3 => random.edge().to_string(),
        _ => "arg".into(),
    }
}

/// An expression that reads.
fn reading(random: &mut Random) -> String {
    random.pick(&["x", "y", "+ x arg", "* 2 y", "< y x", "= x arg"]).to_string()
}

/// One statement of a method; the class has these ancestors.
fn statement(random: &mut Random, method: &str, ancestors: &[String]) -> String {
    let reads = method.starts_with(['r', 'm']) && random.one_in(2);
    let value = if reads { reading(random) } else { plain(random) };
    let action = match (random.below(8), &method[..1]) {
        (_, "r") => format!("reply {value}"),
        (0 | 1, "s" | "m") => format!("set {} {value}", field(random)),
        (2, "m") => format!("reply {value}"),
        (3, _) => format!("send {} to self {value}", called(random, method)),
        (4, _) if !ancestors.is_empty() => format!("send {}.{} to self {value}", random.pick(ancestors), called(random, method)),
        _ => format!("add {} {value}", field(random)),
    };
    match random.below(6) {
        0 if reads => format!("when {} {action}\n", reading(random)),
        0 => format!("when {} {action}\n", plain(random)),
        _ => action + "\n",
    }
}

fn method(random: &mut Random, name: &str, ancestors: &[String]) -> String {
    let body: String = (0..1 + random.below(3)).map(|_| statement(random, name, ancestors)).collect();
    format!("method {name}\n{body}end\n")
}

/// A valid text: class a, up to three classes below it that write some of its methods anew, and their objects.
pub fn text(random: &mut Random) -> Vec<u8> {
    let mut text = String::from("class a\nfield x\nfield y\n");
    for name in METHODS {
        text += &method(random, name, &[]);
    }
    // The classes with their ancestors.
    let mut classes: Vec<(String, Vec<String>)> = vec![("a".into(), Vec::new())];
    for name in ["b", "c", "d"].into_iter().take(random.below(4)) {
        let (parent, above) = random.pick(&classes).clone();
        let ancestors = [vec![parent.clone()], above].concat();
        text += &format!("class {name} : {parent}\n");
        if random.one_in(3) {
            text += &format!("field z{name}\n");
        }
        for own in METHODS {
            if random.one_in(3) {
                text += &method(random, own, &ancestors);
            }
        }
        classes.push((name.into(), ancestors));
    }
    for k in 0..1 + random.below(4) {
        text += &format!("object o{k} {} {} {}\n", random.pick(&classes).0, random.edge(), random.edge());
    }
    text.into_bytes()
}

/// A lane with a total.
pub const LANE: &[u8] = b"class lane
field total
method tally
add total arg
end
method put
set total arg
end
method both
add total arg
set total * 10 arg
add total 1
end
method maybe
when arg add total 5
end
method read
reply total
end
object lane1 lane 7
";

const TALLY: u32 = 0;
const PUT: u32 = 1;
const BOTH: u32 = 2;
const MAYBE: u32 = 3;
const READ: u32 = 4;

/// A message to the lane, with more steps than any of its methods takes.
fn message(slot: u32, (method, argument): (u32, u32)) -> Vec<Call> {
    [vec![Call::Send { slot, target: Target::Object(0), method, argument }], vec![Call::Step(slot); 5]].concat()
}

fn end(slot: u32, undone: bool) -> Call {
    if undone { Call::Abort(slot) } else { Call::Commit(slot) }
}

/// All orders of these.
fn orders(of: &[u32]) -> Vec<Vec<u32>> {
    if of.is_empty() {
        return vec![Vec::new()];
    }
    let after = |&first: &u32| {
        let rest: Vec<u32> = of.iter().copied().filter(|&k| k != first).collect();
        orders(&rest).into_iter().map(move |order| [vec![first], order].concat())
    };
    of.iter().flat_map(after).collect()
}

/// Lists on LANE: four slots add in turn, twice each, and end in every order, each by abort or by commit; a reader asks in between.
pub fn ends() -> Vec<Vec<Call>> {
    let adding = [(0, 3), (1, 4_000_000_000), (2, 500_000_000), (3, 0), (1, 1), (0, u32::MAX), (3, 7), (2, 9)];
    let added: Vec<Call> = adding.iter().flat_map(|&(slot, argument)| message(slot, (TALLY, argument))).collect();
    let mut lists = Vec::new();
    for order in orders(&[0, 1, 2, 3]) {
        for undone in 0..16 {
            let ended = order.iter().flat_map(|&slot| [message(6, (READ, 0)), vec![end(slot, undone >> slot & 1 == 1)]].concat());
            lists.push(added.iter().copied().chain(ended).chain(message(6, (READ, 0))).collect());
        }
    }
    lists
}

/// Lists on LANE: three messages of slot 0 out of six, in every order (added, set, skipped, one of 0), with one of slot 1 before, between
/// or after them, which is committed or aborted at once or last; then slot 0 is aborted or committed.
pub fn mixed() -> Vec<Vec<Call>> {
    let messages = [(TALLY, 3), (TALLY, 0), (TALLY, u32::MAX), (PUT, 100), (BOTH, 6), (MAYBE, 0)];
    let mut lists = Vec::new();
    for chosen in 0..6usize.pow(3) {
        let own = [chosen / 36, chosen / 6 % 6, chosen % 6].map(|k| message(0, messages[k]));
        for other in 0..4 * 3 * 2 {
            let (place, ends, undone) = (other / 6, other / 2 % 3, other % 2 == 1);
            let mut list = own[..place].concat();
            list.extend(message(1, (TALLY, 10)));
            list.extend((ends < 2).then_some(end(1, ends == 1)));
            list.extend(own[place..].concat());
            list.extend([end(0, undone), end(1, ends == 1)]);
            lists.push(list);
        }
    }
    lists
}
