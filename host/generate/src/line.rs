//! Lists in which sends wait (document 02, Ticket 7): one slot holds, three join, and all end in every order.

use reference::machine::{Call, Target};

/// Two lanes and a dish, whose fields are read, set and added to.
pub const TEXT: &[u8] = b"class run
field focus
field clusters
method put
set focus arg
end
method look
reply focus
end
method tally
add clusters arg
end
method deep
set focus arg
send deep to self arg
end
class lane : run
class dish : run
object lane1 lane 1 10
object lane2 lane 2 20
object dish1 dish 3 30
";

const PUT: u32 = 0;
const LOOK: u32 = 1;
const DEEP: u32 = 3;

const LANE1: Target = Target::Object(0);
const LANE2: Target = Target::Object(1);
const LANES: Target = Target::Class(1);
const RUNS: Target = Target::Domain(0);

/// What the first slot sends, and what those that join may send.
const FIRST: [(Target, u32); 4] = [(RUNS, PUT), (LANE1, PUT), (LANE1, LOOK), (LANE1, DEEP)];
const JOINING: [(Target, u32); 4] = [(LANE1, PUT), (LANE1, LOOK), (LANE2, PUT), (LANES, LOOK)];

/// The slots by their arrival: the numbers are in another order.
const SLOTS: [u32; 4] = [4, 6, 1, 3];

fn send(slot: u32, (target, method): (Target, u32)) -> Call {
    Call::Send { slot, target, method, argument: 100 + slot }
}

/// All orders of these.
pub fn orders(of: &[u32]) -> Vec<Vec<u32>> {
    if of.is_empty() {
        return vec![Vec::new()];
    }
    let after = |&first: &u32| {
        let rest: Vec<u32> = of.iter().copied().filter(|&k| k != first).collect();
        orders(&rest).into_iter().map(move |order| [vec![first], order].concat())
    };
    of.iter().flat_map(after).collect()
}

/// Lists on TEXT: a send that holds, three that arrive after it, and the ends of the four in every order, each by abort or, after more
/// steps than its message has, by commit; a slot that waits is told 37, or is withdrawn.
pub fn ends() -> Vec<Vec<Call>> {
    let mut lists = Vec::new();
    for (k, first) in FIRST.into_iter().enumerate() {
        for chosen in 0..64 {
            let joining = [chosen / 16, chosen / 4 % 4, chosen % 4].map(|k| JOINING[k]);
            let sends = SLOTS.into_iter().zip([vec![first], joining.to_vec()].concat()).map(|(slot, sent)| send(slot, sent));
            for (n, order) in orders(&SLOTS).into_iter().enumerate() {
                let undone = (n + 5 * k + 7 * chosen) % 16;
                let end = |(place, &slot): (usize, &u32)| match undone >> place & 1 {
                    1 => vec![Call::Abort(slot)],
                    _ => [vec![Call::Step(slot); 16], vec![Call::Commit(slot)]].concat(),
                };
                let ended = order.iter().enumerate().flat_map(end);
                lists.push(sends.clone().chain(ended).collect());
            }
        }
    }
    lists
}
