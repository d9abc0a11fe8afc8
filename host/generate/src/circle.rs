//! Lists in which a send would close a circle of waits (document 02, Ticket 8): of two to eight slots, by way of holders and of waiters,
//! with an abort that resolves it.

use crate::line::orders;
use crate::Random;
use reference::machine::{Call, Target};

/// Eight lanes.
pub const TEXT: &[u8] = b"class lane
field focus
method put
set focus arg
end
method look
reply focus
end
object lane0 lane 10
object lane1 lane 11
object lane2 lane 12
object lane3 lane 13
object lane4 lane 14
object lane5 lane 15
object lane6 lane 16
object lane7 lane 17
";

const PUT: u32 = 0;
const LOOK: u32 = 1;
const ALL: Target = Target::Class(0);

/// The slots of a circle in its order: the numbers are in another one.
const SLOTS: [u32; 8] = [4, 6, 1, 3, 7, 0, 5, 2];

fn send(slot: u32, target: Target, method: u32) -> Call {
    Call::Send { slot, target, method, argument: 100 + slot }
}

/// A send to a lane with its two steps.
fn done(slot: u32, lane: usize, method: u32) -> Vec<Call> {
    vec![send(slot, Target::Object(lane as u32), method), Call::Step(slot), Call::Step(slot)]
}

/// The last of these asks again and one is aborted; then all go on to their ends, as soon as they may.
fn resolved(mut list: Vec<Call>, slots: &[u32], aborted: u32) -> Vec<Call> {
    let refused = *list.last().expect("a send");
    list.extend([refused, Call::Abort(aborted)]);
    let ends = slots.iter().flat_map(|&slot| [Call::Step(slot), Call::Step(slot), Call::Commit(slot)]);
    list.extend(ends.clone());
    (1..slots.len()).for_each(|_| list.extend(ends.clone()));
    list
}

/// The orders in which so many send: all of them, or of more than four one from each place on.
fn arrivals(many: usize) -> Vec<Vec<u32>> {
    let places: Vec<u32> = (0..many as u32).collect();
    if many <= 4 {
        return orders(&places);
    }
    (0..many).map(|first| [&places[first..], &places[..first]].concat()).collect()
}

/// Lists on TEXT: slots that have put to a lane each send to the next one's, in each order, and the last would close the circle; each of
/// them is the one that is aborted.
pub fn of_holders() -> Vec<Vec<Call>> {
    let mut lists = Vec::new();
    for many in 2..=8 {
        let slots = &SLOTS[..many];
        for (order, method) in arrivals(many).into_iter().flat_map(|order| [(order.clone(), PUT), (order, LOOK)]) {
            let mut list: Vec<Call> = slots.iter().enumerate().flat_map(|(lane, &slot)| done(slot, lane, PUT)).collect();
            list.extend(order.iter().map(|&k| send(slots[k as usize], Target::Object((k + 1) % many as u32), method)));
            lists.extend(slots.iter().map(|&aborted| resolved(list.clone(), slots, aborted)));
        }
    }
    lists
}

/// Lists on TEXT: slots that have looked at a lane each, a put that waits for each of them, and a look of each at the next lane, which
/// clashes with nothing but the put that waits there; the last would close the circle. A slot that is alone looks at all lanes.
pub fn of_waiters() -> Vec<Vec<Call>> {
    let mut lists = Vec::new();
    for many in 1..=4 {
        let (slots, putting) = (&SLOTS[..many], &SLOTS[many..2 * many]);
        for order in arrivals(many) {
            let mut list: Vec<Call> = slots.iter().enumerate().flat_map(|(lane, &slot)| done(slot, lane, LOOK)).collect();
            list.extend(putting.iter().enumerate().map(|(lane, &slot)| send(slot, Target::Object(lane as u32), PUT)));
            let next = |k: u32| if many == 1 { ALL } else { Target::Object((k + 1) % many as u32) };
            list.extend(order.iter().map(|&k| send(slots[k as usize], next(k), LOOK)));
            let all = &SLOTS[..2 * many];
            lists.extend(all.iter().map(|&aborted| resolved(list.clone(), all, aborted)));
        }
    }
    lists
}

/// A valid text: two to eight objects of up to three classes, whose methods set, read and add to two fields.
pub fn text(random: &mut Random) -> Vec<u8> {
    let mut text = String::from("class run\nfield focus\nfield clusters\n");
    for (name, body) in [("put", "set focus arg"), ("look", "reply focus"), ("tally", "add clusters arg"), ("count", "reply clusters")] {
        text += &format!("method {name}\n{body}\nend\n");
    }
    let classes = ["run", "lane", "dish"];
    text += "class lane : run\nmethod tally\nset focus + focus arg\nend\nclass dish : run\nmethod both\nset clusters focus\nend\n";
    let many = 1 + random.below(3);
    for k in 0..2 + random.below(7) {
        text += &format!("object o{k} {} {} {}\n", classes[random.below(many)], random.edge(), random.edge());
    }
    text.into_bytes()
}
