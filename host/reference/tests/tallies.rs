//! The statement `add F E` (document 02, Ticket 6) in the second implementation: images, vectors, sums, who runs beside whom, and what
//! undoing takes back.

use reference::image::{image, tables};
use reference::machine::{Answer, Call, Machine, Target};
use reference::rehearsal::rehearsed;
use reference::text::Library;

/// The starred texts: where their parts begin and how long they are.
#[test]
fn starred_images() {
    let sample = include_bytes!("../../../samples/lanes.txt");
    for (text, pairs, size) in [(&sample[..], [32u32, 40, 72, 40, 112, 20, 132, 20], 152), (b"", [32, 0, 32, 0, 32, 0, 32, 0], 32)] {
        let image = image(text).unwrap();
        let front: Vec<u8> = pairs.iter().flat_map(|n| n.to_le_bytes()).collect();
        assert_eq!((&image[..32], image.len()), (&front[..], size));
    }
}

/// The sample with a tally, and its board: two tablets tally side by side, a third that reads waits for both, and one tally is undone.
#[test]
fn sample() {
    let text = include_bytes!("../../../samples/tally.txt");
    assert_eq!(tables(text), "lane tally A ynn\nlane plot R nyn\nlane clear W nnn\n");
    let printed = rehearsed(text, include_bytes!("../../../samples/tally-board.calls"));
    let right = "ok ok going going 40_0 answer_0 answer_0 ok 37 ok going answer_95 ok lane1_95";
    assert_eq!(printed, right.replace(' ', "\n").replace('_', " ") + "\n");
}

/// Methods of one statement on a field and what is beside it: which mode the field has then.
#[test]
fn modes() {
    for (body, letters) in [
        ("add x 1", "AN"),
        ("add x arg\nadd x got", "AN"),
        ("add x y", "AR"),
        ("add x x", "WN"),
        ("add x * 2 x", "WN"),
        ("when x add x 1", "WN"),
        ("when y add x 1", "AR"),
        ("add x 1\nreply x", "WN"),
        ("reply x\nadd x 1", "WN"),
        ("add x 1\nset x 2", "WN"),
        ("set x 2\nadd x 1", "WN"),
        ("add x y\nadd y x", "WW"),
        ("add x 1\nadd y 1", "AA"),
        ("add x 1\nsend reads to self 1", "WN"),
        ("add x 1\nsend adds to self 1", "AN"),
        ("send p.adds to self 1", "AN"),
        ("send p.adds to self x", "WN"),
    ] {
        let parent = "class p\nfield x\nfield y\nmethod adds\nadd x arg\nend\nmethod reads\nreply x\nend\n";
        let printed = tables(format!("{parent}class a : p\nmethod m\n{body}\nend\n").as_bytes());
        let line = printed.lines().find(|line| line.starts_with("a m ")).unwrap_or_else(|| panic!("{body}: {printed}"));
        assert_eq!(line.split(' ').nth(2), Some(letters), "{body}");
    }
}

/// The fourth part has the fields that are added to, and no other part has them.
#[test]
fn masks() {
    let image = image(b"class a\nfield x\nfield y\nfield z\nmethod m\nadd z x\nset y 1\nend\nmethod n\nadd x 1\nadd y 1\nend\n").unwrap();
    let words: Vec<u32> = image.chunks(4).map(|w| u32::from_le_bytes(w.try_into().unwrap())).collect();
    let part = |k: usize| &words[words[2 * k] as usize / 4..][..words[2 * k + 1] as usize / 4];
    assert_eq!(part(1), [0b001, 0b010, 0, 0], "read and write masks");
    assert_eq!(part(2), [0b00, 0b10], "commuting");
    assert_eq!(part(3), [0b100, 0b011], "add masks");
}

/// A lane with a total, and a field that no method adds to.
const TEXT: &[u8] = b"class lane
field total
field other
method nothing
reply other
end
method read
reply total
end
method tally
add total arg
end
method put
set total arg
end
method maybe
when arg add total 5
end
method both
add total arg
set total * 10 arg
add total 1
end
method deep
add total arg
send deep to self arg
end
object lane1 lane 7
";

const NOTHING: u32 = 0;
const READ: u32 = 1;
const TALLY: u32 = 2;
const PUT: u32 = 3;
const MAYBE: u32 = 4;
const BOTH: u32 = 5;
const DEEP: u32 = 6;

fn library() -> Library {
    reference::read(TEXT).unwrap()
}

fn send(machine: &mut Machine, slot: u32, method: u32, argument: u32) -> Answer {
    machine.call(Call::Send { slot, target: Target::Object(0), method, argument })
}

/// Steps to the message's last answer.
fn last(machine: &mut Machine, slot: u32) -> Answer {
    (0..).map(|_| machine.call(Call::Step(slot))).find(|answer| *answer != Answer::Going).unwrap()
}

/// A message to its last answer.
fn run(machine: &mut Machine, slot: u32, method: u32, argument: u32) -> Answer {
    assert_eq!(send(machine, slot, method, argument), Answer::Done, "method {method} by slot {slot}");
    last(machine, slot)
}

/// Messages one after the other; then what the total is.
fn after(machine: &mut Machine, messages: &[(u32, u32, u32)]) -> u32 {
    for &(slot, method, argument) in messages {
        assert_eq!(run(machine, slot, method, argument), Answer::Answer(0));
    }
    total(machine)
}

fn total(machine: &Machine) -> u32 {
    machine.fields[0]["total"]
}

fn abort(machine: &mut Machine, slot: u32) -> u32 {
    assert_eq!(machine.call(Call::Abort(slot)), Answer::Done);
    total(machine)
}

/// Which of these run beside each other: only messages that add run beside one that adds.
#[test]
fn beside_each_other() {
    let library = library();
    let methods = [NOTHING, READ, TALLY, PUT];
    let granted = ["yyyy", "yynn", "ynyn", "ynnn"];
    for (first, row) in methods.into_iter().zip(granted) {
        for (second, letter) in methods.into_iter().zip(row.chars()) {
            let mut machine = Machine::start(&library, &[7, 0]).unwrap();
            assert_eq!(send(&mut machine, 5, first, 1), Answer::Done);
            let right = if letter == 'y' { Answer::Done } else { Answer::Held(5) };
            assert_eq!(send(&mut machine, 2, second, 1), right, "{second} beside {first}");
        }
    }
}

#[test]
fn sums_are_modulo() {
    let library = library();
    for (start, added, sum) in [(7, 0, 7), (u32::MAX, 1, 0), (7, u32::MAX, 6), (1 << 31, 1 << 31, 0), (u32::MAX, u32::MAX, u32::MAX - 1)] {
        let mut machine = Machine::start(&library, &[start, 0]).unwrap();
        assert_eq!(after(&mut machine, &[(0, TALLY, added)]), sum, "{start} and {added}");
        assert_eq!(abort(&mut machine, 0), start, "{start} and {added}, undone");
    }
}

/// Four slots that add in turn, and end in several orders, each by abort or commit: what is undone is each one's own.
#[test]
fn others_additions_stay() {
    let library = library();
    let added = |slot: u32| [3u32, 4_000_000_000, 500_000_000, 0][slot as usize];
    for order in [[0, 1, 2, 3], [3, 2, 1, 0], [1, 3, 0, 2], [2, 0, 3, 1]] {
        for aborted in 0..16 {
            let mut machine = Machine::start(&library, &[7, 0]).unwrap();
            let mut right = 7u32;
            for slot in [0, 1, 2, 3, 1, 0, 3, 2] {
                right = right.wrapping_add(added(slot));
                assert_eq!(after(&mut machine, &[(slot, TALLY, added(slot))]), right);
            }
            for slot in order {
                let undone = aborted >> slot & 1 == 1;
                machine.call(if undone { Call::Abort(slot) } else { Call::Commit(slot) });
                right = right.wrapping_sub(if undone { added(slot).wrapping_mul(2) } else { 0 });
                assert_eq!(total(&machine), right, "{order:?}, aborts {aborted:04b}, after slot {slot}");
            }
        }
    }
}

#[test]
fn added_then_set() {
    let library = library();
    let mut machine = Machine::start(&library, &[7, 0]).unwrap();
    assert_eq!(after(&mut machine, &[(0, TALLY, 3), (0, TALLY, 2), (0, PUT, 100)]), 100);
    assert_eq!(abort(&mut machine, 0), 7);
    // The other's addition is committed before the set, which waits for it.
    assert_eq!(after(&mut machine, &[(0, TALLY, 3), (1, TALLY, 10), (0, TALLY, 2)]), 22);
    assert_eq!(send(&mut machine, 0, PUT, 100), Answer::Held(1));
    assert_eq!(machine.call(Call::Commit(1)), Answer::Done);
    assert_eq!(last(&mut machine, 0), Answer::Answer(0));
    assert_eq!(after(&mut machine, &[(0, PUT, 200)]), 200);
    assert_eq!(send(&mut machine, 1, TALLY, 1), Answer::Held(0));
    assert_eq!(abort(&mut machine, 0), 17);
}

#[test]
fn set_then_added() {
    let library = library();
    let mut machine = Machine::start(&library, &[7, 0]).unwrap();
    assert_eq!(after(&mut machine, &[(0, PUT, 100), (0, TALLY, 5)]), 105);
    assert_eq!(abort(&mut machine, 0), 7);
    assert_eq!(after(&mut machine, &[(0, BOTH, 6)]), 61);
    assert_eq!(abort(&mut machine, 0), 7);
    assert_eq!(after(&mut machine, &[(0, TALLY, 1), (0, BOTH, 6), (0, TALLY, 2), (0, BOTH, 9), (0, TALLY, 4)]), 95);
    assert_eq!(abort(&mut machine, 0), 7);
}

/// A skipped addition leaves nothing to take back; an addition of 0 is one.
#[test]
fn skipped_and_zero() {
    let library = library();
    let mut machine = Machine::start(&library, &[7, 0]).unwrap();
    assert_eq!(after(&mut machine, &[(0, MAYBE, 0), (1, TALLY, 10), (2, TALLY, 0)]), 17);
    assert_eq!(send(&mut machine, 3, READ, 0), Answer::Held(0));
    for (slot, total) in [(0, 17), (1, 7), (2, 7)] {
        assert_eq!(machine.call(Call::Step(3)), Answer::Refused(37), "before slot {slot} ends");
        assert_eq!(abort(&mut machine, slot), total);
    }
    assert_eq!(last(&mut machine, 3), Answer::Answer(7));
}

/// A message that is stopped takes back its additions and no other's.
#[test]
fn stopped() {
    let library = library();
    let mut machine = Machine::start(&library, &[7, 0]).unwrap();
    assert_eq!(after(&mut machine, &[(1, TALLY, 10), (0, TALLY, 1)]), 18);
    assert_eq!(run(&mut machine, 0, DEEP, 100), Answer::Stopped);
    assert_eq!(total(&machine), 17);
    assert!(!machine.is_open(0) && machine.is_open(1));
}

/// A transaction that adds may read the total once nobody else adds to it.
#[test]
fn own_total() {
    let library = library();
    let mut machine = Machine::start(&library, &[7, 0]).unwrap();
    assert_eq!(after(&mut machine, &[(0, TALLY, 3), (1, TALLY, 10)]), 20);
    assert_eq!(send(&mut machine, 0, READ, 0), Answer::Held(1));
    assert_eq!(abort(&mut machine, 1), 10);
    assert_eq!(last(&mut machine, 0), Answer::Answer(10));
    assert_eq!(send(&mut machine, 1, TALLY, 10), Answer::Held(0));
}
