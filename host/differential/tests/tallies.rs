//! Call lists with `add` (document 02, Ticket 6): slots that add to one field at once and end in every order, every mix of additions and
//! sets in a transaction, and generated lists. After each call the answer, all fields, what is kept of each slot and Ticket 4 are
//! compared. CISHMOLAQ_TALLIES sets how many lists are generated.

use differential::library::beside;
use differential::machine::{added_up, Counts};
use differential::{amount, each_seed};
use generate::calls::{text_to_call, values_for, Caller};
use generate::{limits, tally, Random};
use reference::machine::{Answer, Call, Target};

/// These lists on the text with a total: how often each thing happened.
fn on_the_lane(lists: &[Vec<Call>]) -> Counts {
    let one = |k: u64| {
        beside(tally::LANE, &[7], &mut Random::new(k), |mut list, _| {
            for &call in &lists[k as usize] {
                list.call(call);
            }
            list.end()
        })
    };
    added_up(each_seed(lists.len() as u64, one))
}

#[test]
fn every_order_of_ends() {
    let counts = on_the_lane(&tally::ends());
    assert!(counts["4 adding"] > 0 && counts["undone beside additions"] > 0, "{counts:?}");
}

#[test]
fn every_mix() {
    let counts = on_the_lane(&tally::mixed());
    for kind in ["2 adding", "undone beside additions", "undone set after add", "undone add after set"] {
        assert!(counts.get(kind).is_some_and(|&times| times > 100), "{kind} is rare: {counts:?}");
    }
}

/// The first and the last fields of 64 objects, 2,048 values in all: two slots add to them at once, and one is undone.
#[test]
fn most_values() {
    let text = limits::most_tallies();
    let values: Vec<u32> = (0..2_048u32).map(|k| k.wrapping_mul(0x9e37_79b9)).collect();
    each_seed(2, |k| {
        let method = [0, 30][k as usize];
        beside(&text, &values, &mut Random::new(k), |mut list, _| {
            for slot in [3, 6] {
                let send = Call::Send { slot, target: Target::Domain(0), method, argument: u32::MAX - slot };
                assert_eq!(list.call(send), Answer::Done);
            }
            while list.call(Call::Step(3)) == Answer::Going {
                list.call(Call::Step(6));
            }
            list.call(Call::Abort(if k % 2 == 0 { 3 } else { 6 }));
            list.call(Call::Commit(3));
            list.end()
        })
    });
}

/// One generated list: on a text of tallies mostly.
fn generated(seed: u64) -> Counts {
    let mut random = Random::new(seed + 8_000_000);
    let text = if seed % 8 == 7 { text_to_call(&mut random) } else { tally::text(&mut random) };
    let library = reference::read(&text).expect("an accepted text");
    let values = values_for(&mut random, &library);
    let made = std::panic::catch_unwind(|| {
        let mut random = Random::new(seed + 9_000_000);
        beside(&text, &values, &mut random, |list, random| {
            let caller = Caller::tallying(random, &library);
            list.made_by(caller, random, 50)
        })
    });
    made.unwrap_or_else(|_| panic!("seed {seed} differs, values {values:?}, text:\n{}", String::from_utf8_lossy(&text)))
}

#[test]
fn generated_lists() {
    let count = amount("CISHMOLAQ_TALLIES", 20_000);
    let counts = added_up(each_seed(count, generated));
    println!("{count} lists with additions: {counts:?}");
    let several: u64 = counts.iter().filter(|(kind, _)| kind.ends_with(" adding")).map(|(_, times)| times).sum();
    println!("after {several} calls several slots were adding to one field");
    assert!(several > 0, "no two slots ever added to one field at once: {counts:?}");
    if count < 1_000 {
        return;
    }
    for (kind, least) in [
        ("2 adding", count),
        ("3 adding", count / 2),
        ("4 adding", count / 4),
        ("undone beside additions", count / 2),
        ("undone set after add", count / 50),
        ("undone add after set", count / 50),
        ("step 41", count / 20),
        ("first send 40", count / 4),
        ("send 40", count / 8),
        ("commit ok", count / 2),
        ("abort ok", count),
    ] {
        assert!(counts.get(kind).is_some_and(|&times| times >= least), "{kind} is rare: {counts:?}");
    }
}
