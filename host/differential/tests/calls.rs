//! Call lists: the vectors', lists at the machine's limits, and generated ones. CISHMOLAQ_LISTS sets how many are generated.

use differential::library::{beside, Lent};
use differential::machine::{make, Counts, List};
use differential::{amount, each_seed};
use generate::calls::{text_to_call, values_for};
use generate::{limits, Random};
use reference::lines;
use reference::machine::{Answer, Call, Target};
use reference::stored;
use wrapper::machine::lent::{self, Outcome};
use wrapper::machine::{Machine, STATE_WORDS};

/// The library on each vector's calls: what its trace says, then once more beside the second implementation and the course.
#[test]
fn vectors() {
    let lists = stored::numbers("trace");
    each_seed(lists.len() as u64, |k| {
        let n = lists[k as usize];
        let text = stored::bytes(n, "txt");
        let library = reference::read(&text).unwrap();
        let start = library.starting_values();
        let (calls, trace) = (stored::lines(n, "calls"), stored::lines(n, "trace"));
        let call = |line: &str| lines::call(&library, line.as_bytes()).unwrap();
        let mut values = start.clone();
        let mut machine = Machine::start(&text, &mut values).unwrap();
        for (k, line) in calls.iter().enumerate() {
            let answer = make(&mut machine, call(line));
            let found = lines::traced(answer, machine.values());
            assert_eq!(found.trim_end(), trace[k].trim_end(), "list {n}, call {}: {line}", k + 1);
        }
        assert_eq!(lines::objects(&library, machine.values()), trace[calls.len()..], "list {n}: the objects at the end");
        let mut machine = Lent::start(&mut Random::new(n), &text, &start).unwrap();
        let mut list = List::new(&library, &start, &mut machine);
        for line in &calls {
            list.call(call(line));
        }
        list.end();
    });
}

/// Steps a message to its end, and gives how many steps said "going".
fn run(list: &mut List, slot: u32) -> (u32, Answer) {
    let mut going = 0;
    loop {
        match list.call(Call::Step(slot)) {
            Answer::Going => going += 1,
            last => return (going, last),
        }
    }
}

#[test]
fn steps_on_an_object() {
    for steps in 1_021..=1_025 {
        for (target, objects) in [(Target::Object(0), 1), (Target::Class(0), 2), (Target::Domain(0), 3), (Target::Domain(1), 1)] {
            beside(&limits::message_of(steps), &[1, 2, 3, 4, 5, 6], &mut Random::new(3), |mut list, _| {
                assert_eq!(list.call(Call::Send { slot: 7, target, method: 0, argument: 0 }), Answer::Done);
                let (going, last) = run(&mut list, 7);
                let all = if steps <= 1_024 { (steps as u32 * objects - 1, Answer::Answer(0)) } else { (1_023, Answer::Stopped) };
                assert_eq!((going, last), all, "{steps} steps on each object of {target:?}");
                list.call(Call::Commit(7));
                list.end()
            });
        }
    }
}

#[test]
fn activations_at_once() {
    for (count, last) in [(8, Answer::Answer(7 + 9)), (9, Answer::Stopped)] {
        beside(&limits::activations(count), &[0, 0], &mut Random::new(4), |mut list, _| {
            list.call(Call::Send { slot: 0, target: Target::Object(1), method: 0, argument: 9 });
            assert_eq!(run(&mut list, 0).1, last, "{count} activations");
            list.end()
        });
    }
}

/// A send to a target of no kind is 36, after 31 and 34.
#[test]
fn kinds_above_2() {
    let (text, values) = (limits::activations(3), [1, 2]);
    let mut state = vec![0; STATE_WORDS];
    lent::start(&text, &values, &mut state).unwrap();
    let send = |state: &mut [u32], slot: u32, kind: u32| lent::send_to(&text, state, &values, slot, kind, 0, 0, 0);
    for kind in [3, 4, 255, 256, 65_536, 1 << 31, u32::MAX] {
        assert_eq!(send(&mut state, 8, kind), Outcome::Refused(31));
        assert_eq!(send(&mut state, 7, kind), Outcome::Refused(36));
        assert_eq!(send(&mut state, 7, kind % 3), Outcome::Done);
        assert_eq!(send(&mut state, 7, kind), Outcome::Refused(34));
        lent::abort(&text, &mut state, &mut values.clone(), 7);
    }
}

/// All slots at once on the largest texts.
#[test]
fn largest() {
    for (n, text) in [limits::widest(), limits::most_statements(), limits::of_length(32_768)].iter().enumerate() {
        let mut random = Random::new(n as u64 + 50);
        let library = reference::read(text).unwrap();
        let values = values_for(&mut random, &library);
        beside(text, &values, &mut random, |list, random| list.generated(random, 1_500));
    }
}

/// One generated list.
fn generated(seed: u64) -> Counts {
    let mut random = Random::new(seed + 1_000_000);
    let text = text_to_call(&mut random);
    let library = reference::read(&text).expect("an accepted text");
    let values = values_for(&mut random, &library);
    let made = std::panic::catch_unwind(|| {
        let mut random = Random::new(seed + 2_000_000);
        beside(&text, &values, &mut random, |list, random| list.generated(random, 300))
    });
    made.unwrap_or_else(|_| panic!("seed {seed} differs, values {values:?}, text:\n{}", String::from_utf8_lossy(&text)))
}

#[test]
fn generated_lists() {
    let count = amount("CISHMOLAQ_LISTS", 2_000);
    let (mut calls, mut lists) = (Counts::new(), Counts::new());
    for (kind, times) in each_seed(count, generated).into_iter().flatten() {
        *lists.entry(kind.clone()).or_insert(0) += 1;
        *calls.entry(kind).or_insert(0) += times;
    }
    // 300 calls of each list, and the aborts at its end.
    let all = count * 308;
    println!("{count} lists, {all} calls: {calls:?}\nlists with each: {lists:?}");
    if count < 1_000 {
        return;
    }
    let has = |counts: &Counts, kind: &str| counts.get(kind).copied().unwrap_or(0);
    for kind in ["first send ok", "first send 40", "send ok", "step 41", "step answer", "commit ok", "abort ok", "put back"] {
        assert!(has(&calls, kind) * 100 >= all, "{kind} is rare: {calls:?}");
        assert!(has(&lists, kind) * 3 >= count, "{kind} is in few lists: {lists:?}");
    }
    for kind in ["send 40", "send 42"] {
        assert!(has(&calls, kind) * 200 >= all, "{kind} is rare: {calls:?}");
        assert!(has(&lists, kind) * 3 >= count, "{kind} is in few lists: {lists:?}");
    }
    for kind in ["first send 36", "send 31", "send 34", "send 36", "step 31", "step 32", "step 35"] {
        assert!(has(&lists, kind) * 20 >= count, "{kind} is in few lists: {lists:?}");
    }
    for kind in ["send 37", "step 37", "commit 37", "1 woken", "withdrawn"] {
        assert!(has(&lists, kind) * 20 >= count, "{kind} is in few lists: {lists:?}");
    }
    for kind in ["commit 31", "commit 32", "commit 34", "abort 31", "abort 32"] {
        assert!(has(&lists, kind) * 20 >= count, "{kind} is in few lists: {lists:?}");
    }
}
