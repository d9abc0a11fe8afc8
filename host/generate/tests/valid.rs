//! What the generator calls valid is accepted by the second implementation, and its lists keep demand 3 there.

use generate::calls::{text_to_call, Caller};
use generate::lines::line;
use generate::text::{text, LARGE, MIDDLE, SMALL};
use generate::{damage, limits, Random};
use reference::course::Course;
use reference::machine::{Answer, Call, Machine, Target};

#[test]
fn texts_are_valid() {
    for seed in 0..600 {
        let mut random = Random::new(seed);
        let size = [SMALL, MIDDLE, LARGE][seed as usize % 3];
        let text = text(&mut random, size);
        assert!(text.len() <= 32_768);
        if let Err(fault) = reference::read(&text) {
            panic!("seed {seed}: {fault:?}\n{}", String::from_utf8_lossy(&text));
        }
    }
}

#[test]
fn limits_are_limits() {
    for limit in limits::limits() {
        assert_eq!(reference::read(&limit.at).err(), None, "at the limit: {}", limit.name);
        assert_eq!(reference::read(&limit.past).err().map(|f| f.number), Some(limit.number), "past the limit: {}", limit.name);
    }
    for n in (200..32_768).step_by(977).chain(32_760..=32_768) {
        let text = limits::of_length(n);
        assert_eq!((text.len(), reference::read(&text).err()), (n, None));
    }
    for text in [limits::most_statements(), limits::widest(), limits::most_tallies()] {
        assert_eq!((text.len() <= 32_768, reference::read(&text).err()), (true, None));
    }
}

#[test]
fn damage_meets_every_number() {
    let mut found = std::collections::BTreeMap::new();
    for seed in 0..20_000 {
        let mut random = Random::new(seed);
        let whole = text(&mut random, [SMALL, MIDDLE][seed as usize % 2]);
        let damaged = damage::damaged(&mut random, &whole);
        let number = reference::read(&damaged).err().map_or(0, |f| f.number);
        *found.entry(number).or_insert(0) += 1;
    }
    for number in [0, 12, 13, 14, 15, 16, 17] {
        assert!(found.get(&number).copied().unwrap_or(0) >= 2, "{number} is rare: {found:?}");
    }
}

#[test]
fn messages_are_as_long_as_named() {
    for steps in 1_021..=1_025 {
        let library = reference::read(&limits::message_of(steps)).unwrap();
        let mut machine = Machine::start(&library, &library.starting_values()).unwrap();
        machine.call(Call::Send { slot: 0, target: Target::Object(0), method: 0, argument: 0 });
        let going = (0..).take_while(|_| machine.call(Call::Step(0)) == Answer::Going).count();
        assert_eq!(going + 1, steps.min(1_024), "{steps} steps");
        assert_eq!(machine.idle(), steps > 1_024, "{steps} steps");
    }
}

#[test]
fn lists_keep_the_commit_order() {
    for seed in 0..400 {
        let mut random = Random::new(seed + 2_000_000);
        let library = reference::read(&text_to_call(&mut random)).unwrap();
        let start = library.starting_values();
        let mut machine = Machine::start(&library, &start).unwrap();
        let mut course = Course::start(&library, &start);
        let mut caller = Caller::new(&mut random, &library);
        for k in 0..308 {
            let call = if k < 300 { caller.next(&mut random, &library) } else { Call::Abort(k - 300) };
            let answer = machine.call(call);
            course.feed(call, answer);
            caller.told(call, answer);
        }
        assert!(machine.idle());
        assert_eq!(machine.values(), course.values(), "seed {seed}");
        assert!(course.right(), "seed {seed}");
    }
}

#[test]
fn lines_say_their_calls() {
    for seed in 0..200 {
        let mut random = Random::new(seed + 4_000_000);
        let library = reference::read(&text_to_call(&mut random)).unwrap();
        let start = library.starting_values();
        let mut machines = (Machine::start(&library, &start).unwrap(), Machine::start(&library, &start).unwrap());
        let mut caller = Caller::new(&mut random, &library);
        for _ in 0..100 {
            let call = caller.next(&mut random, &library);
            let line = line(&library, call);
            let read = reference::lines::call(&library, line.trim_end().as_bytes()).expect("a call line");
            let answer = machines.0.call(call);
            assert_eq!(machines.1.call(read), answer, "seed {seed}: {call:?} as {line}");
            caller.told(call, answer);
        }
        assert_eq!(machines.0.values(), machines.1.values(), "seed {seed}");
    }
}
