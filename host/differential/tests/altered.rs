//! Calls on altered, shortened and exchanged memory. CISHMOLAQ_ALTERED sets how many generated machines are altered;
//! CISHMOLAQ_APART=n alters each n-th word or byte only (valgrind is slow).

use differential::altered::{in_line, is_noted, row_at, Memory, ROOMS, WAITING};
use differential::machine::{added_up, Counts, ORDERS};
use differential::{amount, each_seed};
use generate::calls::{text_to_call, values_for, Caller};
use generate::{limits, Random};
use reference::machine::{Answer, Call, Target};
use reference::text::Library;
use std::collections::HashMap;
use wrapper::layout::{self, OBJECTS_AT, OBJECT_WORDS, ROW_WORDS, STATEMENTS_AT, TABLE_WORDS};
use wrapper::machine::{lent, NotStarted, STATE_WORDS};

/// A text whose messages set fields, add to one, call themselves, and visit several objects.
const TEXT: &[u8] = b"class run
field cycles
field clusters
method shot
set cycles + cycles 1
when < cycles 100 send plot to self cycles
reply + got clusters
end
method plot
set clusters * clusters arg
reply clusters
end
class lane : run
field focus
method shot
send run.shot to self + arg 1
set focus - focus got
reply = focus 0
end
method tune
set focus + focus arg
send tune to self arg
end
method tally
add clusters + arg 1
end
object run1 run 7 3
object lane1 lane 1 2 3
object lane2 lane 4 5
";

const VALUES: [u32; 8] = [7, 3, 1, 2, 3, 4, 5, 0];

/// The places of class lane's methods, and that of the value which a tally on its first object adds 6 to.
const PLOT: u32 = 1;
const TUNE: u32 = 2;
const TALLY: u32 = 3;
const TALLIED: usize = 3;

/// A send with argument 5.
fn send(slot: u32, target: Target, method: u32) -> Call {
    Call::Send { slot, target, method, argument: 5 }
}

/// Machines in the middle of their work: messages on an object and a domain, one that has its answer, locks, notes of values that were
/// set, two slots' notes of one value that they added to; and a line, of a send to an object, one to a class and one to a domain, whose
/// slot has an earlier send, with a slot that would close a circle of waits.
fn at_work() -> Vec<Memory> {
    let steps = |slot: u32, n: usize| vec![Call::Step(slot); n];
    let one = [vec![send(0, Target::Domain(0), 0)], steps(0, 9)];
    let two = [
        vec![send(0, Target::Object(1), TUNE), send(2, Target::Object(0), 0)],
        [steps(0, 11), steps(2, 4)].concat(),
        vec![send(5, Target::Object(2), PLOT), send(6, Target::Object(1), TALLY), send(3, Target::Object(1), TALLY)],
        [steps(6, 2), steps(3, 1)].concat(),
    ];
    let three = [
        vec![send(0, Target::Object(1), TUNE), send(4, Target::Object(0), 0)],
        [steps(0, 2), steps(4, 9), vec![send(5, Target::Object(2), PLOT)], steps(5, 3)].concat(),
        vec![send(7, Target::Object(1), TUNE), send(4, Target::Domain(0), 0), send(2, Target::Class(1), TALLY)],
    ];
    [one.concat(), two.concat(), three.concat()].iter().map(|calls| {
        let mut memory = Memory::started(TEXT, &VALUES);
        calls.iter().for_each(|&call| {
            memory.call(call);
        });
        memory
    }).collect()
}

/// What is tried after an alteration: all calls on one slot, then some on others.
fn calls_after(slot: u32) -> [Call; 14] {
    let other = (slot + 1) % 8;
    [
        Call::Step(slot),
        Call::Step(slot),
        send(slot, Target::Domain(0), 0),
        Call::Step(slot),
        send(other, Target::Object(1), TUNE),
        send(other, Target::Domain(1), PLOT),
        send(other, Target::Domain(1), TALLY),
        Call::Step(other),
        Call::Commit(slot),
        Call::Abort(slot),
        send(slot, Target::Object(2), TUNE),
        Call::Step(slot),
        Call::Step(0),
        Call::Step(6),
    ]
}

fn edges(word: u32) -> [u32; 10] {
    [0, 1, 31, 32, 33, 1_023, 1 << 31, u32::MAX, word.wrapping_add(1), word.wrapping_sub(1)]
}

/// How many generated machines are altered.
fn machines() -> u64 {
    amount("CISHMOLAQ_ALTERED", 1_000)
}

/// How far the words or bytes stand apart that are altered in turn.
fn apart() -> usize {
    amount("CISHMOLAQ_APART", 1) as usize
}

/// Each of these answers was given, where as much is tried as in the gate.
fn given(counts: &Counts, answers: &[&str]) {
    println!("{} calls on altered memory: {counts:?}", counts.values().sum::<u64>());
    for answer in answers {
        assert!(apart() > 1 || machines() < 1_000 || counts.contains_key(*answer), "{answer} was never given: {counts:?}");
    }
}

#[test]
fn each_word_of_the_state() {
    let mut all = Vec::new();
    for base in at_work() {
        let parts = each_seed(64, |part| {
            let mut memory = Memory::new(base.text(), base.state(), base.values());
            for place in (part as usize..STATE_WORDS).step_by(64).step_by(apart()) {
                let word = base.state()[place];
                let slot = if place < TABLE_WORDS { (place % 3) as u32 * 5 % 8 } else { ((place - TABLE_WORDS) / ROW_WORDS % 8) as u32 };
                for edge in edges(word) {
                    memory.set(base.state(), base.values());
                    memory.put_word(place, edge);
                    for call in calls_after(slot) {
                        memory.call(call);
                    }
                }
            }
            memory.counts
        });
        all.extend(parts);
    }
    given(&added_up(all), &["ok", "going", "answer", "24", "32", "34", "35", "36", "37", "40", "41", "42"]);
}

#[test]
fn each_byte_of_the_text() {
    let mut all = Vec::new();
    for base in at_work() {
        let mut memory = Memory::new(base.text(), base.state(), base.values());
        for place in (0..TEXT.len()).step_by(apart()) {
            for byte in *b"\0\n .+9az\x80\xff" {
                memory.set(base.state(), base.values());
                memory.put_byte(place, byte);
                for slot in [0, 2, 5] {
                    calls_after(slot).into_iter().for_each(|call| {
                        memory.call(call);
                    });
                }
            }
            memory.put_byte(place, TEXT[place]);
        }
        all.push(memory.counts);
    }
    given(&added_up(all), &["ok", "going", "answer", "24", "32", "34", "35", "37", "40", "42"]);
}

/// A call on these is refused with this number.
fn refused(text: &[u8], state: &[u32], values: &[u32], number: u32) {
    let mut memory = Memory::new(text, state, values);
    for slot in [0, 1, 7, 8, u32::MAX] {
        for call in calls_after(slot % 8).into_iter().chain([send(slot, Target::Object(0), 0), Call::Step(slot)]) {
            let lengths = (text.len(), state.len(), values.len());
            assert_eq!(memory.call(call), Answer::Refused(number), "{call:?} on {lengths:?} bytes, words and values");
        }
    }
}

#[test]
fn other_lengths() {
    for base in at_work() {
        let (text, state, values) = (base.text(), base.state(), base.values());
        for words in [0, 1, 3, 5, 8, TABLE_WORDS - 1, TABLE_WORDS, TABLE_WORDS + 1, TABLE_WORDS + ROW_WORDS, STATE_WORDS - ROW_WORDS, STATE_WORDS - 1] {
            refused(text, &state[..words], values, 21);
            refused(text, &state[..words], &values[1..], 21);
            let mut short = vec![9; words];
            assert_eq!(lent::start(text, values, &mut short), Err(NotStarted::ShortState));
            assert!(short.iter().all(|&w| w == 9), "a refused start wrote");
        }
        for count in (0..values.len()).chain([values.len() + 1, layout::VALUES, layout::VALUES + 1, 5_000]) {
            let other: Vec<u32> = values.iter().copied().chain(std::iter::repeat(1)).take(count).collect();
            refused(text, state, &other, 24);
            refused(&text[1..], state, &other, 24);
            let mut new = state.to_vec();
            assert_eq!(lent::start(text, &other, &mut new), Err(NotStarted::OtherCount));
            assert!(new == state, "a refused start wrote");
        }
        for length in (0..text.len()).step_by(apart()) {
            refused(&text[..length], state, values, 24);
        }
        refused(&[text, b"\n"].concat(), state, values, 24);
        refused(&limits::of_length(32_768), state, values, 24);
    }
}

/// A machine after calls on slot 0.
fn after(calls: &[Call]) -> Memory {
    let mut memory = Memory::started(TEXT, &VALUES);
    for &call in calls {
        assert!(!matches!(memory.call(call), Answer::Refused(_)), "{call:?}");
    }
    memory
}

/// A send to the first method of a target, and steps.
fn running(target: Target, steps: usize) -> Vec<Call> {
    [vec![send(0, target, 0)], vec![Call::Step(0); steps]].concat()
}

/// A statement that names what its class has not, as soon as it is run.
#[test]
fn unknown_names() {
    let run = |steps| running(Target::Object(0), steps);
    let lane = |steps| running(Target::Object(1), steps);
    let tally = || vec![send(0, Target::Object(1), TALLY)];
    for (calls, old, new) in [
        (run(0), "set cycles + cycles 1", "set cyclez + cycles 1"),
        (run(0), "set cycles + cycles 1", "set cycles + cyclez 1"),
        (run(1), "when < cycles 100", "when < cyclez 100"),
        (run(1), "send plot to self cycles", "send plox to self cycles"),
        (run(1), "send plot to self cycles", "send plot to self cyclez"),
        (run(2), "set clusters * clusters arg", "set clusters * cluster_ arg"),
        (run(3), "reply clusters", "reply clusterz"),
        (lane(0), "send run.shot", "send rux.shot"),
        (lane(0), "send run.shot", "send run.shox"),
        (lane(0), "send run.shot", "send ru_shot."),
        (lane(0), "send run.shot to self", "send run.shot to selg"),
        (tally(), "add clusters + arg 1", "add cluster_ + arg 1"),
        (tally(), "add clusters + arg 1", "add clusters + arh 1"),
        (tally(), "add clusters + arg 1", "adb clusters + arg 1"),
        (tally(), "add clusters + arg 1", "add clusters + arg a"),
        (tally(), "add clusters + arg 1", "add 1lusters + arg 1"),
    ] {
        let mut memory = after(&calls);
        let place = TEXT.windows(old.len()).position(|part| part == old.as_bytes()).unwrap();
        new.bytes().enumerate().for_each(|(k, byte)| memory.put_byte(place + k, byte));
        assert_eq!(memory.call(Call::Step(0)), Answer::Refused(24), "{new}");
    }
}

/// A word that names a place which is not there, as soon as it is used.
#[test]
fn places_out_of_range() {
    let end = running(Target::Object(0), 6);
    let class = |place: usize| OBJECTS_AT + place * OBJECT_WORDS + layout::OBJECT_CLASS_AT as usize;
    let row = |word: usize| TABLE_WORDS + word;
    let first = Call::Step(0);
    for (calls, place, word, call) in [
        (vec![], class(0), 2, send(0, Target::Object(0), 0)),
        (vec![], class(0), u32::MAX, send(0, Target::Class(0), 0)),
        (vec![], class(1), 2, send(0, Target::Class(1), 0)),
        (vec![], class(0), 31, send(0, Target::Domain(0), 0)),
        (running(Target::Object(0), 0), class(0), 2, first),
        (running(Target::Class(0), 6), class(1), 2, first),
        (running(Target::Domain(0), 6), class(1), 16, first),
        (running(Target::Object(0), 0), OBJECTS_AT + layout::OBJECT_VALUES_AT as usize, 7, first),
        (running(Target::Object(0), 0), OBJECTS_AT + layout::OBJECT_VALUES_AT as usize, u32::MAX, first),
        (running(Target::Object(0), 0), STATEMENTS_AT, 600 << 16 | 20, first),
        (running(Target::Object(0), 0), STATEMENTS_AT, 10 << 16 | 700, first),
        (end.clone(), row(layout::KIND_AT), 3, first),
        (end.clone(), row(layout::NUMBER_AT), 3, first),
        (running(Target::Class(0), 6), row(layout::NUMBER_AT), 2, first),
        (running(Target::Domain(0), 6), row(layout::NUMBER_AT), 16, first),
        (running(Target::Domain(0), 6), row(layout::NAME_AT), 0, first),
        (end.clone(), row(layout::DEPTH_AT), 0, first),
        (end.clone(), row(layout::DEPTH_AT), 9, first),
        (end.clone(), row(layout::OBJECT_AT), 4, first),
        (end.clone(), row(layout::OBJECT_AT), u32::MAX, first),
        (end.clone(), row(layout::ACTIVATIONS_AT), 11, first),
        (running(Target::Object(0), 0), row(layout::ACTIVATIONS_AT + layout::END_AT as usize), 12, first),
        (running(Target::Object(0), 0), row(layout::ACTIVATIONS_AT + layout::END_AT as usize), 4_097, first),
        (end.clone(), layout::VALUE_COUNT_AT, 9, Call::Commit(0)),
        (end.clone(), layout::TEXT_LENGTH_AT, 9, Call::Abort(0)),
        (end.clone(), layout::START_MARK_AT, 9, send(1, Target::Object(1), 0)),
    ] {
        let mut memory = after(&calls);
        memory.put_word(place, word);
        assert_eq!(memory.call(call), Answer::Refused(24), "{call:?} after {calls:?} with word {place} {word}");
    }
    for phase in [4, 5, u32::MAX] {
        for call in [first, Call::Commit(0), Call::Abort(0), send(0, Target::Object(1), 0)] {
            let mut memory = after(&end);
            memory.put_word(row(layout::PHASE_AT), phase);
            assert_eq!(memory.call(call), Answer::Refused(24), "{call:?} in phase {phase}");
        }
    }
}

/// A count of steps that 16 bits do not hold. The largest that they hold stops the message, unless the step ends its object.
#[test]
fn counts_of_steps() {
    for target in [Target::Object(0), Target::Domain(0)] {
        for steps in 0..=6 {
            let step_with = |count: u32| {
                let mut memory = after(&running(target, steps));
                memory.put_word(TABLE_WORDS + layout::STEPS_AT, count);
                memory.call(Call::Step(0))
            };
            for count in [65_536, 65_537, 66_559, 131_071, 1 << 31, u32::MAX] {
                assert_eq!(step_with(count), Answer::Refused(24), "count {count} after {steps} steps on {target:?}");
            }
            let right = if steps < 6 { Answer::Stopped } else { step_with(6) };
            assert_eq!(step_with(65_535), right, "count 65535 after {steps} steps on {target:?}");
        }
    }
}

/// Slot 0 after a tally on the first lane, with the mark of a set and the note of one value altered.
fn noted(place: usize, set: bool, note: u32) -> Memory {
    let mut memory = after(&[send(0, Target::Object(1), TALLY), Call::Step(0), Call::Step(0)]);
    memory.put_word(TABLE_WORDS + layout::SET_MARKS_AT, (set as u32) << place);
    memory.put_word(TABLE_WORDS + layout::NOTES_AT + place, note);
    memory
}

/// The values with one of them altered.
fn values_with(place: usize, value: u32) -> [u32; 8] {
    let mut values = VALUES;
    values[place] = value;
    values
}

/// Marks and notes that are altered. What is marked as set is put back; any other note is taken from its value, marked or not.
#[test]
fn notes_of_an_abort() {
    for place in 0..8 {
        for note in edges(VALUES[place]) {
            // The tally's own note, where another is altered, takes back what it added.
            let now = if place == TALLIED { VALUES[place].wrapping_add(6) } else { VALUES[place] };
            for (set, right) in [(true, note), (false, now.wrapping_sub(note))] {
                let mut memory = noted(place, set, note);
                assert_eq!(memory.call(Call::Abort(0)), Answer::Done);
                assert_eq!(memory.values(), values_with(place, right), "value {place}, set {set}, note {note}");
            }
        }
    }
}

/// The sum in a note is taken from the value that a first set finds; after a set neither a set nor an addition alters the note.
#[test]
fn notes_of_a_change() {
    for note in edges(6) {
        for (set, right) in [(false, VALUES[TALLIED].wrapping_add(6).wrapping_sub(note)), (true, note)] {
            let mut memory = noted(TALLIED, set, note);
            for method in [PLOT, TALLY, PLOT] {
                memory.call(send(0, Target::Object(1), method));
                while memory.call(Call::Step(0)) == Answer::Going {}
            }
            assert_eq!(memory.state()[TABLE_WORDS + layout::NOTES_AT + TALLIED], right, "set {set}, note {note}");
            assert_eq!(memory.call(Call::Abort(0)), Answer::Done);
            assert_eq!(memory.values(), values_with(TALLIED, right), "set {set}, note {note}");
        }
    }
}

/// A domain with a class that has no such method.
#[test]
fn domain_without_the_method() {
    let mut memory = after(&[]);
    let names = layout::CLASSES_AT + layout::CLASS_WORDS + layout::METHOD_NAMES_AT as usize;
    for method in 0..3 {
        memory.put_word(names + method, 0);
    }
    assert_eq!(memory.call(send(0, Target::Domain(0), 0)), Answer::Refused(24));
}

/// Locks that are left in the row of a closed slot hold nobody.
#[test]
fn locks_of_a_closed_slot() {
    for target in [Target::Object(0), Target::Class(0), Target::Domain(0)] {
        let mut memory = after(&[]);
        for word in layout::OBJECT_LOCKS_AT..layout::MARKS_AT {
            memory.put_word(TABLE_WORDS + 3 * ROW_WORDS + word, u32::MAX);
        }
        assert_eq!(memory.call(send(0, target, 0)), Answer::Done, "{target:?}");
    }
}

/// Slot 0 tunes the first lane, and these slots wait to do so, in this order.
fn tuned_by_turns(slots: &[u32]) -> Memory {
    let mut memory = after(&[send(0, Target::Object(1), TUNE)]);
    for &slot in slots {
        assert_eq!(memory.call(send(slot, Target::Object(1), TUNE)), Answer::Held(0));
    }
    memory
}

/// A line that is full has no place for a send that would join.
#[test]
fn no_place_in_line() {
    let mut memory = tuned_by_turns(&[3, 5]);
    memory.put_word(layout::LINE_AT, 8);
    for target in [Target::Object(1), Target::Class(1), Target::Domain(0)] {
        assert_eq!(memory.call(send(6, target, 0)), Answer::Refused(24), "{target:?}");
    }
    assert_eq!(memory.call(Call::Abort(0)), Answer::Done);
    assert_eq!(in_line(memory.state()), [5]);
}

/// A place of the line that names no slot, or one that does not wait: it leaves the line at the next end, and the others start in their
/// order.
#[test]
fn others_in_line() {
    for word in [1, 0, 8, 31, 1 << 31, u32::MAX] {
        let mut memory = tuned_by_turns(&[2, 3, 5]);
        memory.put_word(layout::FIRST_IN_LINE_AT, word);
        assert_eq!(memory.call(Call::Abort(0)), Answer::Done);
        assert_eq!(in_line(memory.state()), [5], "place 0 has {word}");
        assert_eq!(memory.call(Call::Step(3)), Answer::Going);
        // The one that lost its place waits until it is withdrawn.
        for call in [Call::Step(2), Call::Commit(2), send(2, Target::Object(0), 0)] {
            assert_eq!(memory.call(call), Answer::Refused(37), "{call:?}");
        }
        assert_eq!(memory.call(Call::Abort(2)), Answer::Done);
        assert_eq!(memory.call(Call::Commit(2)), Answer::Refused(32));
    }
}

/// A slot twice in line waits at both places, and starts once.
#[test]
fn twice_in_line() {
    let mut memory = tuned_by_turns(&[3, 5, 6]);
    memory.put_word(layout::FIRST_IN_LINE_AT + 2, 5);
    assert_eq!(memory.call(Call::Abort(0)), Answer::Done);
    assert_eq!(in_line(memory.state()), [5, 5]);
    assert_eq!(memory.call(send(1, Target::Object(1), TUNE)), Answer::Held(3));
    assert_eq!(memory.call(Call::Abort(3)), Answer::Done);
    assert_eq!(in_line(memory.state()), [1]);
    assert_eq!(memory.call(Call::Step(5)), Answer::Going);
    assert_eq!(memory.call(Call::Step(6)), Answer::Refused(37));
}

/// A slot whose phase alone says that it waits is told 37, and its abort closes it.
#[test]
fn waiting_out_of_line() {
    for calls in [vec![], running(Target::Object(0), 3), running(Target::Domain(0), 9)] {
        let mut memory = after(&calls);
        memory.put_word(TABLE_WORDS + layout::PHASE_AT, 3);
        for call in [Call::Step(0), Call::Commit(0), send(0, Target::Object(1), 0), send(0, Target::Object(9), 0)] {
            assert_eq!(memory.call(call), Answer::Refused(37), "{call:?} after {calls:?}");
        }
        assert_eq!(memory.call(Call::Abort(0)), Answer::Done);
        assert_eq!(memory.call(Call::Abort(0)), Answer::Refused(32));
    }
}

/// A count past its room: every call is 24, on a slot that is not there too. Among them are 1,000 classes, 99 objects and nine in line.
#[test]
fn counts_past_their_room() {
    for base in at_work() {
        for (place, room) in ROOMS {
            for count in [room + 1, 99, 1_000, 4_097, 1 << 31, u32::MAX].into_iter().filter(|&count| count > room) {
                let mut state = base.state().to_vec();
                state[place] = count;
                refused(base.text(), &state, base.values(), 24);
            }
        }
    }
}

/// What a word is set to: low numbers and the first past each kind, phase, slot and room, an object whose lock would stand among the notes
/// of a row, the highest numbers, and the word's neighbours.
fn tried(word: u32) -> [u32; 17] {
    [0, 1, 2, 3, 4, 7, 8, 9, 31, 32, 64, 447, 1 << 31, u32::MAX, word ^ 1, word.wrapping_add(1), word.wrapping_sub(1)]
}

/// Each call on each slot, and on one that is not there.
fn each_call() -> Vec<Call> {
    (0..9).flat_map(|slot| {
        let sends = [send(slot, Target::Object(1), TUNE), send(slot, Target::Class(1), TALLY), send(slot, Target::Domain(0), 0)];
        [Call::Step(slot), Call::Commit(slot), Call::Abort(slot)].into_iter().chain(sends)
    }).collect()
}

/// The values that some row has noted.
fn noted_values(memory: &Memory) -> Vec<usize> {
    (0..memory.values().len()).filter(|&value| (0..8).any(|slot| is_noted(memory.state(), slot, value))).collect()
}

/// Makes a call, then aborts the slots in this order, where the call alters something: whether it does. No value differs in the end but
/// those that a transaction had noted.
fn call_and_abort(memory: &mut Memory, call: Option<Call>, order: &[u32]) -> bool {
    let first = memory.values().to_vec();
    let mut all = noted_values(memory);
    if matches!(call.map(|call| memory.call(call)), Some(Answer::Refused(_))) {
        return false;
    }
    for &slot in order {
        all.extend(noted_values(memory));
        memory.call(Call::Abort(slot));
    }
    for value in (0..first.len()).filter(|value| !all.contains(value)) {
        assert_eq!(memory.values()[value], first[value], "value {value} after {call:?} and aborts in the order {order:?}");
    }
    true
}

/// Each call on this memory by itself, and none, with aborts of all slots after it: the values in the end.
fn each_call_on(memory: &mut Memory) -> Vec<Vec<u32>> {
    let (state, values) = (memory.state().to_vec(), memory.values().to_vec());
    let mut in_the_end = Vec::new();
    for (k, call) in [None].into_iter().chain(each_call().into_iter().map(Some)).enumerate() {
        if call_and_abort(memory, call, &ORDERS[k % 2]) {
            in_the_end.push(memory.values().to_vec());
            memory.set(&state, &values);
        }
    }
    in_the_end
}

/// A machine with a line: slots 7, 4 and 2 wait, for an object, a domain and a class; slot 4 has an earlier send.
fn with_a_line() -> (Memory, [usize; 3]) {
    let memory = at_work().pop().unwrap();
    assert_eq!(in_line(memory.state()), [7, 4, 2]);
    (memory, [7, 4, 2])
}

/// Whether a word of a row means something on this text: it is not spare, nor the mark or the note of a value that is not there.
fn is_used(word: usize) -> bool {
    let marks = [layout::MARKS_AT, layout::SET_MARKS_AT].contains(&word);
    word < layout::MARKS_AT || marks || WAITING.contains(&word) || (layout::NOTES_AT..layout::NOTES_AT + VALUES.len()).contains(&word)
}

/// Each word of the rows of slots that wait. Where it is a word of the send by which they wait, the values in the end are those without
/// the alteration.
#[test]
fn each_word_of_a_waiting_row() {
    let (base, waiting) = with_a_line();
    let right = each_call_on(&mut Memory::new(base.text(), base.state(), base.values()));
    let parts = each_seed(3 * 64, |part| {
        let (slot, part) = (waiting[part as usize % 3], part as usize / 3);
        let mut memory = Memory::new(base.text(), base.state(), base.values());
        for word in (part..ROW_WORDS).step_by(64).step_by(apart()) {
            let place = row_at(slot, word);
            let words = if is_used(word) { tried(base.state()[place]).to_vec() } else { vec![u32::MAX] };
            for new in words {
                memory.set(base.state(), base.values());
                memory.put_word(place, new);
                let in_the_end = each_call_on(&mut memory);
                if WAITING.contains(&word) {
                    assert!(in_the_end.iter().all(|values| right.contains(values)), "word {word} of slot {slot} set to {new}: {in_the_end:?}");
                }
            }
        }
        memory.counts
    });
    given(&added_up(parts), &["ok", "going", "24", "31", "32", "34", "35", "37", "40", "42"]);
}

/// Each word of the line, and each three slots in it.
#[test]
fn each_word_of_the_line() {
    let (base, _) = with_a_line();
    let right = each_call_on(&mut Memory::new(base.text(), base.state(), base.values()));
    let words = layout::LINE_AT..layout::LINE_AT + layout::LINE_WORDS;
    let one = words.flat_map(|place| tried(base.state()[place]).map(|word| vec![(place, word)]));
    let slots = |n: u32| [n % 9, n / 9 % 9, n / 81].map(|slot| if slot == 8 { 1 << 31 } else { slot });
    let three = (0..729).map(|n| (layout::FIRST_IN_LINE_AT..).zip(slots(n)).collect());
    let altered: Vec<Vec<(usize, u32)>> = one.chain(three).collect();
    let parts = each_seed(altered.len() as u64, |n| {
        let mut memory = Memory::new(base.text(), base.state(), base.values());
        altered[n as usize].iter().for_each(|&(place, word)| memory.put_word(place, word));
        if memory.state()[layout::LINE_AT] <= 8 {
            let in_the_end = each_call_on(&mut memory);
            assert!(in_the_end.iter().all(|values| right.contains(values)), "{:?}: {in_the_end:?}", altered[n as usize]);
        } else {
            refused(memory.text(), memory.state(), memory.values(), 24);
        }
        memory.counts
    });
    given(&added_up(parts), &["ok", "going", "24", "31", "32", "34", "35", "37", "40", "42"]);
}

/// Each count within its room, and each word of the head.
#[test]
fn each_word_of_the_head() {
    let rooms = ROOMS.iter().flat_map(|&(place, room)| (0..=room).step_by(room as usize / 64 + 1).map(move |count| (place, count)));
    let words = (0..layout::HEAD_WORDS).flat_map(|place| [0, 1, 2, 3, 7, 9, 15, 447, 1 << 31, u32::MAX].map(|word| (place, word)));
    let altered: Vec<(usize, u32)> = rooms.chain(words).collect();
    let mut all = Vec::new();
    for base in at_work() {
        all.extend(each_seed(altered.len() as u64, |n| {
            let mut memory = Memory::new(base.text(), base.state(), base.values());
            let (place, word) = altered[n as usize];
            memory.put_word(place, word);
            each_call_on(&mut memory);
            memory.counts
        }));
    }
    given(&added_up(all), &["ok", "going", "24", "31", "32", "34", "35", "36", "37", "40", "42"]);
}

/// The orders of these slots.
fn orders(slots: &[u32]) -> Vec<Vec<u32>> {
    match slots {
        [] => vec![Vec::new()],
        _ => slots.iter().flat_map(|&first| {
            let others: Vec<u32> = slots.iter().copied().filter(|&slot| slot != first).collect();
            orders(&others).into_iter().map(move |order| [vec![first], order].concat())
        }).collect(),
    }
}

/// Aborts of all open slots, in each order, where a waiting send has another target, method or argument: the values are those of the start.
#[test]
fn aborts_in_each_order() {
    let (base, waiting) = with_a_line();
    let orders = orders(&[0, 2, 4, 5, 7]);
    let words = [layout::KIND_AT, layout::NUMBER_AT, layout::NAME_AT, layout::ARGUMENT_AT, layout::PLACE_AT];
    let mut memory = Memory::new(base.text(), base.state(), base.values());
    for place in waiting.into_iter().flat_map(|slot| words.map(|word| row_at(slot, WAITING.start + word))) {
        for word in tried(base.state()[place]) {
            for order in &orders {
                memory.set(base.state(), base.values());
                memory.put_word(place, word);
                call_and_abort(&mut memory, None, order);
                assert_eq!(memory.values(), VALUES, "word {place} set to {word}, {order:?}");
            }
        }
    }
}

/// The words of a waiting send that no call reads: spare ones, those of a message that runs, and the method's name, which the tables have.
#[test]
fn unread_words_of_a_waiting_send() {
    let (base, waiting) = with_a_line();
    let mut memory = Memory::new(base.text(), base.state(), base.values());
    let mut made = |place: usize, word: u32, call: Call| {
        memory.set(base.state(), base.values());
        memory.put_word(place, word);
        let answer = memory.call(call);
        // The word itself goes with its send.
        let same = (memory.state()[place], base.state()[place]);
        memory.put_word(place, if same.0 == word { same.1 } else { same.0 });
        (answer, memory.state().to_vec(), memory.values().to_vec())
    };
    let read = |word: &usize| [layout::KIND_AT, layout::NUMBER_AT, layout::ARGUMENT_AT, layout::PLACE_AT].contains(word);
    let ends = [Call::Commit(5), Call::Abort(5), Call::Abort(0), send(1, Target::Object(1), TUNE), send(5, Target::Object(1), TUNE)];
    for slot in waiting {
        for word in (0..layout::OBJECT_LOCKS_AT).filter(|word| !read(word)) {
            let place = row_at(slot, WAITING.start + word);
            for call in ends {
                let right = made(place, base.state()[place], call);
                for new in [1, 5, u32::MAX] {
                    assert!(made(place, new, call) == right, "{call:?} with word {word} of the send of slot {slot} set to {new}");
                }
            }
        }
    }
}

/// Slot 0 has the answer of a plot on the first lane, and slot 3 waits to plot it.
fn one_waiting() -> Memory {
    let mut memory = after(&[vec![send(0, Target::Object(1), PLOT)], vec![Call::Step(0); 3]].concat());
    assert_eq!(memory.call(send(3, Target::Object(1), PLOT)), Answer::Held(0));
    memory
}

/// An object that is not there, whose lock would stand among the marks, the notes or the words of the waiting send (447: the note of value
/// 5). No value is altered by the commit, nor by the abort after it.
#[test]
fn lock_among_the_notes() {
    let base = one_waiting();
    let mut memory = Memory::new(base.text(), base.state(), base.values());
    for number in [447, 3, 4, 63].into_iter().chain(64..(ROW_WORDS - layout::OBJECT_LOCKS_AT) as u32) {
        memory.set(base.state(), base.values());
        memory.put_word(row_at(3, WAITING.start + layout::NUMBER_AT), number);
        assert_eq!(memory.call(Call::Commit(0)), Answer::Done);
        assert_eq!(memory.call(Call::Abort(3)), Answer::Done);
        assert_eq!(memory.values(), base.values(), "object {number}");
    }
}

/// A waiting send to a target or for a method that is not there goes on waiting; put right, it starts at the next end.
#[test]
fn waits_for_what_is_not_there() {
    let words = [layout::KIND_AT, layout::NUMBER_AT, layout::PLACE_AT].map(|word| row_at(3, WAITING.start + word));
    let kinds = [(3, 1, 1), (9, 0, 0), (9, 1, 1), (u32::MAX, 1, 1)];
    let objects = [3, 5, 63, 64, 447, 1 << 31, u32::MAX].map(|number| (0, number, 1));
    let classes = [2, 7, 15, 16, u32::MAX].map(|number| (1, number, 1));
    let domains = [2, 7, 15, 16, u32::MAX].map(|number| (2, number, 1));
    let methods = [(0, 1, 4), (0, 0, 2), (1, 1, 31), (1, 1, 32), (1, 1, 33), (2, 0, 2), (0, 1, 1 << 31), (2, 1, u32::MAX)];
    for (kind, number, place) in kinds.into_iter().chain(objects).chain(classes).chain(domains).chain(methods) {
        let mut memory = one_waiting();
        let right = words.map(|word| memory.state()[word]);
        words.iter().zip([kind, number, place]).for_each(|(&at, word)| memory.put_word(at, word));
        let row = memory.state()[row_at(3, 0)..row_at(4, 0)].to_vec();
        assert_eq!(memory.call(Call::Commit(0)), Answer::Done);
        assert_eq!(in_line(memory.state()), [3], "kind {kind}, number {number}, place {place}");
        assert_eq!(memory.state()[row_at(3, 0)..row_at(4, 0)], row);
        assert_eq!(memory.call(Call::Step(3)), Answer::Refused(37));
        words.iter().zip(right).for_each(|(&at, word)| memory.put_word(at, word));
        assert_eq!(memory.call(send(1, Target::Object(0), PLOT)), Answer::Done);
        assert_eq!(memory.call(Call::Abort(1)), Answer::Done);
        assert_eq!(memory.call(Call::Step(3)), Answer::Going, "kind {kind}, number {number}, place {place}");
    }
}

/// A slot that is closed by its phase and stands in line is in nobody's way: 40 names an open slot.
#[test]
fn closed_slot_in_line() {
    let mut memory = Memory::started(b"class a\nfield x\nmethod m\nset x 1\nend\nobject o a\n", &[0]);
    assert_eq!(memory.call(send(1, Target::Object(0), 0)), Answer::Done);
    assert_eq!(memory.call(send(0, Target::Object(0), 0)), Answer::Held(1));
    memory.put_word(row_at(0, layout::PHASE_AT), 0);
    assert_eq!(memory.call(send(2, Target::Object(0), 0)), Answer::Held(1));
    assert_eq!(memory.call(Call::Abort(1)), Answer::Done);
    assert_eq!(in_line(memory.state()), []);
    assert_eq!(memory.call(Call::Step(2)), Answer::Going);
}

/// A machine on a generated text after some generated calls.
fn generated(random: &mut Random, text: &[u8], library: &Library, values: &[u32]) -> Memory {
    let mut memory = Memory::started(text, values);
    let mut caller = Caller::new(random, library);
    for _ in 0..random.below(120) {
        let call = caller.next(random, library);
        let answer = memory.call(call);
        caller.told(call, answer);
    }
    memory
}

/// Generated calls on whatever memory this is.
fn try_calls(random: &mut Random, library: &Library, memory: &mut Memory) {
    let mut caller = Caller::new(random, library);
    for _ in 0..60 {
        let call = caller.next(random, library);
        let answer = memory.call(call);
        caller.told(call, answer);
    }
}

/// A word for this place; a count is mostly within its room, since past it every call is 24.
fn mostly_within(random: &mut Random, place: usize, word: u32) -> u32 {
    match ROOMS.iter().find(|(count, _)| *count == place) {
        Some((_, room)) if !random.one_in(20) => word % (room + 1),
        _ => word,
    }
}

/// Some words set to edges or to anything; the words that every call looks at first often stay.
fn alter(random: &mut Random, memory: &mut Memory) {
    for _ in 0..1 + random.below(40) {
        let place = match random.below(5) {
            0 => random.below(layout::HEAD_WORDS),
            1 => layout::CLASSES_AT + random.below(TABLE_WORDS - layout::CLASSES_AT),
            2 => TABLE_WORDS + random.below(8) * ROW_WORDS + random.below(layout::SPARE_AT),
            3 => layout::LINE_AT + random.below(layout::LINE_WORDS),
            _ => TABLE_WORDS + random.below(8 * ROW_WORDS),
        };
        let word = memory.state()[place];
        let new = match random.below(3) {
            0 => *random.pick(&edges(word)),
            1 => word ^ 1 << random.below(32),
            _ => random.edge(),
        };
        let new = mostly_within(random, place, new);
        if !(layout::VALUE_COUNT_AT..=layout::START_MARK_AT).contains(&place) || random.one_in(20) {
            memory.put_word(place, new);
        }
    }
}

/// Any words at all, with the three that every call looks at first.
fn rubbish(random: &mut Random, memory: &mut Memory) {
    let narrow = random.below(33) as u32;
    for place in 0..STATE_WORDS {
        if !(layout::VALUE_COUNT_AT..=layout::START_MARK_AT).contains(&place) {
            let word = (random.next() as u32).checked_shr(narrow).unwrap_or(0);
            let word = mostly_within(random, place, word);
            memory.put_word(place, word);
        }
    }
}

#[test]
fn generated_machines_altered() {
    let counted = each_seed(machines(), |seed| {
        let mut random = Random::new(seed + 3_000_000);
        let text = text_to_call(&mut random);
        let library = reference::read(&text).unwrap();
        let values = values_for(&mut random, &library);
        let base = generated(&mut random, &text, &library, &values);
        let mut memory = Memory::new(&text, base.state(), base.values());
        for round in 0..12 {
            memory.set(base.state(), base.values());
            if round == 0 {
                rubbish(&mut random, &mut memory);
            } else {
                alter(&mut random, &mut memory);
            }
            try_calls(&mut random, &library, &mut memory);
        }
        memory.counts
    });
    given(&added_up(counted), &["ok", "going", "answer", "24", "31", "32", "34", "35", "36", "37", "40", "41", "42"]);
}

/// Texts of one length and one count of values, two by two.
fn pairs(random: &mut Random, count: usize) -> Vec<(Vec<u8>, Vec<u8>)> {
    let mut seen: HashMap<(usize, usize), Vec<u8>> = HashMap::new();
    let mut pairs = Vec::new();
    while pairs.len() < count {
        let text = text_to_call(random);
        let size = reference::read(&text).unwrap().starting_values().len();
        match seen.insert((text.len(), size), text.clone()) {
            Some(other) if other != text => pairs.push((other, text)),
            _ => {}
        }
    }
    pairs
}

/// Text, state and values exchanged between two machines, in every way; and two machines on one list of values.
#[test]
fn exchanged() {
    let mut random = Random::new(4_000_000);
    let mut all = Vec::new();
    for (first, second) in pairs(&mut random, machines() as usize / 4) {
        let made: Vec<(Library, Memory)> = [&first, &second].into_iter().map(|text| {
            let library = reference::read(text).unwrap();
            let values = values_for(&mut random, &library);
            let memory = generated(&mut random, text, &library, &values);
            (library, memory)
        }).collect();
        for exchange in 1..8 {
            let of = |bit: usize| &made[exchange >> bit & 1].1;
            let mut memory = Memory::new(of(0).text(), of(1).state(), of(2).values());
            try_calls(&mut random, &made[0].0, &mut memory);
            all.push(memory.counts);
        }
        let (library, one) = &made[0];
        let values = values_for(&mut random, library);
        let mut two = generated(&mut random, &first, library, &values);
        let mut memory = Memory::new(&first, one.state(), one.values());
        for _ in 0..4 {
            try_calls(&mut random, library, &mut memory);
            let shared = memory.values().to_vec();
            let state = two.state().to_vec();
            two.set(&state, &shared);
            try_calls(&mut random, library, &mut two);
            let (state, shared) = (memory.state().to_vec(), two.values().to_vec());
            memory.set(&state, &shared);
        }
        all.extend([memory.counts, two.counts]);
    }
    given(&added_up(all), &["ok", "going", "answer", "24", "31", "32", "34", "35", "36", "37", "40", "41", "42"]);
}
