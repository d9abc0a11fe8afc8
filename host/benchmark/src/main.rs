//! How fast the proved library and the program `rehearse` are: beside the second implementation, both in turn in one run, and, where
//! the programs of transactions.c, berkeley.c and sqlite.c are named, beside Berkeley DB's lock subsystem and SQLite. Prints the tables
//! of docs/PERFORMANCE.md.
//!   benchmark [TRANSACTIONS BERKELEY SQLITE]
//!   benchmark peers TRANSACTIONS BERKELEY SQLITE   the last of the tables alone
//!   benchmark rehearse       the table of `rehearse` alone
//!   benchmark tallies        the tables of `add` beside `set` alone
//!   benchmark line [BERKELEY]   the tables of a line of seven alone
//!   benchmark profile        makes some of each call once, for callgrind
//!   benchmark transactions   makes 100 transactions of a send to an object, for callgrind

mod clock;
mod line;
mod rehearsal;
mod tallies;
mod texts;

use clock::{both, each, shown, Time};
use reference::machine::{Call, Target};
use wrapper::machine::{lent, STATE_WORDS};

/// A row of a table: what, on which text, the two times and their ratio.
fn row(what: &str, on: &str, times: (Time, Time)) {
    println!("| {what} | {on} | {} | {} | {:.3} |", shown(times.0), shown(times.1), times.0 / times.1);
}

fn reading(samples: &[(String, Vec<u8>)]) {
    let mut image = vec![0; wrapper::LONGEST_IMAGE];
    for (name, text) in samples {
        row("check", name, both(|| wrapper::check(text).is_ok(), || reference::read(text).is_ok()));
    }
    for (name, text) in samples {
        let ours = || wrapper::compile(text, &mut image).is_ok();
        row("compile", name, both(ours, || reference::image::image(text).is_ok()));
    }
    for (name, text) in samples {
        let values = reference::read(text).unwrap().starting_values();
        let mut state = vec![0; STATE_WORDS];
        let ours = || lent::start(text, &values, &mut state).is_ok();
        let second = || {
            let library = reference::read(text).unwrap();
            reference::machine::Machine::start(&library, &values).is_some()
        };
        row("start", name, both(ours, second));
    }
}

/// A transaction of one message: a send to an object, steps to its answer, commit; and how many steps that is.
fn transaction(text: &[u8], method: u32) -> (usize, (Time, Time)) {
    let library = reference::read(text).unwrap();
    let mut values = library.starting_values();
    let mut state = vec![0; STATE_WORDS];
    lent::start(text, &values, &mut state).unwrap();
    let mut machine = reference::machine::Machine::start(&library, &values).unwrap();
    let mut steps = 0;
    let ours = || {
        lent::send(text, &mut state, &values, 0, wrapper::machine::Target::Object(0), method, 3);
        steps = 1;
        while lent::step(text, &mut state, &mut values, 0) == lent::Outcome::Going {
            steps += 1;
        }
        lent::commit(text, &mut state, &values, 0) == lent::Outcome::Done
    };
    let second = || {
        machine.call(Call::Send { slot: 0, target: Target::Object(0), method, argument: 3 });
        while machine.call(Call::Step(0)) == reference::machine::Answer::Going {}
        machine.call(Call::Commit(0)) == reference::machine::Answer::Done
    };
    let times = both(ours, second);
    (steps, times)
}

fn machine(samples: &[(String, Vec<u8>)]) {
    let short = transaction(&samples[0].1, 1);
    row("send, 2 steps, commit", &samples[0].0, short.1);
    for (name, text) in texts::messages() {
        let (steps, (ours, second)) = transaction(&text, 0);
        row(&format!("one of {steps} steps"), &name, (ours / steps as f64, second / steps as f64));
    }
}

/// A method with an empty body.
const EMPTY: &[u8] = b"class a\nmethod m\nend\nobject o a\n";

/// The ways to open Berkeley DB, and what each is.
const BERKELEY: [(&str, &str); 5] = [
    ("plain", "one thread, one locker that is kept"),
    ("lockers", "one thread, a locker for each transaction"),
    ("threads", "several threads, one locker that is kept"),
    ("service", "several threads, a locker for each transaction"),
    ("processes", "several processes, a locker for each transaction"),
];

/// The ways to open SQLite.
const SQLITE: [(&str, &str); 2] = [
    ("plain", "one thread, memory not counted"),
    ("service", "several threads, memory counted: no settings"),
];

const LANES: &str = concat!(env!("CARGO_MANIFEST_DIR"), "/../../samples/lanes.txt");

/// The table of another program's ways, beside our time of the same: alone, and with a mutex.
fn beside(head: &str, ways: &[(&str, &str)], times: &[Vec<Time>], ours: (Time, Time)) {
    println!("\n| {head} alone | with a mutex |\n|---|---|---|---|");
    for ((_, what), t) in ways.iter().zip(times) {
        println!("| {what} | {:.0} ns | {:.1} | {:.1} |", t[0], t[0] / ours.0, t[0] / ours.1);
    }
}

/// The two locks of a send to an object and their release, beside Berkeley DB's lock subsystem; a whole transaction beside SQLite's.
/// Programs in C, in turn.
fn peers(transactions: &str, berkeley: &str, sqlite: &str) {
    let mut programs = vec![vec![transactions, "alone", LANES], vec![transactions, "threads", LANES]];
    programs.extend(BERKELEY.map(|(word, _)| vec![berkeley, word]));
    programs.extend(SQLITE.map(|(word, _)| vec![sqlite, word]));
    let times = clock::of_programs(&programs);
    let (alone, locked, peers) = (&times[0], &times[1], &times[2..]);
    let both = |t: &[Time]| t[0] + t[1];
    println!("\n| ours | send | commit | both | send, step, commit | tune: send, 2 steps, commit |\n|---|---|---|---|---|---|");
    for (what, t) in [("the calls alone", alone), ("each call between a mutex's lock and unlock", locked)] {
        println!("| {what} | {:.1} ns | {:.1} ns | {:.1} ns | {:.1} ns | {:.1} ns |", t[0], t[1], both(t), t[2], t[3]);
    }
    let (of_berkeley, of_sqlite) = peers.split_at(BERKELEY.len());
    beside("Berkeley DB | time | times send and commit", &BERKELEY, of_berkeley, (both(alone), both(locked)));
    beside("SQLite | begin, update, commit | times tune", &SQLITE, of_sqlite, (alone[3], locked[3]));
}

/// How the ratio of compile is spread over generated texts of 20 to 32 KiB.
fn spread() {
    let mut image = vec![0; wrapper::LONGEST_IMAGE];
    let large: Vec<Vec<u8>> = texts::large().into_iter().filter(|t| t.len() >= 20_480).collect();
    let mut ratios: Vec<f64> = large.iter().map(|text| {
        let ours = || wrapper::compile(text, &mut image).is_ok();
        let (ours, second) = clock::shortly(ours, || reference::image::image(text).is_ok());
        ours / second
    }).collect();
    ratios.sort_by(f64::total_cmp);
    let above = ratios.iter().filter(|r| **r > 3.0).count();
    println!("\n| compile of generated texts from 20 KiB | least | median | most | above 3 |\n|---|---|---|---|---|");
    println!("| {} texts | {:.1} | {:.1} | {:.1} | {above} |", ratios.len(), ratios[0], ratios[ratios.len() / 2], ratios[ratios.len() - 1]);
}

fn growth() {
    println!("\n| check of | time | a byte |\n|---|---|---|");
    for kib in [1, 2, 4, 8, 16, 32] {
        let text = generate::limits::of_length(kib * 1_024);
        let time = each(|| wrapper::check(&text).is_ok());
        println!("| {kib} KiB | {} | {:.2} ns |", shown(time), time / text.len() as f64);
    }
}

/// Some of each call: what callgrind is to look at.
fn profile() {
    let mut image = vec![0; wrapper::LONGEST_IMAGE];
    wrapper::compile(&texts::large()[0], &mut image).unwrap();
    for (_, text) in texts::messages() {
        transactions(&text);
    }
}

/// 100 transactions of a send to the first object.
fn transactions(text: &[u8]) {
    let mut values = reference::read(text).unwrap().starting_values();
    let mut machine = wrapper::machine::Machine::start(text, &mut values).unwrap();
    for _ in 0..100 {
        machine.send(0, wrapper::machine::Target::Object(0), 0, 3).unwrap();
        while machine.step(0) == Ok(wrapper::machine::Step::Going) {}
        machine.commit(0).unwrap();
    }
}

fn main() {
    let words: Vec<String> = std::env::args().skip(1).collect();
    let words: Vec<&str> = words.iter().map(String::as_str).collect();
    match words[..] {
        ["profile"] => return profile(),
        ["transactions"] => return transactions(EMPTY),
        ["peers", transactions, berkeley, sqlite] => return peers(transactions, berkeley, sqlite),
        ["rehearse"] => return rehearsal::table(),
        ["tallies"] => return tallies::table(),
        ["line"] => return line::table(),
        ["line", berkeley] => {
            line::table();
            return line::beside(berkeley);
        }
        _ => {}
    }
    let samples = texts::samples();
    println!("| what | on | ours | second | ratio |\n|---|---|---|---|---|");
    reading(&samples);
    machine(&samples);
    tallies::table();
    line::table();
    spread();
    growth();
    rehearsal::table();
    if let [transactions, berkeley, sqlite] = words[..] {
        peers(transactions, berkeley, sqlite);
        line::beside(berkeley);
    }
}
