//! Times of two things in turn. Each round does one for some milliseconds and then the other; the least time of all rounds is
//! kept, since other work on the machine only adds.

use std::process::Command;
use std::time::Instant;

/// Nanoseconds.
pub type Time = f64;

/// How long a thing is done in a round, in nanoseconds.
const ROUND: f64 = 1e7;
/// At most as many rounds, and no new one after as many nanoseconds.
const ROUNDS: usize = 60;
const LONGEST: f64 = 4e9;

pub fn shown(time: Time) -> String {
    match time {
        t if t < 1e3 => format!("{t:.0} ns"),
        t if t < 1e6 => format!("{:.2} us", t / 1e3),
        t => format!("{:.2} ms", t / 1e6),
    }
}

/// The time of one, done as often as named. What it gives must be true.
fn repeated(one: &mut dyn FnMut() -> bool, times: usize) -> Time {
    let from = Instant::now();
    for _ in 0..times {
        assert!(one(), "a thing that is timed fails");
    }
    from.elapsed().as_nanos() as f64 / times as f64
}

fn times_for(one: &mut dyn FnMut() -> bool) -> usize {
    let first = repeated(one, 1).min(repeated(one, 3));
    (ROUND / first).clamp(1.0, 1e6) as usize
}

pub fn both(ours: impl FnMut() -> bool, second: impl FnMut() -> bool) -> (Time, Time) {
    in_turn(ours, second, ROUNDS)
}

/// The same with few rounds, where there are many texts.
pub fn shortly(ours: impl FnMut() -> bool, second: impl FnMut() -> bool) -> (Time, Time) {
    in_turn(ours, second, 5)
}

fn in_turn(mut ours: impl FnMut() -> bool, mut second: impl FnMut() -> bool, rounds: usize) -> (Time, Time) {
    let (a, b) = (times_for(&mut ours), times_for(&mut second));
    let from = Instant::now();
    let mut least = (f64::MAX, f64::MAX);
    for round in 0..rounds {
        least = (least.0.min(repeated(&mut ours, a)), least.1.min(repeated(&mut second, b)));
        if round > 0 && from.elapsed().as_nanos() as f64 > LONGEST {
            break;
        }
    }
    least
}

/// How often a part is timed in a round.
const PARTS: usize = 2_000;

/// The times of a part of each, which they tell themselves, in turn; the clock's own time is taken off.
pub fn parts(mut ours: impl FnMut() -> Time, mut second: impl FnMut() -> Time) -> (Time, Time) {
    let mean = |one: &mut dyn FnMut() -> Time| (0..PARTS).map(|_| one()).sum::<Time>() / PARTS as Time;
    let from = Instant::now();
    let mut least = [f64::MAX; 3];
    for round in 0..ROUNDS {
        let times = [mean(&mut ours), mean(&mut second), mean(&mut || timed(|| {}))];
        least = [0, 1, 2].map(|k| least[k].min(times[k]));
        if round > 0 && from.elapsed().as_nanos() as f64 > LONGEST {
            break;
        }
    }
    (least[0] - least[2], least[1] - least[2])
}

/// The time of one.
pub fn timed(one: impl FnOnce()) -> Time {
    let from = Instant::now();
    one();
    from.elapsed().as_nanos() as f64
}

pub fn each(one: impl FnMut() -> bool) -> Time {
    both(one, || true).0
}

/// The times that a program with its words prints, in nanoseconds.
fn of_program(words: &[&str]) -> Vec<Time> {
    let output = Command::new(words[0]).args(&words[1..]).output().unwrap_or_else(|e| panic!("{words:?}: {e}"));
    assert!(output.status.success(), "{words:?}: {}", String::from_utf8_lossy(&output.stderr));
    String::from_utf8_lossy(&output.stdout).split_whitespace().map(|t| t.parse().expect("a number")).collect()
}

/// The least of each of the times that programs print, run in turn, each with its words.
pub fn of_programs(programs: &[Vec<&str>]) -> Vec<Vec<Time>> {
    let round = |_| programs.iter().map(|words| of_program(words)).collect::<Vec<_>>();
    let least = |a: Vec<Vec<Time>>, b: Vec<Vec<Time>>| {
        a.into_iter().zip(b).map(|(x, y)| x.into_iter().zip(y).map(|(t, u)| t.min(u)).collect()).collect()
    };
    (0..10).map(round).reduce(least).unwrap()
}
