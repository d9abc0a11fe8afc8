//! The program `rehearse` and the second implementation's: both on the same text and call lines, as processes, in turn.

use crate::clock::{shown, Time};
use crate::texts;
use differential::rehearsal::{peak, program, Folder, Lib};
use generate::lines::lines;
use generate::Random;
use std::fs::File;
use std::io::{BufWriter, Write};
use std::path::{Path, PathBuf};
use std::process::{Child, Command};
use std::time::{Duration, Instant};

/// How many call lines, and how often they are timed.
const SIZES: [(usize, usize); 2] = [(100_000, 10), (1_000_000, 3)];

/// The second implementation's program, which is built beside this one.
fn second() -> PathBuf {
    let path = std::env::current_exe().unwrap().with_file_name("rehearse");
    assert!(path.is_file(), "{} is missing: run `cargo build --release -p reference` first", path.display());
    path
}

fn write_lines(text: &[u8], count: usize, path: &Path) {
    let library = reference::read(text).unwrap();
    let mut out = BufWriter::new(File::create(path).unwrap());
    for line in lines(&mut Random::new(1), &library).take(count) {
        out.write_all(line.as_bytes()).unwrap();
    }
}

/// The program at work in a folder: from the file `calls` into the file named.
fn start(program: &Path, folder: &Path, output: &str) -> Child {
    let (calls, out) = (File::open(folder.join("calls")).unwrap(), File::create(folder.join(output)).unwrap());
    Command::new(program).current_dir(folder).stdin(calls).stdout(out).spawn().unwrap_or_else(|e| panic!("{}: {e}", program.display()))
}

fn time(program: &Path, folder: &Path, output: &str) -> Time {
    let from = Instant::now();
    let status = start(program, folder, output).wait().unwrap();
    assert!(status.success(), "{}: {status}", program.display());
    from.elapsed().as_nanos() as f64
}

/// The most memory that a run of the program takes, in KiB: looked at every millisecond until it ends.
fn memory(program: &Path, folder: &Path, output: &str) -> u64 {
    let mut child = start(program, folder, output);
    let mut most = 0;
    while child.try_wait().unwrap().is_none() {
        most = peak(&child).map_or(most, |now| now.max(most));
        std::thread::sleep(Duration::from_millis(1));
    }
    most
}

pub fn table() {
    let (ours, second) = (program(), second());
    println!("\n| rehearse, on | call lines | ours | second | ratio | memory of ours | of the second |\n|---|---|---|---|---|---|---|");
    for (name, text) in &texts::samples()[..2] {
        for (count, rounds) in SIZES {
            let folder = Folder::with(Lib::Text(text));
            write_lines(text, count, &folder.0.join("calls"));
            let mut least = (f64::MAX, f64::MAX);
            for _ in 0..rounds {
                least = (least.0.min(time(&ours, &folder.0, "ours")), least.1.min(time(&second, &folder.0, "second")));
            }
            let printed = |output: &str| std::fs::read(folder.0.join(output)).unwrap();
            assert!(printed("ours") == printed("second"), "the two print different things");
            let memory = (memory(&ours, &folder.0, "ours"), memory(&second, &folder.0, "second"));
            let (times, ratio) = ((shown(least.0), shown(least.1)), least.0 / least.1);
            println!("| {name} | {count} | {} | {} | {ratio:.2} | {} KiB | {} KiB |", times.0, times.1, memory.0, memory.1);
        }
    }
}
