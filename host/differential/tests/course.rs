//! What docs/COURSE.md shows is what the programs print: its five boards, and each of its blocks named `printed` or `tables`, which
//! belong to the blocks named `lib` and `calls` above them.

use differential::rehearsal::{printed, Lib};
use std::ops::Range;

const PAGE: &str = include_str!("../../../docs/COURSE.md");
const SAMPLE: &str = include_str!("../../../samples/lanes.txt");
const LEFT: &str = include_str!("../../../samples/left-board.calls");
const RIGHT: &str = include_str!("../../../samples/right-board.calls");
const LINE: &str = include_str!("../../../samples/line-board.calls");
const PAIR: &str = include_str!("../../../samples/pair.txt");
const CIRCLE: &str = include_str!("../../../samples/circle-board.calls");
const TALLY: &str = include_str!("../../../samples/tally.txt");
const TALLY_BOARD: &str = include_str!("../../../samples/tally-board.calls");

/// The first thing in backquotes of a cell, as a line.
fn quoted(cell: &str) -> Option<String> {
    cell.split('`').nth(1).map(|found| format!("{found}\n"))
}

/// The rows of the page's tables that have so many cells, the empty ones at both ends counted.
fn rows(cells: usize) -> impl Iterator<Item = Vec<&'static str>> {
    let all = PAGE.lines().filter(|line| line.starts_with("| ")).map(|line| line.split('|').map(str::trim).collect::<Vec<_>>());
    all.filter(move |row| row.len() == cells)
}

/// A board of the page, its call lines and what is printed: some cells of each row are its tablets', the next is printed.
fn board(cells: usize, tablets: Range<usize>) -> (String, String) {
    let (mut calls, mut printed) = (String::new(), String::new());
    for row in rows(cells) {
        calls.extend(row[tablets.clone()].iter().filter_map(|cell| quoted(cell)));
        printed.extend(quoted(row[tablets.end]));
    }
    (calls, printed)
}

fn rehearsed(lib: &str, calls: &str) -> String {
    String::from_utf8(printed(Lib::Text(lib.as_bytes()), calls.as_bytes())).unwrap()
}

fn tables(lib: &str) -> String {
    let mut out = vec![0; wrapper::LONGEST_TABLES];
    let size = wrapper::print_tables(lib.as_bytes(), &mut out).unwrap();
    String::from_utf8(out[..size].to_vec()).unwrap()
}

#[test]
fn boards() {
    let two = [(9, 2..4, SAMPLE, LEFT), (9, 5..7, SAMPLE, RIGHT)];
    let others = [(10, 2..5, SAMPLE, LINE), (7, 2..4, PAIR, CIRCLE), (8, 2..5, TALLY, TALLY_BOARD)];
    for (cells, tablets, lib, calls) in two.into_iter().chain(others) {
        assert_eq!(board(cells, tablets), (calls.into(), rehearsed(lib, calls)));
    }
    assert_eq!(PAIR, format!("{SAMPLE}object lane2 lane\n"));
    assert!(PAGE.contains(&format!("```lib\n{TALLY}```")), "the page shows another text than samples/tally.txt");
}

/// The last column of the tallies' board is the total after each call.
#[test]
fn totals() {
    let mut values = [0];
    let mut machine = wrapper::machine::Machine::start(TALLY.as_bytes(), &mut values).unwrap();
    let library = reference::read(TALLY.as_bytes()).unwrap();
    let shown: Vec<u32> = rows(8).filter_map(|row| row[6].parse().ok()).collect();
    let total = |line: &str| {
        differential::machine::make(&mut machine, reference::lines::call(&library, line.as_bytes()).unwrap());
        machine.values()[0]
    };
    assert_eq!(TALLY_BOARD.lines().map(total).collect::<Vec<_>>(), shown);
}

/// The last columns of the line's board are which slots run and wait after each call, and the focus.
#[test]
fn line() {
    let library = reference::read(SAMPLE.as_bytes()).unwrap();
    let mut second = reference::machine::Machine::start(&library, &library.starting_values()).unwrap();
    let calls = rows(10).filter(|row| row[1].parse::<u32>().is_ok());
    let shown: Vec<Vec<String>> = calls.map(|row| row[6..9].iter().map(|cell| cell.to_string()).collect()).collect();
    let listed = |slots: &mut dyn Iterator<Item = u32>| slots.map(|slot| slot.to_string()).collect::<Vec<_>>().join(", ");
    let after = |line: &str| {
        second.call(reference::lines::call(&library, line.as_bytes()).unwrap());
        let running = listed(&mut (0..8).filter(|&slot| second.is_running(slot)));
        let waiting = listed(&mut second.line.iter().map(|waiter| waiter.slot));
        vec![running, waiting, second.values()[2].to_string()]
    };
    assert_eq!(LINE.lines().map(after).collect::<Vec<_>>(), shown);
}

/// The last column of the circle's board is which slots wait after each call.
#[test]
fn circle() {
    let library = reference::read(PAIR.as_bytes()).unwrap();
    let mut second = reference::machine::Machine::start(&library, &library.starting_values()).unwrap();
    let calls = rows(7).filter(|row| row[1].parse::<u32>().is_ok());
    let shown: Vec<&str> = calls.map(|row| row[5]).collect();
    let waiting = |line: &str| {
        second.call(reference::lines::call(&library, line.as_bytes()).unwrap());
        second.line.iter().map(|waiter| waiter.slot.to_string()).collect::<Vec<_>>().join(", ")
    };
    assert_eq!(CIRCLE.lines().map(waiting).collect::<Vec<_>>(), shown);
}

#[test]
fn blocks() {
    let (mut lib, mut calls, mut compared) = (SAMPLE, "", 0);
    for block in PAGE.split("```").skip(1).step_by(2) {
        let (name, block) = block.split_once('\n').unwrap();
        match name {
            "lib" => lib = block,
            "calls" => calls = block,
            "printed" => assert_eq!(rehearsed(lib, calls), block),
            "tables" => assert_eq!(tables(lib), block),
            _ => {}
        }
        compared += ["printed", "tables"].contains(&name) as u32;
    }
    assert_eq!(compared, 5);
}
