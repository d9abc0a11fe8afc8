//! What `rehearse` prints for a class text and call lines (document 02, Ticket 2): whole, and as it goes.

use crate::lines::{call, objects, said};
use crate::machine::Machine;
use crate::text::{read, Library};
use std::io::{self, Read, Write};

/// A machine that answers call lines, started on the text's own values.
struct Rehearsal<'a> {
    library: &'a Library,
    machine: Machine<'a>,
}

impl<'a> Rehearsal<'a> {
    fn start(library: &'a Library) -> Rehearsal<'a> {
        let machine = Machine::start(library, &library.starting_values()).expect("a value for each field");
        Rehearsal { library, machine }
    }

    /// What is printed for a line. The machine does not hear of one that has another form or that no LF ends.
    fn answer(&mut self, line: &[u8]) -> String {
        match line.strip_suffix(b"\n").and_then(|line| call(self.library, line)) {
            Some(call) => said(self.machine.call(call)) + "\n",
            None => "51\n".into(),
        }
    }

    /// What is printed after all lines.
    fn last(&self) -> String {
        objects(self.library, &self.machine.values()).iter().map(|line| format!("{line}\n")).collect()
    }
}

/// All that is printed for both inputs.
pub fn rehearsed(text: &[u8], calls: &[u8]) -> String {
    let library = match read(text) {
        Ok(library) => library,
        Err(fault) => return format!("{fault}\n"),
    };
    let mut rehearsal = Rehearsal::start(&library);
    let answers: String = calls.split_inclusive(|&b| b == b'\n').map(|line| rehearsal.answer(line)).collect();
    answers + &rehearsal.last()
}

/// No call line has as many bytes; of a line begun no more are kept.
const TOO_LONG: usize = 128;

/// Prints the same as it goes: the lines of each part that is read are answered before the next part is waited for.
pub fn rehearse(text: &[u8], mut calls: impl Read, mut out: impl Write) -> io::Result<()> {
    let library = match read(text) {
        Ok(library) => library,
        Err(fault) => return writeln!(out, "{fault}"),
    };
    let mut rehearsal = Rehearsal::start(&library);
    let mut part = vec![0; 65_536];
    let mut line = Vec::new();
    loop {
        let size = calls.read(&mut part)?;
        if size == 0 {
            break;
        }
        let mut answers = String::new();
        for piece in part[..size].split_inclusive(|&b| b == b'\n') {
            line.extend(piece);
            if line.ends_with(b"\n") {
                answers += &rehearsal.answer(&line);
                line.clear();
            }
            line.truncate(TOO_LONG);
        }
        out.write_all(answers.as_bytes())?;
        out.flush()?;
    }
    if !line.is_empty() {
        out.write_all(rehearsal.answer(&line).as_bytes())?;
    }
    out.write_all(rehearsal.last().as_bytes())
}
