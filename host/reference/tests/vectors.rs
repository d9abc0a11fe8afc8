//! The second implementation on the repository's vectors: texts, damaged texts, call lists and odd call lines with their answers.

use reference::course::Course;
use reference::image::{image, tables};
use reference::lines::{call, objects, traced};
use reference::machine::{Call, Machine};
use reference::rehearsal::rehearsed;
use reference::stored::{bytes, bytes_if_any, lines, numbers};
use reference::text::read;

#[test]
fn texts() {
    for n in numbers("tables") {
        assert_eq!(tables(&bytes(n, "txt")).as_bytes(), bytes(n, "tables"), "tables of {n}");
    }
    for n in numbers("image") {
        assert_eq!(image(&bytes(n, "txt")).unwrap(), bytes(n, "image"), "image of {n}");
    }
    for n in numbers("bad") {
        assert_eq!(tables(&bytes(n, "bad")).as_bytes(), bytes(n, "bad.tables"), "tables of damaged {n}");
    }
}

#[test]
fn call_lists() {
    for n in numbers("trace") {
        let library = read(&bytes(n, "txt")).unwrap();
        let start = library.starting_values();
        let mut machine = Machine::start(&library, &start).unwrap();
        let mut course = Course::start(&library, &start);
        let trace = lines(n, "trace");
        for (k, line) in lines(n, "calls").iter().enumerate() {
            let call = call(&library, line.as_bytes()).unwrap();
            let answer = machine.call(call);
            course.feed(call, answer);
            let found = traced(answer, &machine.values());
            assert_eq!(found.trim_end(), trace[k].trim_end(), "list {n}, call {}: {line}", k + 1);
        }
        let last = objects(&library, &machine.values());
        assert_eq!(last, trace[trace.len() - last.len()..], "list {n}: the objects at the end");
        for slot in 0..8 {
            let answer = machine.call(Call::Abort(slot));
            course.feed(Call::Abort(slot), answer);
        }
        assert!(machine.idle());
        assert_eq!(machine.values(), course.values(), "list {n}: the course's fields");
        assert!(course.right(), "list {n}: the course's answers");
    }
}

#[test]
fn rehearsals() {
    for n in numbers("calls") {
        let text = bytes_if_any(n, "txt").unwrap_or_default();
        assert_eq!(rehearsed(&text, &bytes(n, "calls")).as_bytes(), bytes(n, "out"), "rehearsal {n}");
    }
}
