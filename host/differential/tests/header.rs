//! The header compiles as strict C, a C program over it is answered as it says, and the stack that it names is enough.

use generate::limits;
use std::path::PathBuf;
use std::process::Command;
use wrapper::machine::{Machine, Step, Target};

const RIGHT: &str = "check 0 0
check 13 2
compile 0 104 32
compile 21 0
statement 88 14 reply clusters
statement_fault 23 0
starting_values 0 0: 7 0
starting_values 22 0
tables 0 49
run shot WN nyy
run plot NR yyn
run tally NA yny
tables 21 0
start 22 0
start 0 0
send 31 0
send 0 0
send 40 3
step 37 0: 7 0
send 37 0
abort 0 0: 7 0
abort 32 0: 7 0
send 36 0
send 40 3
step 1 0: 8 0
step 2 0: 8 0
commit 37 0
abort 0 0: 7 0
commit 34 0
step 1 0: 8 0
step 2 0: 8 0
commit 0 0
send 0 0
send 0 0
step 1 0: 7 0
step 1 0: 7 10
send 40 0
abort 0 0: 7 11
step 37 0: 7 11
step 2 0: 7 11
send 42 0
commit 0 0
step 1 0: 7 11
";

fn run(command: &mut Command) -> String {
    let output = command.output().unwrap_or_else(|e| panic!("{command:?}: {e}"));
    assert!(output.status.success(), "{command:?}\n{}", String::from_utf8_lossy(&output.stderr));
    String::from_utf8(output.stdout).unwrap()
}

#[test]
fn a_c_program() {
    let here = PathBuf::from(env!("CARGO_MANIFEST_DIR"));
    let program = PathBuf::from(env!("CARGO_TARGET_TMPDIR")).join("header");
    let mut compiler = Command::new("cc");
    compiler.args(["-std=c11", "-Wall", "-Wextra", "-Wpedantic", "-Werror", "-I"]).arg(here.join("../include"));
    // The sizes that the header names are the wrapper's, and these are the proved library's own constants.
    compiler.arg(format!("-DSTATE_WORDS={}", wrapper::layout::STATE_WORDS)).arg(format!("-DMOST_VALUES={}", wrapper::MOST_VALUES));
    compiler.arg(format!("-DLONGEST_TEXT={}", wrapper::LONGEST_TEXT)).arg(format!("-DLONGEST_IMAGE={}", wrapper::LONGEST_IMAGE));
    compiler.arg(format!("-DLONGEST_TABLES={}", wrapper::LONGEST_TABLES));
    run(compiler.arg(here.join("tests/header.c")).arg(differential::archive()).arg("-o").arg(&program));
    assert_eq!(run(&mut Command::new(&program)), RIGHT);
}

/// Every function on texts that ask for much, in threads whose whole stack is 96 KiB and what a Rust thread itself takes.
#[test]
fn in_96_kib_of_stack() {
    let mut texts = vec![limits::widest(), limits::most_statements(), limits::activations(8), limits::of_length(32_768), limits::most_tallies()];
    texts.extend(limits::limits().into_iter().filter(|l| l.name.starts_with("operators on each path")).map(|l| l.at));
    for text in texts {
        let mut values = reference::read(&text).unwrap().starting_values();
        let (mut image, mut lines) = (vec![0; wrapper::LONGEST_IMAGE], vec![0; wrapper::LONGEST_TABLES]);
        let work = || {
            assert!(wrapper::check(&text).is_ok() && wrapper::compile(&text, &mut image).is_ok());
            assert!(wrapper::statement_fault(&text, 0).is_ok() && !wrapper::statement(&text, 0).is_empty());
            assert!(wrapper::print_tables(&text, &mut lines).is_ok() && wrapper::starting_values(&text, &mut values).is_ok());
            let mut machine = Machine::start(&text, &mut values).unwrap();
            machine.send(0, Target::Domain(0), 0, 1).unwrap();
            while machine.step(0) == Ok(Step::Going) {}
            let _ = machine.abort(0);
        };
        std::thread::scope(|scope| {
            std::thread::Builder::new().stack_size(104 * 1_024).spawn_scoped(scope, work).unwrap().join().unwrap();
        });
    }
}
