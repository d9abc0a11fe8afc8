//! The scripts at the repository's top, in a copy of it where `rt` and `cargo` are stand-ins: this `rt` proves nothing, and builds the
//! second implementation's programs. What the scripts print, what they say beside it, and how they end.

use reference::rehearsal::rehearsed;
use std::fs;
use std::ops::Deref;
use std::os::unix::fs::PermissionsExt;
use std::path::{Path, PathBuf};
use std::process::{Command, Output, Stdio};

const SAMPLE: &str = include_str!("../../../samples/lanes.txt");
const LEFT: &str = include_str!("../../../samples/left-board.calls");
const TABLES: &str = "run shot WN ny\nrun plot NR yy\nlane shot WNW nyn\nlane plot NRN yyy\nlane tune NNW nyn\n";

/// It reads all of its input, as a program that is run by a script might.
const RT: &str = r#"#!/bin/sh
cat > /dev/null
proved() {
    echo "fn $1::one: $2"
    echo "crate $1: modules loaded=0 checked=40"
    echo "logic=$2 functions=1"
}
case $1 in
run | lib)
    [ "$1" != "$FAILS" ] || { proved model not-proved; exit 1; }
    echo "only=0 proved=0"
    proved layout proved
    proved model proved
    mkdir -p out
    [ "$1" = lib ] || cp "$PROGRAMS/${PWD##*/}" out/
    ;;
ci)
    [ "$1" != "$FAILS" ] || { echo "rt: model NOT PROVED"; echo "1 passed, 1 failed"; exit 1; }
    echo "logic=proved functions=1"
    echo "rt: layout is kept: an earlier run on this machine proved the same files over the same libraries"
    echo "rt: model proved"
    echo "rt: model: trying its must-fail edits (1)"
    echo "rt: must-fail model/one.edit: refused, as it must be: it is not proved"
    bad=
    [ "$FAILS" != bad ] || bad=", 1 bad"
    echo "rt: ok; handles allowed: none; must-fail edits: 1 refused$bad; every proof and must-fail edit was done in this run"
    echo "2 passed, 0 failed"
    ;;
esac
"#;

const CARGO: &str = "#!/bin/sh\necho tested\n[ \"$FAILS\" != cargo ]\n";

fn top() -> PathBuf {
    PathBuf::from(env!("CARGO_MANIFEST_DIR")).join("../..")
}

fn program(path: &Path, text: &str) {
    fs::write(path, text).unwrap();
    fs::set_permissions(path, fs::Permissions::from_mode(0o755)).unwrap();
}

/// A folder outside the repository, since rt takes each crates.txt in it for one of its own. It goes with its value.
struct Folder(PathBuf);

impl Deref for Folder {
    type Target = Path;

    fn deref(&self) -> &Path {
        &self.0
    }
}

impl Drop for Folder {
    fn drop(&mut self) {
        let _ = fs::remove_dir_all(&self.0);
    }
}

/// A copy of what the scripts need, under a name that no other test has.
fn copy(name: &str) -> Folder {
    let copy = Folder(std::env::temp_dir().join(format!("cishmolaq-{name}-{}", std::process::id())));
    let _ = fs::remove_dir_all(&*copy);
    for folder in ["host/scripts", "samples", "crates/model/must-fail", "crates/tables", "crates/rehearse", "crates/abi", "tools", "temporary"] {
        fs::create_dir_all(copy.join(folder)).unwrap();
    }
    let files = ["crates.txt", "tables.sh", "rehearse.sh", "test.sh", "host/scripts/program.sh"];
    let boards = ["left", "right", "line", "circle", "tally"].map(|board| format!("samples/{board}-board.calls"));
    let samples = ["samples/lanes.txt", "samples/pair.txt", "samples/tally.txt"];
    for file in files.iter().chain(&samples).copied().chain(boards.iter().map(String::as_str)) {
        fs::copy(top().join(file), copy.join(file)).unwrap_or_else(|e| panic!("{file}: {e}"));
    }
    fs::write(copy.join("crates/model/must-fail/one.edit"), "").unwrap();
    program(&copy.join("tools/rt"), RT);
    program(&copy.join("tools/cargo"), CARGO);
    copy
}

/// Runs a script from another folder; nothing that it made for itself is left. What it prints and says, and how it ends.
fn run(copy: &Path, words: &[&str], input: Option<&str>, fails: &str) -> (String, String, Option<i32>) {
    let path = format!("{}:{}", copy.join("tools").display(), std::env::var("PATH").unwrap());
    let mut command = Command::new("sh");
    command.arg(copy.join(words[0])).args(&words[1..]).current_dir(copy.join("samples"));
    command.env("PATH", path).env("FAILS", fails).env("TMPDIR", copy.join("temporary"));
    command.env("PROGRAMS", Path::new(env!("CARGO_BIN_EXE_rehearse")).parent().unwrap());
    match input {
        Some(calls) => {
            fs::write(copy.join("input"), calls).unwrap();
            command.stdin(fs::File::open(copy.join("input")).unwrap());
        }
        None => drop(command.stdin(Stdio::null())),
    }
    let Output { status, stdout, stderr } = command.output().unwrap();
    assert_eq!(fs::read_dir(copy.join("temporary")).unwrap().count(), 0, "a folder is left");
    (String::from_utf8(stdout).unwrap(), String::from_utf8(stderr).unwrap(), status.code())
}

fn says(said: &str, words: &[&str]) {
    for words in words {
        assert!(said.contains(words), "{words:?} is missing:\n{said}");
    }
}

#[test]
fn tables() {
    let copy = copy("tables");
    let (printed, said, status) = run(&copy, &["tables.sh"], None, "");
    assert_eq!((printed.as_str(), status), (TABLES, Some(0)));
    says(&said, &["tables.sh: proving and building tables: some minutes", "tables.sh: crate 2 of at most ", ": model proved\n"]);
    let (_, said, _) = run(&copy, &["tables.sh", "lanes.txt"], None, "");
    assert!(!said.contains("minutes"), "it is built: {said}");
    let (printed, _, status) = run(&copy, &["tables.sh", "tally.txt"], None, "");
    assert_eq!((printed.as_str(), status), ("lane tally A ynn\nlane plot R nyn\nlane clear W nnn\n", Some(0)));
    let (printed, said, status) = run(&copy, &["tables.sh"], None, "run");
    assert_eq!((printed.as_str(), status), ("", Some(1)));
    says(&said, &["NOT PROVED"]);
    let (printed, said, status) = run(&copy, &["tables.sh", "nowhere"], None, "");
    assert_eq!((printed.as_str(), status), ("", Some(2)));
    says(&said, &["nowhere cannot be read"]);
}

#[test]
fn refusals() {
    let copy = copy("refusals");
    let long = "x".repeat(32_769);
    for (text, refused, words) in [
        ("class a\nfield x\nfield x\n", "refused 13 3\n", &["13: a name is repeated", "line 3: field x\n"]),
        ("class a\r\n", "refused 12 1\n", &["12: a line of no allowed form", "line 1: class a?\n"]),
        ("class a\nclass b\r\n", "refused 12 2\n", &["line 2: class b?\n", "the text: lines end with LF alone, and some here end with CR LF\n"]),
        ("class\nclass b\r\n", "refused 12 1\n", &["line 1: class\n", "some here end with CR LF\n"]),
        ("class a\nclass b", "refused 12 2\n", &["a last line without LF", "line 2: class b\n"]),
        ("class a\nmethod m\n", "refused 12 3\n", &["a method without end", "line 3: the text has ended\n"]),
        (&long, "refused 11 0\n", &["11: the text has more than 32,768 bytes\n", ""]),
    ] {
        fs::write(copy.join("samples/faulty"), text).unwrap();
        for (script, input) in [("tables.sh", None), ("rehearse.sh", Some("step 0\n"))] {
            let (printed, said, status) = run(&copy, &[script, "faulty"], input, "");
            assert_eq!((printed.as_str(), status), (refused, Some(1)), "{script}");
            says(&said, words);
            assert_eq!(said.contains("CR LF"), text.contains("\r\n"), "{script} says: {said}");
        }
    }
    // An object whose line looks like a refusal.
    fs::write(copy.join("samples/good"), "class a\nfield x\nfield y\nobject refused a 13 3\n").unwrap();
    let (printed, said, status) = run(&copy, &["rehearse.sh", "good"], Some(""), "");
    assert_eq!((printed.as_str(), status), ("refused 13 3\n", Some(0)));
    assert!(!said.contains("13: "), "{said}");
}

/// The call lines in a file, by its name from the folder where the script is run; what standard input has is not read then.
#[test]
fn call_lines_of_a_file() {
    let copy = copy("call_lines_of_a_file");
    let right = rehearsed(SAMPLE.as_bytes(), LEFT.as_bytes());
    for input in [None, Some("step 0\n")] {
        let (printed, said, status) = run(&copy, &["rehearse.sh", "lanes.txt", "left-board.calls"], input, "");
        assert_eq!((&printed, status), (&right, Some(0)));
        assert!(!said.contains("CR LF") && !said.contains("please"), "{said}");
    }
    fs::write(copy.join("samples/other.calls"), "step 0\r\nstep 0\n").unwrap();
    let (printed, said, status) = run(&copy, &["rehearse.sh", "lanes.txt", "other.calls"], None, "");
    assert_eq!((printed.as_str(), status), ("51\n32\nlane1 0 0 0\n", Some(0)));
    says(&said, &["rehearse.sh: other.calls: lines end with LF alone, and some here end with CR LF\n"]);
    for name in ["nowhere", "../samples"] {
        let (printed, said, status) = run(&copy, &["rehearse.sh", "lanes.txt", name], Some("step 0\n"), "");
        assert_eq!((printed.as_str(), status), ("", Some(2)));
        says(&said, &[&format!("{name} cannot be read")]);
    }
}

/// How a script is used: printed where it is asked for, said where there are too many words. Nothing is proved.
#[test]
fn help() {
    let copy = copy("help");
    for (script, first, most) in [("tables.sh", "Use: ./tables.sh [FILE]\n", 1), ("rehearse.sh", "Use: ./rehearse.sh [LIB [CALLS]]\n", 2)] {
        let (printed, said, status) = run(&copy, &[script, "--help"], None, "run");
        assert_eq!((said.as_str(), status), ("", Some(0)));
        assert!(printed.starts_with(first) && printed.contains("\nEnds with 0; ") && !printed.contains('#'), "{printed}");
        let words = [&[script][..], &vec!["lanes.txt"; most + 1]].concat();
        let (nothing, said, status) = run(&copy, &words, None, "run");
        assert_eq!((nothing.as_str(), said, status), ("", printed, Some(2)));
    }
}

#[test]
fn rehearse() {
    let copy = copy("rehearse");
    let right = rehearsed(SAMPLE.as_bytes(), LEFT.as_bytes());
    for words in [&["rehearse.sh"][..], &["rehearse.sh", "lanes.txt"]] {
        let (printed, _, status) = run(&copy, words, Some(LEFT), "");
        assert_eq!((&printed, status), (&right, Some(0)));
    }
    let (printed, said, _) = run(&copy, &["rehearse.sh", "lanes.txt"], None, "");
    assert_eq!(printed, "lane1 0 0 0\n");
    says(&said, &["rehearse.sh: crate 2 of at most "]);
    let (printed, _, status) = run(&copy, &["rehearse.sh"], None, "");
    assert_eq!(status, Some(0));
    says(&printed, &["samples/left-board.calls\nsend 0 lane1 shot 40    ok\n", "\n                        lane1 1 0 40\n"]);
    says(&printed, &["samples/right-board.calls\n", "send 1 lane1 tune 5     40 0\n", "\n                        lane1 1 0 45\n"]);
    says(&printed, &["samples/line-board.calls\n", "send 2 lane1 tune 5     40 0\n", "step 2                  37\n"]);
    says(&printed, &["samples/circle-board.calls\n", "send 1 lane1 tune 5     42\n", "\n                        lane2 0 0 25\n"]);
    says(&printed, &["samples/tally-board.calls\n", "send 2 lane1 plot 0     40 0\n", "\n                        lane1 95\n"]);
}

#[test]
fn test() {
    let copy = copy("test");
    let (printed, said, status) = run(&copy, &["test.sh"], None, "");
    assert!(printed.ends_with("\ntested\n2 passed, 0 failed\n"), "{printed}");
    assert_eq!(status, Some(0));
    says(&said, &["test.sh: 1 of 3: ", "test.sh: crate 2 of ", ": model proved\n", "test.sh: edit 1 of 1: model/one.edit: refused", "test.sh: 3 of 3: "]);
    let (printed, _, status) = run(&copy, &["test.sh"], None, "cargo");
    assert!(!printed.contains("passed") && status != Some(0), "{status:?}: {printed}");
    let (printed, _, status) = run(&copy, &["test.sh"], None, "ci");
    assert!(printed.ends_with("1 passed, 1 failed\n") && !printed.contains("tested"), "{printed}");
    assert_eq!(status, Some(1));
    for fails in ["bad", "lib"] {
        let (printed, _, status) = run(&copy, &["test.sh"], None, fails);
        assert!(!printed.contains("passed") && !printed.contains("tested"), "{printed}");
        assert_eq!(status, Some(1), "{fails}");
    }
}
