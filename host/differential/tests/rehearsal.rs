//! The program `rehearse` beside the second implementation's rehearsal: the vectors, lines of every form, each kind of `lib.txt`,
//! input in parts, and generated lists. CISHMOLAQ_REHEARSALS sets how many are generated, CISHMOLAQ_REHEARSE another program.

use differential::rehearsal::{printed, printed_in_parts, Lib, Run};
use differential::{amount, each_seed};
use generate::calls::text_to_call;
use generate::limits::of_length;
use generate::lines::odd_list;
use generate::Random;
use reference::rehearsal::rehearsed;
use reference::stored;
use std::collections::BTreeMap;

const SAMPLE: &[u8] = include_bytes!("../../../samples/lanes.txt");

fn shown(bytes: &[u8]) -> String {
    String::from_utf8_lossy(&bytes[..bytes.len().min(2_000)]).into_owned()
}

/// Compares what the program prints with what is right.
fn compare(found: &[u8], right: &[u8], text: &[u8], calls: &[u8]) {
    let same = found.iter().zip(right).take_while(|(a, b)| a == b).count();
    let line = right[..same].iter().filter(|&&b| b == b'\n').count() + 1;
    let about = |bytes: &[u8]| shown(bytes.split(|&b| b == b'\n').nth(line - 1).unwrap_or_default());
    assert!(
        found == right,
        "line {line} of the output is {:?} and not {:?}; the call line is {:?}\ntext:\n{}\ncalls:\n{}",
        about(found),
        about(right),
        about(calls),
        shown(text),
        shown(calls)
    );
}

#[test]
fn vectors() {
    let numbers = stored::numbers("calls");
    each_seed(numbers.len() as u64, |k| {
        let n = numbers[k as usize];
        let (text, calls) = (stored::bytes_if_any(n, "txt"), stored::bytes(n, "calls"));
        let lib = text.as_ref().map_or(Lib::Missing, |text| Lib::Text(text));
        for parts in [vec![&calls[..]], in_parts(&mut Random::new(n), &calls)] {
            compare(&printed_in_parts(lib, parts), &stored::bytes(n, "out"), text.as_deref().unwrap_or_default(), &calls);
        }
    });
}

/// Lines on the sample, each with what must be printed for it: slots, the form of a line, names.
const FORMS: &[(&str, &str)] = &[
    ("step 0", "32"),
    ("step 7", "32"),
    ("step 8", "31"),
    ("step 4294967295", "31"),
    ("step 4294967296", "51"),
    ("step 99999999999999999999", "51"),
    ("step 00", "51"),
    ("step 01", "51"),
    ("step -1", "51"),
    ("step +1", "51"),
    ("step 1x", "51"),
    ("step x", "51"),
    ("commit 0", "32"),
    ("commit 8", "31"),
    ("abort 7", "32"),
    ("abort 8", "31"),
    ("", "51"),
    (" ", "51"),
    ("step", "51"),
    ("step ", "51"),
    ("step 1 ", "51"),
    (" step 1", "51"),
    ("step  1", "51"),
    ("step 1 1", "51"),
    ("step1", "51"),
    ("steps 1", "51"),
    ("ste 1", "51"),
    ("STEP 1", "51"),
    ("start 1", "51"),
    ("open 1", "51"),
    ("step\t1", "51"),
    ("step 1\r", "51"),
    ("step 1\0", "51"),
    ("\0", "51"),
    ("step 1\u{e9}", "51"),
    ("commit", "51"),
    ("commit  0", "51"),
    ("commit 0 ", "51"),
    ("commit 00", "51"),
    ("abort", "51"),
    (" abort 0", "51"),
    ("abort 0 0", "51"),
    ("abort 4294967296", "51"),
    ("send 8 nobody shot 1", "31"),
    ("send 0 nobody shot 1", "36"),
    ("send 0 lane1 nobody 1", "36"),
    ("send 0 lane1 lane1 1", "36"),
    ("send 0 lane shot 1", "36"),
    ("all 0 lane1 shot 1", "36"),
    ("all 0 nobody shot 1", "36"),
    ("all 0 run tune 1", "36"),
    ("tree 0 lane1 shot 1", "36"),
    ("tree 0 nobody nobody 1", "36"),
    ("tree 0 run tune 1", "36"),
    ("send 0 abcdefghijklmnop shot 1", "36"),
    ("send 0 abcdefghijklmnopq shot 1", "51"),
    ("send 0 lane1 abcdefghijklmnop 1", "36"),
    ("send 0 lane1 abcdefghijklmnopq 1", "51"),
    ("send 0 Lane1 shot 1", "51"),
    ("send 0 1ane shot 1", "51"),
    ("send 0 _lane shot 1", "51"),
    ("send 0 0 shot 1", "51"),
    ("send 0 lane-1 shot 1", "51"),
    ("send 0 lane1 run.shot 1", "51"),
    ("send 0", "51"),
    ("send 0 lane1", "51"),
    ("send 0 lane1 shot", "51"),
    ("send 0 lane1 shot 1 1", "51"),
    ("send 0 lane1  shot 1", "51"),
    ("send 0  shot 1", "51"),
    ("send lane1 0 shot 1", "51"),
    ("some 0 lane1 shot 1", "51"),
    ("step 0 lane1 shot 1", "51"),
    ("send 0 lane1 shot arg", "51"),
    ("send 0 lane1 shot 01", "51"),
    ("send 0 lane1 shot 4294967296", "51"),
    ("send 00 lane1 shot 1", "51"),
    ("send 4294967296 lane1 shot 1", "51"),
    ("tree 4294967295 abcdefghijklmnop abcdefghijklmnop 4294967295", "31"),
    ("tree 4294967295 abcdefghijklmnop abcdefghijklmnop 42949672950", "51"),
    ("step 0", "32"),
];

/// The machine's answers, with odd lines while messages run.
const ANSWERS: &[(&str, &str)] = &[
    ("send 0 lane1 shot 4294967295", "ok"),
    ("send 0 nobody shot 1", "34"),
    ("send 0 lane1 shot 01", "51"),
    ("commit 0", "34"),
    ("send 3 lane1 tune 5", "40 0"),
    ("step 3", "37"),
    ("all 3 lane tune 5", "37"),
    ("commit 3", "37"),
    ("tree 3 nobody shot 5", "37"),
    ("send 3 lane1 nobody 5", "37"),
    ("send 3 lane1 nobody 05", "51"),
    ("abort 3", "ok"),
    ("abort 3", "32"),
    ("all 4 lane tune 5", "40 0"),
    ("abort 4", "ok"),
    ("tree 3 run plot 5", "ok"),
    ("send 3 lane1 tune 5", "34"),
    ("step 3", "going"),
    ("step 0", "going"),
    ("step 3", "answer 0"),
    ("step 0", "going"),
    ("step 0", "going"),
    ("step 0 0", "51"),
    ("step 0", "going"),
    ("step 0", "answer 0"),
    ("step 0", "35"),
    ("send 3 lane1 tune 2", "40 0"),
    ("send 2 lane1 tune 7", "40 0"),
    ("commit 0", "ok"),
    ("step 2", "37"),
    ("send 3 lane1 tune 2", "34"),
    ("step 3", "going"),
    ("step 3", "answer 0"),
    ("send 3 lane1 shot 1", "42"),
    ("send 3 nobody shot 1", "36"),
    ("all 3 lane tune 1", "42"),
    ("all 3 lane tune 01", "51"),
    ("step 2", "37"),
    ("all 5 run shot 1", "ok"),
    ("step 5", "answer 0"),
];

/// One list of all these lines, with reserved words as names, bytes that are no text, and long lines in between.
fn lines() -> Vec<(Vec<u8>, &'static str)> {
    let written = |table: &[(&str, &'static str)]| table.iter().map(|(line, right)| (line.as_bytes().to_vec(), *right)).collect::<Vec<_>>();
    let mut lines = written(FORMS);
    for word in "class field method end object set send to self reply when arg got add level".split(' ') {
        lines.push((format!("send 0 {word} shot 1").into_bytes(), "51"));
        lines.push((format!("all 0 lane {word} 1").into_bytes(), "51"));
    }
    for line in [&b"\xff"[..], b"step 1\xff", b"\x80tep 1", b"send 0 lane\xc3 shot 1"] {
        lines.push((line.to_vec(), "51"));
    }
    for (front, byte) in [("step 0", b' '), ("step 0", b'0'), ("", b'x'), ("step 1 ", b'1'), ("", b' '), ("send 0 lane1 shot ", b'0')] {
        for size in [50, 60, 70, 128, 256, 4_096, 65_536, 100_000] {
            lines.push(([front.as_bytes(), &vec![byte; size]].concat(), "51"));
        }
    }
    lines.extend(written(ANSWERS));
    lines
}

#[test]
fn every_form() {
    let calls: Vec<u8> = lines().iter().flat_map(|(line, _)| [line, &b"\n"[..]].concat()).collect();
    let answers: String = lines().iter().map(|(_, right)| format!("{right}\n")).collect();
    // The tune of slot 3 is open, and its value shows.
    let right = answers + "lane1 1 0 1\n";
    compare(rehearsed(SAMPLE, &calls).as_bytes(), right.as_bytes(), SAMPLE, &calls);
    compare(&printed(Lib::Text(SAMPLE), &calls), right.as_bytes(), SAMPLE, &calls);
}

/// Each line without an LF, as the last of the input.
#[test]
fn last_lines_without_lf() {
    let last = ["s", "step 0", "step 1", "commit 0", "abort 0", " ", "\r", "\0", "send 0 lane1 shot 1", "send 1 lane1 plot 1"];
    for line in last {
        let calls = format!("send 0 lane1 tune 5\nstep 0\n{line}");
        compare(&printed(Lib::Text(SAMPLE), calls.as_bytes()), b"ok\ngoing\n51\nlane1 0 0 5\n", SAMPLE, calls.as_bytes());
    }
    assert_eq!(printed(Lib::Text(SAMPLE), &[b'x'; 100_000]), b"51\nlane1 0 0 0\n");
    assert_eq!(printed(Lib::Text(SAMPLE), b"send 0 lane1 tune 5"), b"51\nlane1 0 0 0\n");
    assert_eq!(printed(Lib::Text(SAMPLE), b""), b"lane1 0 0 0\n");
}

#[test]
fn kinds_of_lib() {
    let calls = b"send 0 lane1 shot 40\nall 0 lane shot 40\nstep 0\n\nabort 0\n";
    let answers = "36\n36\n32\n51\n32\n";
    let past = of_length(32_769);
    let long = [SAMPLE.to_vec(), b"object lane2 lane\n".repeat(60_000)].concat();
    // What is printed for the calls, and what after them.
    for (lib, answers, last) in [
        (Lib::Missing, answers, ""),
        (Lib::Folder, answers, ""),
        (Lib::Text(b""), answers, ""),
        (Lib::Text(b"class a\nobject o a\nobject refused a\n"), answers, "o\nrefused\n"),
        (Lib::Text(b"\n"), "", "refused 12 1\n"),
        (Lib::Text(&SAMPLE[..SAMPLE.len() - 1]), "", "refused 12 19\n"),
        (Lib::Text(b"class a\nfield x\nfield x\n"), "", "refused 13 3\n"),
        (Lib::Text(b"object lane1 lane\n"), "", "refused 14 1\n"),
        (Lib::Text(&past), "", "refused 11 0\n"),
        (Lib::Text(&[b'\n'; 32_769]), "", "refused 11 0\n"),
        (Lib::Text(&[0; 40_000]), "", "refused 11 0\n"),
        (Lib::Text(&long), "", "refused 11 0\n"),
    ] {
        assert_eq!(shown(&printed(lib, calls)), format!("{answers}{last}"));
        assert_eq!(shown(&printed(lib, b"")), last);
    }
    let whole = of_length(32_768);
    let calls = b"all 0 a m0 3\nstep 0\nstep 0\n";
    compare(&printed(Lib::Text(&whole), calls), rehearsed(&whole, calls).as_bytes(), &whole, calls);
    // A refused text: whatever the calls, they are not run.
    assert_eq!(printed(Lib::Text(b"end\n"), &b"step 0\n".repeat(50_000)), b"refused 12 1\n");
}

/// Each line is answered before the next is written, and lines that come together are answered together.
#[test]
fn answers_as_it_goes() {
    let calls = ["send 0 lane1 tune 5", "step 0", "nonsense", "step 0", "commit 0"];
    let right = ["ok\n", "going\n", "51\n", "answer 0\n", "ok\n"];
    let mut run = Run::start(Lib::Text(SAMPLE));
    for (line, right) in calls.iter().zip(right) {
        run.write(format!("{line}\n").as_bytes());
        assert_eq!(run.line(), right, "{line}");
    }
    assert_eq!(run.end(), (right.concat() + "lane1 0 0 5\n").as_bytes());

    let mut run = Run::start(Lib::Text(SAMPLE));
    run.write(b"send 0 lane1 tune 5\nstep 8\nste");
    assert_eq!([run.line(), run.line()], ["ok\n", "31\n"]);
    run.write(b"p 0");
    run.write(b"\ncom");
    assert_eq!(run.line(), "going\n");
    assert_eq!(run.end(), b"ok\n31\ngoing\n51\nlane1 0 0 5\n");
}

/// The input cut at a few places, some of them next to an LF.
fn in_parts<'a>(random: &mut Random, calls: &'a [u8]) -> Vec<&'a [u8]> {
    let ends: Vec<usize> = (0..calls.len()).filter(|&at| calls[at] == b'\n').collect();
    let mut cuts: Vec<usize> = (0..random.below(12)).map(|_| random.below(calls.len() + 1)).collect();
    if !ends.is_empty() {
        cuts.extend((0..random.below(6)).map(|_| random.pick(&ends) + random.below(2)));
    }
    cuts.extend([0, calls.len()]);
    cuts.sort_unstable();
    cuts.windows(2).map(|pair| &calls[pair[0]..pair[1]]).collect()
}

#[test]
fn every_cut_in_two() {
    // The longest line that is a call, and one that is longer by a digit.
    let long = "tree 4294967295 abcdefghijklmnop abcdefghijklmnop 4294967295";
    let calls = format!("send 0 lane1 shot 40\n\nstep 0\n{long}\n{long}0\nsend 1 lane1 tune 5\nstep 0 \nstep 1\nstep 0");
    let right = "ok\n51\ngoing\n31\n51\n40 0\n51\n37\n51\nlane1 0 0 0\n";
    each_seed(calls.len() as u64 + 1, |cut| {
        let (front, back) = calls.as_bytes().split_at(cut as usize);
        compare(&printed_in_parts(Lib::Text(SAMPLE), [front, back]), right.as_bytes(), SAMPLE, calls.as_bytes());
    });
}

/// A short input in each of its 512 ways to be cut.
#[test]
fn every_way_to_cut() {
    let calls = b"step 8\n\nx\n";
    each_seed(1 << (calls.len() - 1), |cuts| {
        let ends = (1..=calls.len()).filter(|&at| at == calls.len() || cuts >> (at - 1) & 1 == 1);
        let mut from = 0;
        let parts = ends.map(|end| &calls[std::mem::replace(&mut from, end)..end]);
        compare(&printed_in_parts(Lib::Text(SAMPLE), parts), b"31\n51\n51\nlane1 0 0 0\n", SAMPLE, calls);
    });
}

#[test]
fn byte_by_byte() {
    let calls = odd_list(&mut Random::new(5), &reference::read(SAMPLE).unwrap(), 60);
    let calls = &calls[..calls.len().min(3_000)];
    compare(&printed_in_parts(Lib::Text(SAMPLE), calls.chunks(1)), rehearsed(SAMPLE, calls).as_bytes(), SAMPLE, calls);
}

/// 16 megabytes of lines, and of one line, take no more memory than the first of them. (The kernel's count of pages is not exact.)
#[test]
fn memory_does_not_grow() {
    let lines = b"send 0 lane1 shot 40\nstep 0\nnonsense\nabort 0\n".repeat(2_300);
    let line = [b'x'; 100_000];
    let mut run = Run::start(Lib::Text(SAMPLE));
    run.write(&line);
    run.write(b"\n");
    run.write(&lines);
    let before = run.peak();
    (0..160).for_each(|_| run.write(&lines));
    (0..160).for_each(|_| run.write(&line));
    let after = run.peak();
    assert!(after < before + 1_024, "{before} KiB, then {after} KiB");
    run.end();
}

/// One generated list, whole or in parts: what was printed.
fn generated(seed: u64) -> Vec<u8> {
    let mut random = Random::new(seed + 3_000_000);
    let text = text_to_call(&mut random);
    let library = reference::read(&text).expect("an accepted text");
    let calls = odd_list(&mut random, &library, 150);
    let parts = if seed % 3 == 0 { vec![&calls[..]] } else { in_parts(&mut random, &calls) };
    let found = printed_in_parts(Lib::Text(&text), parts);
    compare(&found, rehearsed(&text, &calls).as_bytes(), &text, &calls);
    found
}

#[test]
fn generated_lists() {
    let count = amount("CISHMOLAQ_REHEARSALS", 600);
    let mut answers: BTreeMap<String, u64> = BTreeMap::new();
    for printed in each_seed(count, generated) {
        for line in String::from_utf8(printed).unwrap().lines() {
            *answers.entry(line.split(' ').next().unwrap().into()).or_insert(0) += 1;
        }
    }
    answers.retain(|word, _| word.parse::<u32>().is_ok() || ["ok", "going", "answer"].contains(&word.as_str()));
    println!("{count} lists by answer: {answers:?}");
    if count < 300 {
        return;
    }
    for word in ["ok", "going", "answer", "31", "32", "34", "35", "36", "37", "40", "41", "42", "51"] {
        assert!(answers.get(word).copied().unwrap_or(0) >= count / 2, "{word} is rare: {answers:?}");
    }
}
