//! Damaged texts: bytes flipped, lines removed, doubled and exchanged, words exchanged, numbers at their edges.

use crate::Random;

fn lines(text: &[u8]) -> Vec<Vec<u8>> {
    text.split_inclusive(|&b| b == b'\n').map(|l| l.to_vec()).collect()
}

const WORDS: [&str; 24] = [
    "class", "field", "method", "end", "object", "set", "send", "to", "self", "reply", "when", "arg", "got", "add", "level", "+",
    "=", "4294967295", "4294967296", "00", "a.b", "a", "abcdefghijklmnop", "abcdefghijklmnopq",
];

/// The text with one to three damages.
pub fn damaged(random: &mut Random, text: &[u8]) -> Vec<u8> {
    let mut text = text.to_vec();
    for _ in 0..1 + random.below(3) {
        text = once(random, &text);
    }
    text
}

fn once(random: &mut Random, text: &[u8]) -> Vec<u8> {
    let mut rows = lines(text);
    if rows.is_empty() {
        return random.pick(&[&b"\n"[..], b"end\n", b"class a", b"object a b\n"]).to_vec();
    }
    let k = random.below(rows.len());
    match random.below(16) {
        0 => {
            let mut text = text.to_vec();
            let at = random.below(text.len());
            text[at] = *random.pick(b"\0\r\t \nAaz_09.:+-*<=\x80\xff");
            return text;
        }
        1 => {
            let mut text = text.to_vec();
            text.truncate(random.below(text.len()));
            return text;
        }
        2 => {
            rows.remove(k);
        }
        3 => rows.insert(k, rows[k].clone()),
        4 => {
            let other = random.below(rows.len());
            rows.swap(k, other);
        }
        5 => {
            let other = random.below(rows.len());
            let line = rows[other].clone();
            rows.insert(k, line);
        }
        6 => {
            let at = random.below(rows[k].len());
            rows[k].remove(at);
        }
        7 => {
            let at = random.below(rows[k].len());
            let byte = *random.pick(b" abc019\n");
            rows[k].insert(at, byte);
        }
        8 | 9 => return words_exchanged(random, rows, k),
        10 => return prefix_exchanged(random, rows),
        11 => return parent_added(random, rows),
        _ => return names_exchanged(random, rows, k),
    }
    rows.concat()
}

/// A word of line k replaced: by one of another line, or by a word that is odd there.
fn words_exchanged(random: &mut Random, mut rows: Vec<Vec<u8>>, k: usize) -> Vec<u8> {
    let other = random.below(rows.len());
    let (mut words, others) = (split(&rows[k]), split(&rows[other]));
    let at = random.below(words.len());
    words[at] = if random.one_in(2) { random.pick(&others).clone() } else { random.pick(&WORDS).as_bytes().to_vec() };
    rows[k] = joined(words);
    rows.concat()
}

fn split(row: &[u8]) -> Vec<Vec<u8>> {
    row.strip_suffix(b"\n").unwrap_or(row).split(|&b| b == b' ').map(|w| w.to_vec()).collect()
}

fn is_name(word: &[u8]) -> bool {
    std::str::from_utf8(word).ok().and_then(reference::syntax::name).is_some()
}

fn joined(words: Vec<Vec<u8>>) -> Vec<u8> {
    let mut row = words.join(&b' ');
    row.push(b'\n');
    row
}

/// A name of line k replaced by another name of the text: the form stays.
fn names_exchanged(random: &mut Random, mut rows: Vec<Vec<u8>>, k: usize) -> Vec<u8> {
    let names: Vec<Vec<u8>> = rows.iter().flat_map(|r| split(r)).filter(|w| is_name(w)).collect();
    let mut words = split(&rows[k]);
    let places: Vec<usize> = (0..words.len()).filter(|&i| is_name(&words[i])).collect();
    if !places.is_empty() {
        words[*random.pick(&places)] = random.pick(&names).clone();
        rows[k] = joined(words);
    }
    rows.concat()
}

/// The class of a prefixed send replaced by another class of the text.
fn prefix_exchanged(random: &mut Random, mut rows: Vec<Vec<u8>>) -> Vec<u8> {
    let classes: Vec<Vec<u8>> = rows.iter().map(|r| split(r)).filter(|w| w[0] == b"class" && w.len() > 1).map(|w| w[1].clone()).collect();
    let prefixed: Vec<usize> = (0..rows.len()).filter(|&k| rows[k].contains(&b'.')).collect();
    if !classes.is_empty() && !prefixed.is_empty() {
        let k = *random.pick(&prefixed);
        let mut words = split(&rows[k]);
        for word in words.iter_mut() {
            if let Some(at) = word.iter().position(|&b| b == b'.') {
                *word = [random.pick(&classes), &word[at..]].concat();
            }
        }
        rows[k] = joined(words);
    }
    rows.concat()
}

/// One more parent for a class: another class of the text.
fn parent_added(random: &mut Random, mut rows: Vec<Vec<u8>>) -> Vec<u8> {
    let lines: Vec<usize> = (0..rows.len()).filter(|&k| rows[k].starts_with(b"class ")).collect();
    if !lines.is_empty() {
        let k = *random.pick(&lines);
        let mut words = split(&rows[k]);
        if words.len() == 2 {
            words.push(b":".to_vec());
        }
        let parent = split(&rows[*random.pick(&lines)]);
        words.push(parent.get(1).cloned().unwrap_or_default());
        rows[k] = joined(words);
    }
    rows.concat()
}

/// What is wrong with `add`: its form, a field that nobody has, its use as a name. Some are right in a class with a field x.
const ADDS: [&str; 17] = [
    "add", "add x", "add 1 1", "add x 1 1", "add x + 1", "add add 1", "add arg 1", "add x add", "add x got", "when x add x x", "when 1 add x",
    "add x when 1", "add nobody 1", "add x nobody", "when nobody add x 1", "when add reply 1", "set add 1",
];
const NAMED_ADD: [&str; 6] = ["class add", "field add", "method add", "class zz : add", "object add a", "object zz add"];

/// A line with an `add` that is wrong, in a body or anywhere.
fn add_misused(random: &mut Random, mut rows: Vec<Vec<u8>>) -> Vec<u8> {
    let ends: Vec<usize> = (0..rows.len()).filter(|&k| rows[k] == b"end\n").collect();
    let (at, line) = if ends.is_empty() || random.one_in(4) {
        (random.below(rows.len() + 1), *random.pick(&NAMED_ADD))
    } else {
        (*random.pick(&ends), *random.pick(&ADDS))
    };
    rows.insert(at, format!("{line}\n").into_bytes());
    rows.concat()
}

/// The text with a fault that chance seldom meets: 15, 16, 17 or 11, or one of `add`.
pub fn aimed(random: &mut Random, text: &[u8]) -> Vec<u8> {
    let mut rows = lines(text);
    let at = |word: &[u8]| (0..rows.len()).filter(|&k| rows[k].starts_with(word)).collect::<Vec<usize>>();
    let (classes, methods, ends, objects) = (at(b"class "), at(b"method "), at(b"end\n"), at(b"object "));
    let below_classes = objects.first().copied().unwrap_or(rows.len());
    let numbered = |line: &str| (0..65).map(|k| format!("{line}{k}\n")).collect::<String>();
    match random.below(8) {
        7 => return add_misused(random, rows),
        0 => rows.insert(below_classes, b"class yy\nfield f\nclass yz\nfield f\nclass zz : yy yz\n".to_vec()),
        1 if !ends.is_empty() => {
            let method = *random.pick(&methods);
            let class = classes.iter().rev().find(|&&c| c < method).expect("a class above its methods");
            let line = format!("send {}.{} to self 1\n", second(&rows[*class]), second(&rows[method]));
            rows.insert(*random.pick(&ends), line.into_bytes());
        }
        2 if !methods.is_empty() => rows.insert(random.pick(&methods) + 1, b"reply 1\n".repeat(33)),
        3 if !classes.is_empty() => rows.insert(random.pick(&classes) + 1, numbered("field zz").into_bytes()),
        4 if !objects.is_empty() => {
            let k = *random.pick(&objects);
            rows[k] = [&rows[k][..rows[k].len() - 1], &b" 1".repeat(33), b"\n"].concat();
        }
        5 => rows.insert(below_classes, numbered("class zz").into_bytes()),
        _ => rows.push(numbered("object zz").repeat(48).into_bytes()),
    }
    rows.concat()
}

/// The second word of a line.
fn second(row: &[u8]) -> String {
    String::from_utf8_lossy(&split(row)[1]).into_owned()
}

/// A text of random bytes, with a liking for the text's own.
pub fn noise(random: &mut Random) -> Vec<u8> {
    (0..random.below(60)).map(|_| *random.pick(b"class fieldmethodend\n\n:abc 01+\0\xff")).collect()
}
