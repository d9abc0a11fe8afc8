//! The examples of document 01 without a star, and forms with `add` (document 02, Ticket 6), on the library and on the second
//! implementation.

use generate::limits::of_length;

/// The verdict that both must give: (0, 0), or the number and the line.
fn verdict(text: &[u8], right: (u32, usize)) {
    let library = wrapper::check(text).err().map_or((0, 0), |f| (f.number, f.line));
    let second = reference::read(text).err().map_or((0, 0), |f| (f.number, f.line));
    let shown = String::from_utf8_lossy(&text[..text.len().min(400)]);
    assert_eq!(library, right, "the library on\n{shown}");
    assert_eq!(second, right, "the second implementation on\n{shown}");
}

#[test]
fn name_of_16_bytes() {
    verdict(b"class abcdefghijklmnop\n", (0, 0));
    verdict(b"class abcdefghijklmnopq\n", (12, 1));
}

#[test]
fn field_32() {
    let fields = |n: usize| (0..n).map(|k| format!("field f{k}\n")).collect::<String>();
    verdict(format!("class a\n{}", fields(32)).as_bytes(), (0, 0));
    verdict(format!("class a\n{}", fields(33)).as_bytes(), (17, 34));
}

#[test]
fn operators_8_deep() {
    let deep = |n: usize| format!("class a\nmethod m\nreply {}1\nend\n", "+ 1 ".repeat(n));
    verdict(deep(8).as_bytes(), (0, 0));
    verdict(deep(9).as_bytes(), (12, 3));
}

#[test]
fn text_of_32768_bytes() {
    verdict(&of_length(32_768), (0, 0));
    verdict(&of_length(32_769), (11, 0));
    verdict(&b"\n".repeat(32_769), (11, 0));
}

#[test]
fn form_before_names() {
    let text = "class a\nclass b : nobody\nfield x\nmethod m\nreply x\nend\nmethod n\nend\nmethod\n";
    verdict(text.as_bytes(), (12, 9));
}

/// Lines in no form or place, and each of 13 to 16.
#[test]
fn forms_and_names() {
    let body = |line: &str| format!("class a\nfield x\nmethod m\n{line}\nend\n");
    for (line, right) in [
        ("class level", (12, 1)),
        ("class add", (12, 1)),
        ("class a\nfield add", (12, 2)),
        ("class a\nmethod add\nend", (12, 2)),
        ("class a\nobject add a", (12, 2)),
        ("class a\nfield x\nadd x 1", (12, 3)),
        ("class  a", (12, 1)),
        ("class a :", (12, 1)),
        ("class a : b b", (13, 1)),
        ("class a : a", (14, 1)),
        ("object o a", (14, 1)),
        ("class a\nclass a", (13, 2)),
        ("class a\nfield x\nclass b : a\nfield x", (13, 4)),
        ("class a\nfield x\nclass b\nfield x\nclass c : a b", (15, 5)),
        ("class r\nfield x\nclass a : r\nclass b : r\nclass c : a b", (0, 0)),
        ("class b\nmethod m\nend\nclass a\nmethod m\nsend b.m to self 0\nend", (16, 6)),
        ("class a\nmethod m\nreply 1", (12, 4)),
        ("class a\nmethod m\nfield x\nend", (12, 3)),
        ("class a\nmethod m\nend\nfield x", (12, 4)),
    ] {
        verdict(format!("{line}\n").as_bytes(), right);
    }
    for (line, right) in [
        ("add x 1", (0, 0)),
        ("add x x", (0, 0)),
        ("when x add x + arg got", (0, 0)),
        ("add y 1", (14, 4)),
        ("add x y", (14, 4)),
        ("when y add x 1", (14, 4)),
        ("add m 1", (14, 4)),
        ("add", (12, 4)),
        ("add x", (12, 4)),
        ("add x ", (12, 4)),
        ("add  x 1", (12, 4)),
        ("add 1 1", (12, 4)),
        ("add x 1 1", (12, 4)),
        ("add x + 1", (12, 4)),
        ("add add 1", (12, 4)),
        ("add set 1", (12, 4)),
        ("add arg 1", (12, 4)),
        ("add x add", (12, 4)),
        ("add x 1 when 1", (12, 4)),
        ("adds x 1", (12, 4)),
        ("ad x 1", (12, 4)),
        ("ADD x 1", (12, 4)),
        ("when x when x reply 1", (12, 4)),
        ("when x", (12, 4)),
        ("reply 4294967295", (0, 0)),
        ("reply 4294967296", (12, 4)),
        ("reply 01", (12, 4)),
        ("send a.b.c to self 0", (12, 4)),
        ("send n to self 0", (14, 4)),
        ("when y reply 1", (14, 4)),
        ("send a.m to self 0", (16, 4)),
        ("send a.n to self 0", (14, 4)),
    ] {
        verdict(body(line).as_bytes(), right);
    }
    verdict(b"\n", (12, 1));
    verdict(b"class a", (12, 1));
}

/// The image that both must give: its length and its pairs.
fn pairs(text: &[u8], length: usize, pairs: [u32; 8]) {
    let mut image = [0xff; 200];
    assert_eq!(wrapper::compile(text, &mut image), Ok(length));
    let pairs: Vec<u8> = pairs.iter().flat_map(|n| n.to_le_bytes()).collect();
    assert_eq!(image[..32], pairs);
    assert_eq!(reference::image::image(text).unwrap(), image[..length]);
    assert!(image[length..].iter().all(|&byte| byte == 0xff), "bytes past the image are altered");
}

/// What both must print.
fn printed(text: &[u8], right: &str) {
    let mut out = [0; 200];
    let size = wrapper::print_tables(text, &mut out).unwrap();
    assert_eq!(&out[..size], right.as_bytes());
    assert_eq!(reference::image::tables(text), right);
}

/// The text of "What `tables` prints", the empty text, and the sample with a tally: what is printed, and the image's pairs.
#[test]
fn samples() {
    let text = include_bytes!("../../../samples/lanes.txt");
    printed(text, "run shot WN ny\nrun plot NR yy\nlane shot WNW nyn\nlane plot NRN yyy\nlane tune NNW nyn\n");
    pairs(text, 152, [32, 40, 72, 40, 112, 20, 132, 20]);
    printed(b"", "");
    pairs(b"", 32, [32, 0, 32, 0, 32, 0, 32, 0]);
    let text = include_bytes!("../../../samples/tally.txt");
    printed(text, "lane tally A ynn\nlane plot R nyn\nlane clear W nnn\n");
    pairs(text, 104, [32, 24, 56, 24, 80, 12, 92, 12]);
}
