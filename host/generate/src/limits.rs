//! Texts at each limit of document 01, and one past it.

/// A limit: its name, the text at it, the text one past it, and the number of that.
pub struct Limit {
    pub name: &'static str,
    pub at: Vec<u8>,
    pub past: Vec<u8>,
    pub number: u32,
}

fn limit(name: &'static str, number: u32, n: usize, of: impl Fn(usize) -> String) -> Limit {
    Limit { name, at: of(n).into_bytes(), past: of(n + 1).into_bytes(), number }
}

/// n lines, by their numbers.
fn lines(n: usize, of: impl Fn(usize) -> String) -> String {
    (0..n).map(|k| of(k) + "\n").collect()
}

fn method(name: &str, body: &str) -> String {
    format!("method {name}\n{body}end\n")
}

fn name(size: usize) -> String {
    "abcdefghijklmnopqrstuvwxyz"[..size].to_string()
}

/// An expression with n operators on its only long path.
fn path(n: usize) -> String {
    "+ 1 ".repeat(n) + "arg"
}

/// An expression with n operators on every path.
fn tree(n: usize) -> String {
    if n == 0 {
        return "1".into();
    }
    format!("* {} {}", tree(n - 1), tree(n - 1))
}

/// Two classes with `a` and `b` members each, and one below both.
fn joined(a: usize, b: usize, own: usize, member: &dyn Fn(String) -> String) -> String {
    let members = |letter: &str, n: usize| (0..n).map(|k| member(format!("{letter}{k}"))).collect::<String>();
    format!("class p\n{}class q\n{}class r : p q\n{}", members("a", a), members("b", b), members("c", own))
}

fn field(name: String) -> String {
    format!("field {name}\n")
}

fn empty_method(name: String) -> String {
    method(&name, "")
}

/// An accepted text of exactly n bytes, from 200 on.
pub fn of_length(n: usize) -> Vec<u8> {
    let mut text = String::from("class a\nfield x\n");
    let body = lines(32, |k| format!("set x + x {k}"));
    for k in 0.. {
        let more = method(&format!("m{k}"), &body);
        if text.len() + more.len() + 200 > n || k == 32 {
            break;
        }
        text += &more;
    }
    if text.len() + 1_800 < n {
        // More classes take what 32 methods cannot.
        for class in 0..15 {
            text += &format!("class b{class}\nfield x\n");
            for k in 0..32 {
                let more = method(&format!("m{k}"), &body);
                if text.len() + more.len() + 300 < n {
                    text += &more;
                }
            }
            if text.len() + 1_500 > n {
                break;
            }
        }
    }
    // Object lines have 12 to 26 bytes: two of them close the gap that is left.
    let mut objects = 0;
    let mut object = |size: usize| {
        objects += 1;
        format!("object o{objects:0width$} a\n", width = size - 11)
    };
    while n - text.len() > 52 {
        text += &object(26);
    }
    let left = n - text.len();
    if left >= 27 {
        text += &object(left / 2);
        text += &object(left - left / 2);
    } else {
        text += &object(left);
    }
    text.into_bytes()
}

/// As many statements as a text has room for.
pub fn most_statements() -> Vec<u8> {
    let mut text = String::new();
    let body = "reply 0\n".repeat(32);
    for class in 0..16 {
        text += &format!("class {}\n", (b'a' + class) as char);
        for k in 0..32 {
            let more = method(&format!("m{k}"), &body);
            if text.len() + more.len() <= 32_768 {
                text += &more;
            }
        }
    }
    text.into_bytes()
}

/// The widest library: 16 classes of 32 fields and 32 methods, each below the two before it, 64 objects.
pub fn widest() -> Vec<u8> {
    let mut text = String::from("class a\n");
    text += &lines(32, |k| format!("field f{k}"));
    for k in 0..32 {
        text += &method(&format!("m{k}"), &format!("send m{} to self arg\nset f{k} + f{} got\n", (k + 1) % 32, (k + 7) % 32));
    }
    for class in 1..16u8 {
        let parents: Vec<String> = (0..class).rev().take(2).map(|p| ((b'a' + p) as char).to_string()).collect();
        text += &format!("class {} : {}\n", (b'a' + class) as char, parents.join(" "));
        for k in 0..4 {
            text += &method(&format!("m{}", (class as usize * 3 + k * 8) % 32), &format!("send a.m{k} to self + f{class} got\nreply f{k}\n"));
        }
    }
    text += &lines(64, |k| format!("object o{k} {} {k} 4294967295", (b'a' + (k % 16) as u8) as char));
    text.into_bytes()
}

/// Each of 32 methods adds to a field of its own, in 16 classes, each below the one before it, with 64 objects: 2,048 values.
pub fn most_tallies() -> Vec<u8> {
    let mut text = String::from("class a\n") + &lines(32, |k| format!("field f{k}"));
    for k in 0..32 {
        text += &method(&format!("m{k}"), &format!("add f{k} arg\n"));
    }
    for class in 1..16u8 {
        let (name, parent) = ((b'a' + class) as char, (b'a' + class - 1) as char);
        let k = 2 * class;
        text += &format!("class {name} : {parent}\n{}", method(&format!("m{k}"), &format!("send {parent}.m{k} to self arg\nadd f31 arg\n")));
    }
    text += &lines(64, |k| format!("object o{k} {} {k}", (b'a' + (k % 16) as u8) as char));
    text.into_bytes()
}

/// Method m takes as many steps on an object as are named, 1,021 to 1,025.
pub fn message_of(steps: usize) -> Vec<u8> {
    // Calls, statements in the body called, and statements beside the calls.
    let (calls, inner, beside) = [(30, 32, 0), (30, 32, 1), (30, 32, 2), (31, 31, 0), (31, 31, 1)][steps - 1_021];
    assert_eq!(steps, calls * (inner + 2) + beside + 1);
    let called = lines(inner, |k| format!("set x + x {k}"));
    let calls = lines(beside, |_| "set y + y 1".into()) + &lines(calls, |_| "send n to self arg".into());
    let text = format!("class a\nfield x\nfield y\n{}{}", method("m", &calls), method("n", &called));
    (text + "class b : a\nobject o a\nobject p a 7\nobject q b\n").into_bytes()
}

/// A call of m0 opens as many activations, one by the other.
pub fn activations(count: usize) -> Vec<u8> {
    let body = |k: usize| if k + 1 < count { format!("set x + x 1\nsend m{} to self arg\nreply + got 1\n", k + 1) } else { "reply arg\n".into() };
    let methods: String = (0..count).map(|k| method(&format!("m{k}"), &body(k))).collect();
    format!("class a\nfield x\n{methods}object o a\nobject p a\n").into_bytes()
}

/// Every limit.
pub fn limits() -> Vec<Limit> {
    let own = |size: usize| format!("class a\n{}", field(name(size)));
    let statements = |n: usize| format!("class a\n{}", method("m", &lines(n, |k| format!("reply {k}"))));
    let in_body = |line: String| format!("class a\nfield x\n{}", method("m", &(line + "\n")));
    let number = |n: usize| (4_294_967_294 + n as u64).to_string();
    let parents = |n: usize| {
        let names: Vec<String> = (0..n).map(|k| format!("p{k}")).collect();
        lines(n, |k| format!("class p{k}")) + &format!("class a : {}\n", names.join(" "))
    };
    let values = |n: usize| format!("class a\nfield x\nfield y\nobject o a{}\n", " 7".repeat(n));
    let length = |n: usize| String::from_utf8(of_length(n)).unwrap();
    vec![
        limit("classes", 17, 16, |n| lines(n, |k| format!("class c{k}"))),
        limit("objects", 17, 64, |n| "class a\n".to_string() + &lines(n, |k| format!("object o{k} a"))),
        limit("own fields", 17, 32, |n| joined(0, 0, n, &field)),
        limit("inherited fields", 17, 16, |n| joined(16, n, 0, &field)),
        limit("own fields below inherited ones", 17, 2, |n| joined(20, 10, n, &field)),
        limit("own methods", 17, 32, |n| joined(0, 0, n, &empty_method)),
        limit("inherited methods", 17, 16, |n| joined(16, n, 0, &empty_method)),
        limit("own methods below inherited ones", 17, 2, |n| joined(20, 10, n, &empty_method)),
        limit("parents", 17, 4, parents),
        limit("statements", 17, 32, statements),
        limit("values", 17, 2, values),
        limit("bytes of a text", 11, 32_768, length),
        limit("bytes of a class's name", 12, 16, |n| format!("class {}\n", name(n))),
        limit("bytes of a field's name", 12, 16, own),
        limit("bytes of a method's name", 12, 16, |n| format!("class a\n{}", method(&name(n), ""))),
        limit("bytes of an object's name", 12, 16, |n| format!("class a\nobject {} a\n", name(n))),
        limit("operators on a path of a reply", 12, 8, |n| in_body(format!("reply {}", path(n)))),
        limit("operators on a path of a set", 12, 8, |n| in_body(format!("set x {}", path(n)))),
        limit("operators on a path of an add", 12, 8, |n| in_body(format!("add x {}", path(n)))),
        limit("operators on a path of a send", 12, 8, |n| in_body(format!("send m to self {}", path(n)))),
        limit("operators on a path of a when", 12, 8, |n| in_body(format!("when {} reply 1", path(n)))),
        limit("operators on each path", 12, 8, |n| in_body(format!("when {} set x {}", tree(n), tree(8)))),
        limit("operators on each path of an add", 12, 8, |n| in_body(format!("when {} add x {}", tree(8), tree(n)))),
        limit("a number in a statement", 12, 1, |n| in_body(format!("reply {}", number(n)))),
        limit("a starting value", 12, 1, |n| format!("class a\nfield x\nobject o a {}\n", number(n))),
    ]
}
