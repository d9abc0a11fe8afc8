//! Valid class texts: small ones, middling ones, and ones at the limits.

use crate::Random;

struct Class {
    name: String,
    fields: Vec<(usize, String)>,
    methods: Vec<String>,
    ancestors: Vec<usize>,
}

/// How large a text is to be.
#[derive(Clone, Copy)]
pub struct Size {
    pub classes: usize,
    pub fields: usize,
    pub methods: usize,
    pub statements: usize,
    pub operators: usize,
    pub objects: usize,
}

pub const SMALL: Size = Size { classes: 4, fields: 3, methods: 3, statements: 3, operators: 2, objects: 4 };
pub const MIDDLE: Size = Size { classes: 8, fields: 6, methods: 6, statements: 6, operators: 4, objects: 12 };
pub const LARGE: Size = Size { classes: 16, fields: 8, methods: 8, statements: 32, operators: 8, objects: 64 };

fn name(random: &mut Random, taken: &[String]) -> String {
    loop {
        let length = if random.one_in(6) { 16 } else { 1 + random.below(2) };
        let mut name = String::new();
        for k in 0..length {
            let letters: &[u8] = if k == 0 { b"abcdefm" } else { b"abm019_z" };
            name.push(*random.pick(letters) as char);
        }
        if !taken.contains(&name) && reference::syntax::name(&name).is_some() {
            return name;
        }
    }
}

fn expression(random: &mut Random, fields: &[(usize, String)], operators: usize, out: &mut String) {
    if operators > 0 && !random.one_in(3) {
        out.push_str(*random.pick(&["+", "-", "*", "<", "="]));
        out.push(' ');
        expression(random, fields, operators - 1, out);
        out.push(' ');
        expression(random, fields, operators - 1, out);
        return;
    }
    match random.below(5) {
        0 => out.push_str("arg"),
        1 => out.push_str("got"),
        2 | 3 if !fields.is_empty() => {
            let field = &random.pick(fields).1;
            out.push_str(field);
        }
        _ => out.push_str(&random.edge().to_string()),
    }
}

/// One statement of a method of class k, whose methods will be `methods`.
fn statement(random: &mut Random, size: Size, classes: &[Class], class: &Class, methods: &[String], out: &mut String) {
    if random.one_in(3) {
        out.push_str("when ");
        expression(random, &class.fields, size.operators, out);
        out.push(' ');
    }
    let prefixes: Vec<usize> = class.ancestors.iter().copied().filter(|&a| !classes[a].methods.is_empty()).collect();
    match random.below(5) {
        0 | 1 if !class.fields.is_empty() => {
            let field = &random.pick(&class.fields).1;
            out.push_str(&format!("{} {field} ", random.pick(&["set", "add"])));
        }
        2 if !prefixes.is_empty() => {
            let ancestor = &classes[*random.pick(&prefixes)];
            let method = random.pick(&ancestor.methods);
            out.push_str(&format!("send {}.{} to self ", ancestor.name, method));
        }
        2 | 3 => {
            let method = random.pick(methods);
            out.push_str(&format!("send {method} to self "));
        }
        _ => out.push_str("reply "),
    }
    expression(random, &class.fields, size.operators, out);
    out.push('\n');
}

/// Parents whose fields do not disagree, and which together keep to 32 fields and methods.
fn parents(random: &mut Random, classes: &[Class]) -> Vec<usize> {
    let mut chosen: Vec<usize> = Vec::new();
    for _ in 0..random.below(5) {
        if classes.is_empty() {
            break;
        }
        let p = random.below(classes.len());
        let mut all = chosen.clone();
        all.push(p);
        let (fields, methods) = inherited(classes, &all);
        let disagree = fields.iter().enumerate().any(|(i, f)| fields[i + 1..].iter().any(|g| g.1 == f.1));
        if !chosen.contains(&p) && !disagree && fields.len() <= 30 && methods.len() <= 30 {
            chosen.push(p);
        }
    }
    chosen
}

fn inherited(classes: &[Class], parents: &[usize]) -> (Vec<(usize, String)>, Vec<String>) {
    let (mut fields, mut methods) = (Vec::new(), Vec::new());
    for &p in parents {
        for f in &classes[p].fields {
            if !fields.contains(f) {
                fields.push(f.clone());
            }
        }
        for m in &classes[p].methods {
            if !methods.contains(m) {
                methods.push(m.clone());
            }
        }
    }
    (fields, methods)
}

/// A valid class text, of at most 32,768 bytes.
pub fn text(random: &mut Random, size: Size) -> Vec<u8> {
    let mut classes: Vec<Class> = Vec::new();
    let mut class_names: Vec<String> = Vec::new();
    let mut out = String::new();
    let count = random.below(size.classes + 1);
    for k in 0..count {
        let parents = parents(random, &classes);
        let (fields, methods) = inherited(&classes, &parents);
        let mut ancestors: Vec<usize> = Vec::new();
        for &p in &parents {
            ancestors.push(p);
            ancestors.extend(classes[p].ancestors.iter());
        }
        let class_name = name(random, &class_names);
        class_names.push(class_name.clone());
        let mut class = Class { name: class_name, fields, methods, ancestors };
        let mut part = format!("class {}", class.name);
        for (i, &p) in parents.iter().enumerate() {
            part.push_str(if i == 0 { " : " } else { " " });
            part.push_str(&classes[p].name);
        }
        part.push('\n');
        for _ in 0..random.below(size.fields + 1).min(32 - class.fields.len()) {
            let taken: Vec<String> = class.fields.iter().map(|f| f.1.clone()).collect();
            let field = name(random, &taken);
            part.push_str(&format!("field {field}\n"));
            class.fields.push((k, field));
        }
        let mut own: Vec<String> = Vec::new();
        for _ in 0..random.below(size.methods + 1) {
            let overriding = !class.methods.is_empty() && random.one_in(2);
            let method = if overriding { random.pick(&class.methods).clone() } else { name(random, &class.methods) };
            if !own.contains(&method) && (class.methods.contains(&method) || class.methods.len() < 32) {
                if !class.methods.contains(&method) {
                    class.methods.push(method.clone());
                }
                own.push(method);
            }
        }
        for method in &own {
            part.push_str(&format!("method {method}\n"));
            for _ in 0..random.below(size.statements + 1) {
                let methods = class.methods.clone();
                let mut line = String::new();
                statement(random, size, &classes, &class, &methods, &mut line);
                if out.len() + part.len() + line.len() < 30_000 {
                    part.push_str(&line);
                }
            }
            part.push_str("end\n");
        }
        if out.len() + part.len() > 31_000 {
            break;
        }
        out.push_str(&part);
        classes.push(class);
    }
    let mut objects: Vec<String> = Vec::new();
    for _ in 0..random.below(size.objects + 1) {
        if classes.is_empty() {
            break;
        }
        let class = random.pick(&classes);
        let object = name(random, &objects);
        let mut line = format!("object {object} {}", class.name);
        for _ in 0..random.below(class.fields.len() + 1) {
            line.push_str(&format!(" {}", random.edge()));
        }
        line.push('\n');
        if out.len() + line.len() > 32_768 {
            break;
        }
        out.push_str(&line);
        objects.push(object);
    }
    out.into_bytes()
}
