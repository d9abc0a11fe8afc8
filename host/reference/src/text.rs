//! A class text: its verdict (11 to 17), and what it says.

use crate::syntax::{form, Action, Expression, Form, Statement};
use std::collections::HashSet;

/// The number and the line of a text's fault.
#[derive(Clone, Copy, Debug, PartialEq, Eq)]
pub struct Fault {
    pub number: u32,
    pub line: usize,
}

/// As `tables` and `rehearse` print it.
impl std::fmt::Display for Fault {
    fn fmt(&self, out: &mut std::fmt::Formatter) -> std::fmt::Result {
        write!(out, "refused {} {}", self.number, self.line)
    }
}

/// A statement with its place in the text: where it begins and how long it is.
#[derive(Clone, Debug)]
pub struct Placed {
    pub statement: Statement,
    pub at: usize,
    pub size: usize,
}

#[derive(Clone, Debug)]
pub struct Method {
    pub name: String,
    pub body: Vec<Placed>,
}

/// A class as written: what it inherits is worked out by recursion over its parents.
#[derive(Clone, Debug)]
pub struct Class {
    pub name: String,
    pub parents: Vec<String>,
    pub fields: Vec<String>,
    pub methods: Vec<Method>,
}

#[derive(Clone, Debug)]
pub struct Object {
    pub name: String,
    pub class: String,
    pub values: Vec<u32>,
}

#[derive(Clone, Debug, Default)]
pub struct Library {
    pub classes: Vec<Class>,
    pub objects: Vec<Object>,
}

impl Library {
    pub fn class(&self, name: &str) -> Option<&Class> {
        self.classes.iter().find(|c| c.name == name)
    }

    pub fn number_of(&self, name: &str) -> usize {
        self.classes.iter().position(|c| c.name == name).expect("a known class")
    }

    /// The fields of a class in order, each with the class that declares it.
    pub fn fields(&self, class: &str) -> Vec<(String, String)> {
        let class = self.class(class).expect("a known class");
        let mut all = self.inherited_fields(&class.parents);
        all.extend(class.fields.iter().map(|f| (class.name.clone(), f.clone())));
        all
    }

    fn inherited_fields(&self, parents: &[String]) -> Vec<(String, String)> {
        let mut all = Vec::new();
        for parent in parents {
            for field in self.fields(parent) {
                if !all.contains(&field) {
                    all.push(field);
                }
            }
        }
        all
    }

    /// The methods of a class in order, by name.
    pub fn methods(&self, class: &str) -> Vec<String> {
        let class = self.class(class).expect("a known class");
        let mut all = self.inherited_methods(&class.parents);
        for method in &class.methods {
            if !all.contains(&method.name) {
                all.push(method.name.clone());
            }
        }
        all
    }

    fn inherited_methods(&self, parents: &[String]) -> Vec<String> {
        let mut all = Vec::new();
        for parent in parents {
            for method in self.methods(parent) {
                if !all.contains(&method) {
                    all.push(method);
                }
            }
        }
        all
    }

    /// The method as the class has it: its own, or the first parent's that has it.
    pub fn method(&self, class: &str, method: &str) -> Option<&Method> {
        let class = self.class(class)?;
        class
            .methods
            .iter()
            .find(|m| m.name == method)
            .or_else(|| class.parents.iter().find_map(|p| self.method(p, method)))
    }

    pub fn is_ancestor(&self, ancestor: &str, class: &str) -> bool {
        match self.class(class) {
            Some(c) => c.parents.iter().any(|p| p == ancestor || self.is_ancestor(ancestor, p)),
            None => false,
        }
    }

    /// All statements in text order.
    pub fn statements(&self) -> Vec<&Placed> {
        self.classes.iter().flat_map(|c| &c.methods).flat_map(|m| &m.body).collect()
    }

    /// The starting values, object by object.
    pub fn starting_values(&self) -> Vec<u32> {
        let mut values = Vec::new();
        for object in &self.objects {
            let count = self.fields(&object.class).len();
            values.extend((0..count).map(|k| object.values.get(k).copied().unwrap_or(0)));
        }
        values
    }
}

/// Where a line stands.
#[derive(Clone, Copy, PartialEq)]
enum Place {
    Start,
    Fields,
    Body,
    Methods,
    Objects,
}

fn next_place(place: Place, form: &Form) -> Option<Place> {
    use Place::*;
    match (form, place) {
        (Form::Class(..), Start | Fields | Methods) => Some(Fields),
        (Form::Field(_), Fields) => Some(Fields),
        (Form::Method(_), Fields | Methods) => Some(Body),
        (Form::Statement(_), Body) => Some(Body),
        (Form::End, Body) => Some(Methods),
        (Form::Object(..), Start | Fields | Methods | Objects) => Some(Objects),
        _ => None,
    }
}

struct Line {
    form: Form,
    at: usize,
    size: usize,
}

/// The lines of a text, or the first line that is 12.
fn lines(text: &[u8]) -> Result<Vec<Line>, Fault> {
    let mut lines = Vec::new();
    let mut place = Place::Start;
    let mut at = 0;
    while at < text.len() {
        let fault = Fault { number: 12, line: lines.len() + 1 };
        let size = text[at..].iter().position(|&b| b == b'\n').ok_or(fault)?;
        let form = form(&text[at..at + size]).ok_or(fault)?;
        place = next_place(place, &form).ok_or(fault)?;
        lines.push(Line { form, at, size });
        at += size + 1;
    }
    if place == Place::Body {
        return Err(Fault { number: 12, line: lines.len() + 1 });
    }
    Ok(lines)
}

/// The fields that an expression names.
fn names_in(e: &Expression, into: &mut HashSet<String>) {
    match e {
        Expression::Field(f) => {
            into.insert(f.clone());
        }
        Expression::Apply(_, a, b) => {
            names_in(a, into);
            names_in(b, into);
        }
        _ => {}
    }
}

/// The faults of a line, 13 to 17, by the library of the lines above. `later` are the methods that the class of
/// the line still writes below it.
fn faults(library: &Library, form: &Form, later: &[String]) -> Vec<u32> {
    let mut found = Vec::new();
    let mut add = |number: u32, holds: bool| {
        if holds {
            found.push(number);
        }
    };
    match form {
        Form::Class(name, parents) => {
            let distinct: HashSet<&String> = parents.iter().collect();
            add(13, library.class(name).is_some() || distinct.len() < parents.len());
            let known = parents.iter().all(|p| library.class(p).is_some());
            add(14, !known);
            if known {
                let fields = library.inherited_fields(parents);
                let names: HashSet<&String> = fields.iter().map(|(_, n)| n).collect();
                add(15, names.len() < fields.len());
                let methods = library.inherited_methods(parents);
                add(17, fields.len() > 32 || methods.len() > 32);
            }
            add(17, library.classes.len() == 16 || parents.len() > 4);
        }
        Form::Field(name) => {
            let fields = library.fields(&library.classes.last().unwrap().name);
            add(13, fields.iter().any(|(_, n)| n == name));
            add(17, fields.len() == 32);
        }
        Form::Method(name) => {
            let class = library.classes.last().unwrap();
            let methods = library.methods(&class.name);
            add(13, class.methods.iter().any(|m| &m.name == name));
            add(17, !methods.contains(name) && methods.len() == 32);
        }
        Form::Statement(statement) => {
            let class = library.classes.last().unwrap();
            let fields: HashSet<String> = library.fields(&class.name).into_iter().map(|(_, n)| n).collect();
            let mut named = HashSet::new();
            if let Some(guard) = &statement.when {
                names_in(guard, &mut named);
            }
            let own = |m: &String| library.methods(&class.name).contains(m) || later.contains(m);
            match &statement.action {
                Action::Set(field, e) | Action::Add(field, e) => {
                    named.insert(field.clone());
                    names_in(e, &mut named);
                }
                Action::Reply(e) => names_in(e, &mut named),
                Action::Send { class: prefix, method, value } => {
                    names_in(value, &mut named);
                    match prefix {
                        None => add(14, !own(method)),
                        Some(c) if library.class(c).is_none() => add(14, true),
                        Some(c) => {
                            let has = if *c == class.name { own(method) } else { library.methods(c).contains(method) };
                            add(14, !has);
                            add(16, !library.is_ancestor(c, &class.name));
                        }
                    }
                }
            }
            add(14, !named.is_subset(&fields));
            add(17, class.methods.last().unwrap().body.len() == 32);
        }
        Form::End => {}
        Form::Object(name, class, values) => {
            add(13, library.objects.iter().any(|o| &o.name == name));
            add(14, library.class(class).is_none());
            add(17, library.objects.len() == 64);
            if library.class(class).is_some() {
                add(17, values.len() > library.fields(class).len());
            }
        }
    }
    found
}

/// Reads a text: its library, or its fault.
pub fn read(text: &[u8]) -> Result<Library, Fault> {
    if text.len() > 32_768 {
        return Err(Fault { number: 11, line: 0 });
    }
    let lines = lines(text)?;
    let mut library = Library::default();
    for (k, line) in lines.iter().enumerate() {
        let later: Vec<String> = lines[k + 1..]
            .iter()
            .take_while(|l| !matches!(l.form, Form::Class(..) | Form::Object(..)))
            .filter_map(|l| if let Form::Method(m) = &l.form { Some(m.clone()) } else { None })
            .collect();
        if let Some(number) = faults(&library, &line.form, &later).into_iter().min() {
            return Err(Fault { number, line: k + 1 });
        }
        match &line.form {
            Form::Class(name, parents) => library.classes.push(Class {
                name: name.clone(),
                parents: parents.clone(),
                fields: Vec::new(),
                methods: Vec::new(),
            }),
            Form::Field(name) => library.classes.last_mut().unwrap().fields.push(name.clone()),
            Form::Method(name) => {
                library.classes.last_mut().unwrap().methods.push(Method { name: name.clone(), body: Vec::new() })
            }
            Form::Statement(statement) => {
                let method = library.classes.last_mut().unwrap().methods.last_mut().unwrap();
                method.body.push(Placed { statement: statement.clone(), at: line.at, size: line.size });
            }
            Form::End => {}
            Form::Object(name, class, values) => {
                library.objects.push(Object { name: name.clone(), class: class.clone(), values: values.clone() })
            }
        }
    }
    Ok(library)
}

/// The statement with this count, or 23.
pub fn statement(text: &[u8], count: usize) -> Result<&[u8], Fault> {
    let library = read(text)?;
    let statements = library.statements();
    match statements.get(count) {
        Some(s) => Ok(&text[s.at..s.at + s.size]),
        None => Err(Fault { number: 23, line: 0 }),
    }
}
