//! What one line says: words, names, numbers, expressions, statements, forms.

/// An expression, the E of the statements.
#[derive(Clone, Debug, PartialEq)]
pub enum Expression {
    Number(u32),
    Field(String),
    Argument,
    Got,
    Apply(u8, Box<Expression>, Box<Expression>),
}

#[derive(Clone, Debug, PartialEq)]
pub enum Action {
    Set(String, Expression),
    Add(String, Expression),
    Send { class: Option<String>, method: String, value: Expression },
    Reply(Expression),
}

#[derive(Clone, Debug, PartialEq)]
pub struct Statement {
    pub when: Option<Expression>,
    pub action: Action,
}

/// The form of a line.
#[derive(Clone, Debug, PartialEq)]
pub enum Form {
    Class(String, Vec<String>),
    Field(String),
    Method(String),
    Statement(Statement),
    End,
    Object(String, String, Vec<u32>),
}

const RESERVED: [&str; 15] = [
    "class", "field", "method", "end", "object", "set", "send", "to", "self", "reply", "when", "arg", "got", "add", "level",
];

/// A name: 1 to 16 bytes of a-z, 0-9 and _, the first a letter, and no reserved word.
pub fn name(word: &str) -> Option<String> {
    let good = (1..=16).contains(&word.len())
        && word.starts_with(|c: char| c.is_ascii_lowercase())
        && word.bytes().all(|b| b.is_ascii_lowercase() || b.is_ascii_digit() || b == b'_')
        && !RESERVED.contains(&word);
    good.then(|| word.to_string())
}

/// A number from 0 to 4,294,967,295 without leading zeros.
pub fn number(word: &str) -> Option<u32> {
    let digits = !word.is_empty() && word.bytes().all(|b| b.is_ascii_digit());
    if !digits || (word.len() > 1 && word.starts_with('0')) {
        return None;
    }
    word.parse().ok()
}

/// The expression at the front of the words, with at most `operators` operators on a path, and the words after it.
fn expression<'a>(words: &'a [&'a str], operators: usize) -> Option<(Expression, &'a [&'a str])> {
    let (first, rest) = words.split_first()?;
    if ["+", "-", "*", "<", "="].contains(first) {
        let below = operators.checked_sub(1)?;
        let (left, rest) = expression(rest, below)?;
        let (right, rest) = expression(rest, below)?;
        return Some((Expression::Apply(first.as_bytes()[0], Box::new(left), Box::new(right)), rest));
    }
    let leaf = match *first {
        "arg" => Expression::Argument,
        "got" => Expression::Got,
        word => match number(word) {
            Some(n) => Expression::Number(n),
            None => Expression::Field(name(word)?),
        },
    };
    Some((leaf, rest))
}

fn whole(words: &[&str]) -> Option<Expression> {
    match expression(words, 8)? {
        (e, []) => Some(e),
        _ => None,
    }
}

fn action(words: &[&str]) -> Option<Action> {
    match words {
        ["set", field, e @ ..] => Some(Action::Set(name(field)?, whole(e)?)),
        ["add", field, e @ ..] => Some(Action::Add(name(field)?, whole(e)?)),
        ["send", method, "to", "self", e @ ..] => {
            let (class, method) = match method.split_once('.') {
                Some((class, method)) => (Some(name(class)?), name(method)?),
                None => (None, name(method)?),
            };
            Some(Action::Send { class, method, value: whole(e)? })
        }
        ["reply", e @ ..] => Some(Action::Reply(whole(e)?)),
        _ => None,
    }
}

fn names(words: &[&str]) -> Option<Vec<String>> {
    words.iter().map(|w| name(w)).collect()
}

/// The form of a line, or none.
pub fn form(line: &[u8]) -> Option<Form> {
    let line = std::str::from_utf8(line).ok()?;
    let words: Vec<&str> = line.split(' ').collect();
    match words.as_slice() {
        ["class", n] => Some(Form::Class(name(n)?, Vec::new())),
        ["class", n, ":", parents @ ..] if !parents.is_empty() => Some(Form::Class(name(n)?, names(parents)?)),
        ["field", n] => Some(Form::Field(name(n)?)),
        ["method", n] => Some(Form::Method(name(n)?)),
        ["end"] => Some(Form::End),
        ["object", n, class, values @ ..] => {
            let values: Option<Vec<u32>> = values.iter().map(|w| number(w)).collect();
            Some(Form::Object(name(n)?, name(class)?, values?))
        }
        ["when", rest @ ..] => {
            let (guard, rest) = expression(rest, 8)?;
            Some(Form::Statement(Statement { when: Some(guard), action: action(rest)? }))
        }
        words => Some(Form::Statement(Statement { when: None, action: action(words)? })),
    }
}
