//! The objects that `--json` prints, read again.

#![allow(dead_code)]

use super::support::is_json;

#[derive(Clone, Debug, PartialEq)]
pub enum Value {
    Null,
    Truth(bool),
    Number(i64),
    Text(String),
    List(Vec<Value>),
    Object(Vec<(String, Value)>),
}

impl Value {
    /// A member of an object; null where it is missing.
    pub fn get(&self, name: &str) -> &Value {
        match self {
            Value::Object(members) => {
                members.iter().find(|(member, _)| member == name).map_or(&Value::Null, |(_, v)| v)
            }
            _ => &Value::Null,
        }
    }

    pub fn has(&self, name: &str) -> bool {
        matches!(self, Value::Object(members) if members.iter().any(|(member, _)| member == name))
    }

    pub fn text(&self, name: &str) -> &str {
        match self.get(name) {
            Value::Text(text) => text,
            other => panic!("{name} is {other:?} in {self:?}"),
        }
    }

    pub fn number(&self, name: &str) -> i64 {
        match self.get(name) {
            Value::Number(number) => *number,
            other => panic!("{name} is {other:?} in {self:?}"),
        }
    }

    pub fn truth(&self, name: &str) -> bool {
        match self.get(name) {
            Value::Truth(truth) => *truth,
            other => panic!("{name} is {other:?} in {self:?}"),
        }
    }

    pub fn list(&self, name: &str) -> &[Value] {
        match self.get(name) {
            Value::List(list) => list,
            other => panic!("{name} is {other:?} in {self:?}"),
        }
    }
}

/// Every line as an object.
pub fn objects(out: &str) -> Vec<Value> {
    out.lines().map(object).collect()
}

/// The objects of one type.
pub fn of_type(out: &str, kind: &str) -> Vec<Value> {
    objects(out).into_iter().filter(|object| object.text("type") == kind).collect()
}

pub fn object(line: &str) -> Value {
    assert!(is_json(line), "{line}");
    let mut rest = line;
    value(&mut rest)
}

/// A value at the start of a text that `is_json` has found well formed.
fn value(rest: &mut &str) -> Value {
    *rest = rest.trim_start();
    match rest.as_bytes()[0] {
        b'{' => Value::Object(items(rest, '}', |rest| {
            let name = string(rest);
            skip(rest, ":");
            (name, value(rest))
        })),
        b'[' => Value::List(items(rest, ']', value)),
        b'"' => Value::Text(string(rest)),
        _ => {
            let end = rest.find([',', '}', ']']).unwrap_or(rest.len());
            let word = &rest[..end];
            *rest = &rest[end..];
            match word {
                "null" => Value::Null,
                "true" => Value::Truth(true),
                "false" => Value::Truth(false),
                _ => Value::Number(word.parse().expect("a number")),
            }
        }
    }
}

fn items<T>(rest: &mut &str, end: char, item: fn(&mut &str) -> T) -> Vec<T> {
    *rest = &rest[1..];
    let mut found = vec![];
    while !rest.starts_with(end) {
        found.push(item(rest));
        *rest = rest.strip_prefix(',').unwrap_or(rest);
    }
    *rest = &rest[1..];
    found
}

fn string(rest: &mut &str) -> String {
    skip(rest, "\"");
    let mut text = String::new();
    loop {
        let next = rest.chars().next().expect("a closed string");
        *rest = &rest[next.len_utf8()..];
        match next {
            '"' => return text,
            '\\' => text.push(escaped(rest)),
            _ => text.push(next),
        }
    }
}

fn escaped(rest: &mut &str) -> char {
    let next = rest.chars().next().expect("an escape");
    *rest = &rest[1..];
    match next {
        'b' => '\u{8}',
        'f' => '\u{C}',
        'n' => '\n',
        'r' => '\r',
        't' => '\t',
        'u' => {
            let code = u32::from_str_radix(&rest[..4], 16).expect("four digits");
            *rest = &rest[4..];
            char::from_u32(code).unwrap_or('\u{FFFD}')
        }
        other => other,
    }
}

fn skip(rest: &mut &str, word: &str) {
    *rest = rest.strip_prefix(word).expect("well formed");
}
