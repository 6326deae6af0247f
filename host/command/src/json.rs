//! Objects of JSON, a line each.

use crate::names::Names;
use crate::Place;
use st9::{Channel, Refusal, Source};
use std::fmt::Write;

/// An object that is being written.
pub struct Object {
    text: String,
}

impl Object {
    /// An object without members.
    #[allow(clippy::new_without_default)]
    pub fn new() -> Object {
        Object { text: String::from("{") }
    }

    /// Adds a string.
    pub fn text(mut self, name: &str, value: &str) -> Object {
        self.name(name);
        write_string(&mut self.text, value);
        self
    }

    /// Adds a number.
    pub fn number(mut self, name: &str, value: u64) -> Object {
        self.name(name);
        let _ = write!(self.text, "{value}");
        self
    }

    /// Adds a number, or null.
    pub fn optional(mut self, name: &str, value: Option<u64>) -> Object {
        match value {
            Some(value) => self.number(name, value),
            None => {
                self.name(name);
                self.text.push_str("null");
                self
            }
        }
    }

    /// Adds true or false.
    pub fn truth(mut self, name: &str, value: bool) -> Object {
        self.name(name);
        let _ = write!(self.text, "{value}");
        self
    }

    /// Adds a list of values that are JSON already.
    pub fn list(mut self, name: &str, values: &[String]) -> Object {
        self.name(name);
        let _ = write!(self.text, "[{}]", values.join(","));
        self
    }

    /// Adds a list of strings.
    pub fn texts<'a>(self, name: &str, values: impl Iterator<Item = &'a str>) -> Object {
        let quoted = values.map(|value| {
            let mut text = String::new();
            write_string(&mut text, value);
            text
        });
        let quoted = quoted.collect::<Vec<_>>();
        self.list(name, &quoted)
    }

    /// Adds a register: its name, number and page.
    pub fn place(self, place: Place, channels: &[Channel]) -> Object {
        let register = place.register();
        let number = register.map(|(number, _)| number.into());
        let page = register.and_then(|(_, page)| page).map(u64::from);
        self.text("name", &place.name(channels)).optional("register", number).optional("page", page)
    }

    /// Adds a source: its number and name, and its own name where it has one.
    pub fn source(self, source: Source, names: &Names) -> Object {
        let object = self.number("source", source.0.into()).text("name", &source.to_string());
        match names.of(source) {
            Some(own) => object.text("called", own),
            None => object,
        }
    }

    /// Adds a refusal: its number and document 01's words.
    pub fn refusal(self, refusal: Refusal) -> Object {
        self.number("refusal", refusal.number().into()).text("meaning", &refusal.to_string())
    }

    /// The object, whole.
    pub fn end(mut self) -> String {
        self.text.push('}');
        self.text
    }

    fn name(&mut self, name: &str) {
        if self.text.len() > 1 {
            self.text.push(',');
        }
        write_string(&mut self.text, name);
        self.text.push(':');
    }
}

fn write_string(text: &mut String, value: &str) {
    text.push('"');
    for character in value.chars() {
        match character {
            '"' => text.push_str("\\\""),
            '\\' => text.push_str("\\\\"),
            '\0'..='\x1F' | '\x7F' => {
                let _ = write!(text, "\\u{:04X}", u32::from(character));
            }
            _ => text.push(character),
        }
    }
    text.push('"');
}

#[cfg(test)]
mod tests {
    use super::*;

    #[test]
    fn strings_are_escaped() {
        let object =
            Object::new().text("a\"b", "\\ \n\u{1F}é").optional("none", None).truth("yes", true);
        assert_eq!(object.end(), r#"{"a\"b":"\\ \u000A\u001Fé","none":null,"yes":true}"#);
    }
}
