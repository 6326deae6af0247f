//! Options and other words of a command line.

use crate::help;
use crate::output::Failure;
use scenario::quoted;
use std::ffi::{OsStr, OsString};
use std::os::unix::ffi::{OsStrExt, OsStringExt};

/// Options by name with their values, and the other words.
pub struct Options {
    named: Vec<(&'static str, Option<OsString>)>,
    others: Vec<OsString>,
}

impl Options {
    pub fn read(
        words: &[OsString],
        flags: &[&'static str],
        valued: &[&'static str],
    ) -> Result<Options, Failure> {
        let mut options = Options { named: Vec::new(), others: Vec::new() };
        let mut words = words.iter().cloned();
        while let Some(word) = words.next() {
            if word == "--" {
                options.others.extend(words);
                break;
            }
            if word == "-" || !word.as_bytes().starts_with(b"-") {
                options.others.push(word);
                continue;
            }
            let (name, inline) = split(&word);
            if let (Some(flag), None) = (known(flags, name), &inline) {
                options.add(flag, None)?;
            } else if let Some(option) = known(valued, name) {
                let value = inline.or_else(|| value(option, &mut words));
                let value = value.ok_or_else(|| {
                    usage(&format!("{option} has no value: expected one after it"))
                })?;
                options.add(option, Some(value))?;
            } else {
                let expected = [flags, valued].concat().join(", ");
                let found = shown(&word);
                return Err(usage(&format!("{found} is no option here: expected {expected}")));
            }
        }
        Ok(options)
    }

    fn add(&mut self, name: &'static str, value: Option<OsString>) -> Result<(), Failure> {
        if self.flag(name) {
            return Err(usage(&format!("{name} stands twice: expected it once")));
        }
        self.named.push((name, value));
        Ok(())
    }

    pub fn flag(&self, name: &str) -> bool {
        self.named.iter().any(|(known, _)| *known == name)
    }

    pub fn value(&mut self, name: &str) -> Option<OsString> {
        let position = self.named.iter().position(|(known, _)| *known == name)?;
        self.named.swap_remove(position).1
    }

    /// The words that are no options, one at least.
    pub fn others(self, what: &str) -> Result<Vec<OsString>, Failure> {
        match self.others.is_empty() {
            true => Err(usage(&format!("the file is missing: expected {what}"))),
            false => Ok(self.others),
        }
    }

    /// The one word that is no option.
    pub fn only(&mut self, what: &str) -> Result<OsString, Failure> {
        match self.others.len() {
            0 => Err(usage(&format!("the file is missing: expected {what}"))),
            1 => Ok(self.others.remove(0)),
            _ => Err(usage(&format!(
                "{} is one word too many: expected {what}",
                shown(&self.others[1])
            ))),
        }
    }
}

/// An option's name and the value after `=`, which may be in any bytes, as a file's name is.
fn split(word: &OsStr) -> (&[u8], Option<OsString>) {
    let bytes = word.as_bytes();
    match bytes.iter().position(|byte| *byte == b'=') {
        Some(equals) => (&bytes[..equals], Some(OsString::from_vec(bytes[equals + 1..].to_vec()))),
        None => (bytes, None),
    }
}

fn known(names: &[&'static str], name: &[u8]) -> Option<&'static str> {
    names.iter().copied().find(|known| known.as_bytes() == name)
}

/// The value that stands after an option. `channel 0` may be two words.
fn value(option: &str, words: &mut impl Iterator<Item = OsString>) -> Option<OsString> {
    let mut value = words.next()?;
    if option == "--source" && value.eq_ignore_ascii_case("channel") {
        value.push(" ");
        value.push(words.next()?);
    }
    Some(value)
}

pub fn none_left(words: &[OsString]) -> Result<(), Failure> {
    match words.first() {
        Some(word) => Err(usage(&format!("{} is one word too many: expected none", shown(word)))),
        None => Ok(()),
    }
}

pub fn usage(problem: &str) -> Failure {
    Failure(format!("st9: {problem}\n{}", help::HINT))
}

pub fn shown(word: &OsStr) -> String {
    quoted(word.as_bytes())
}
