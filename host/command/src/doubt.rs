//! Bytes that are read as decimal and may be meant as hexadecimal: `set CICR 97`.

use crate::expectation::{Expect, Expected};
use crate::names::register_name;
use crate::parse::{without_comment, words};
use crate::statement::{Operation, Statement};
use crate::{Place, StepLine};
use st9::text::hex;
use st9::Step;

/// A byte of two decimal digits where the bits of a register are meant.
pub(crate) struct Doubt {
    pub byte: u8,
    /// Where only the channel list tells whether the byte has named bits: its place.
    pub place: Option<Place>,
}

/// A doubt about a byte of a statement; what a read gives is that of the register read.
pub(crate) fn of(line: &[u8], statement: &Statement, last: Option<&StepLine>) -> Option<Doubt> {
    let line = without_comment(line);
    match statement {
        Statement::Expect(Expect { what: Expected::Byte(_), .. }) if !is_of_named(last?) => None,
        Statement::Expect(expect) => expect.decimal.map(|byte| Doubt { byte, place: None }),
        Statement::Set { place, .. } if place.fields().is_empty() => None,
        Statement::Set { place, .. } => {
            let known = !place.role(&[]).fields().is_empty();
            let byte = two_digits(words(line).nth(2)?)?;
            Some(Doubt { byte, place: (!known).then_some(*place) })
        }
        Statement::Step(operation) => of_write(operation, words(line).nth(2)?),
        Statement::Repeat { operation, .. } => of_write(operation, words(line).nth(4)?),
        _ => None,
    }
}

/// A doubt about the word that is the byte of a step, if that is a write.
fn of_write(operation: &Operation, word: &[u8]) -> Option<Doubt> {
    let Step::Write { register, .. } = operation.step else {
        return None;
    };
    register_name(register)?;
    Some(Doubt { byte: two_digits(word)?, place: None })
}

/// Whether a step is about a register whose bits have names.
fn is_of_named(step: &StepLine) -> bool {
    match step.operation.step {
        Step::Read { register } => register_name(register).is_some(),
        _ => false,
    }
}

/// The byte of a word that is two decimal digits and another byte in hexadecimal.
pub(crate) fn two_digits(word: &[u8]) -> Option<u8> {
    match word {
        [tens @ b'1'..=b'9', ones @ b'0'..=b'9'] => Some((tens - b'0') * 10 + (ones - b'0')),
        _ => None,
    }
}

/// What is told of such a byte.
pub(crate) fn problem(byte: u8) -> String {
    format!("{byte} is read as decimal, {}: write {byte}h if hexadecimal is meant", hex(byte))
}
