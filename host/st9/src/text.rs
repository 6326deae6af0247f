//! Texts that several answers share, for those who print more than an answer has.

use crate::Refusal;

/// A byte as the data sheet writes it: `0Ah`.
pub fn hex(byte: u8) -> String {
    format!("{byte:02X}h")
}

/// A number of things: `1 step`, `2 steps`.
pub fn counted(number: u64, thing: &str) -> String {
    match number {
        1 => format!("1 {thing}"),
        _ => format!("{number} {thing}s"),
    }
}

/// `refused with 3 (MEANING)`; the place, if there is one, stands after the number.
pub(crate) fn refused(refusal: Refusal, place: &str) -> String {
    format!("refused with {}{place} ({refusal})", refusal.number())
}
