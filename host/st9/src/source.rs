//! The sources of interrupts and their names.

use std::fmt;

/// A source by its number: 0 to 7 are the external channels INTA0 to INTD1, 8 onward the records of the channel list.
/// Any number may be asked about; one that isn't there is refused with 4.
#[derive(Clone, Copy, Debug, PartialEq, Eq, Hash, PartialOrd, Ord)]
pub struct Source(pub u32);

impl Source {
    /// Group A: pin 0, or the watchdog.
    pub const INTA0: Source = Source(0);
    /// Pin 1.
    pub const INTA1: Source = Source(1);
    /// Group B: pin 2.
    pub const INTB0: Source = Source(2);
    /// Pin 3.
    pub const INTB1: Source = Source(3);
    /// Group C: pin 4.
    pub const INTC0: Source = Source(4);
    /// Pin 5.
    pub const INTC1: Source = Source(5);
    /// Group D: pin 6.
    pub const INTD0: Source = Source(6);
    /// Pin 7.
    pub const INTD1: Source = Source(7);

    /// The names of the eight external channels, in the order of their numbers.
    pub const EXTERNAL: [&'static str; 8] =
        ["INTA0", "INTA1", "INTB0", "INTB1", "INTC0", "INTC1", "INTD0", "INTD1"];

    /// The source of record `record` of the channel list, from 0.
    pub const fn channel(record: u32) -> Source {
        Source(record.saturating_add(8))
    }
}

/// `INTB0` or `channel 0`.
impl fmt::Display for Source {
    fn fmt(&self, f: &mut fmt::Formatter<'_>) -> fmt::Result {
        match self.0.checked_sub(8) {
            Some(record) => f.pad(&format!("channel {record}")),
            None => f.pad(Source::EXTERNAL[self.0 as usize]),
        }
    }
}
