//! Steps and their words.

/// The direction of an edge.
#[derive(Clone, Copy, Debug, PartialEq, Eq, Hash)]
pub enum Edge {
    /// Direction 0.
    Falling,
    /// Direction 1.
    Rising,
    /// A direction by its number: one over 1 is refused with 4.
    Number(u32),
}

impl Edge {
    /// The number of the direction.
    pub const fn number(self) -> u32 {
        match self {
            Edge::Falling => 0,
            Edge::Rising => 1,
            Edge::Number(number) => number,
        }
    }
}

/// The name where the number has one.
impl From<u32> for Edge {
    fn from(number: u32) -> Edge {
        match number {
            0 => Edge::Falling,
            1 => Edge::Rising,
            _ => Edge::Number(number),
        }
    }
}

/// A step. Numbers may be any: those that document 01 has no register, pin or record for are refused.
#[derive(Clone, Copy, Debug, PartialEq, Eq, Hash)]
pub enum Step {
    /// A read of a register; 240 to 255 are those of the page that PPR selects.
    Read {
        /// The register's number.
        register: u32,
    },
    /// A write to a register, addressed likewise.
    Write {
        /// The register's number.
        register: u32,
        /// The byte written.
        value: u8,
    },
    /// An edge at a pin: pin k is that of source k, 0 to 7.
    Pin {
        /// The pin's number.
        pin: u32,
        /// The edge's direction.
        edge: Edge,
    },
    /// The watchdog's end of count.
    Watchdog,
    /// An edge at NMI.
    Nmi {
        /// The edge's direction.
        edge: Edge,
    },
    /// A request of a record of the channel list.
    Request {
        /// The record's position, from 0.
        record: u32,
    },
    /// An arbitration.
    Arbitrate,
    /// A return from an interrupt.
    Return,
    /// A reset.
    Reset,
    /// Any word, those of unknown kind included.
    Word(u64),
}

const FIRST_LARGEST: u32 = 0xFF_FFFF;
const SECOND_LARGEST: u32 = 0xFF;

impl Step {
    /// A read of a register by its number, such as those of [`register`](crate::register).
    pub const fn read(register: u8) -> Step {
        Step::Read { register: register as u32 }
    }

    /// A write to a register by its number.
    ///
    /// ```
    /// use st9::{register, Step};
    ///
    /// let write = Step::Write { register: 243, value: 0x10 };
    /// assert_eq!(Step::write(register::EIPR, 0x10), write);
    /// ```
    pub const fn write(register: u8, value: u8) -> Step {
        Step::Write { register: register as u32, value }
    }

    /// The step's word: kind * 2^48 + trigger * 2^32 + first * 2^8 + second.
    ///
    /// A number that a word has no room for becomes the largest that there is room for, which is refused likewise.
    ///
    /// ```
    /// use st9::Step;
    ///
    /// assert_eq!(Step::write(243, 0x10).word(), 0x0001_0000_0000_F310);
    /// assert_eq!(Step::Read { register: 1 << 24 }.word(), 0x0000_0000_FFFF_FF00);
    /// ```
    pub const fn word(self) -> u64 {
        match self {
            Step::Read { register } => packed(0, 0, register, 0),
            Step::Write { register, value } => packed(1, 0, register, value as u32),
            Step::Pin { pin, edge } => packed(2, 0, pin, edge.number()),
            Step::Watchdog => packed(2, 1, 0, 0),
            Step::Nmi { edge } => packed(2, 2, 0, edge.number()),
            Step::Request { record } => packed(2, 3, record, 0),
            Step::Arbitrate => packed(3, 0, 0, 0),
            Step::Return => packed(4, 0, 0, 0),
            Step::Reset => packed(5, 0, 0, 0),
            Step::Word(word) => word,
        }
    }

    /// The step that a word is, whatever stands in the parts that this kind of step does not use; `Word` where the kind
    /// is unknown.
    ///
    /// ```
    /// use st9::Step;
    ///
    /// assert_eq!(Step::of_word(0x0001_0000_0000_F310), Step::write(243, 0x10));
    /// assert_eq!(Step::of_word(0x0006_0000_0000_0000), Step::Word(0x0006_0000_0000_0000));
    /// ```
    pub fn of_word(word: u64) -> Step {
        let first = (word >> 8) as u32 & FIRST_LARGEST;
        let second = word as u8;
        let edge = Edge::from(u32::from(second));
        match (word >> 48, word >> 32 & 0xFFFF) {
            (0, _) => Step::Read { register: first },
            (1, _) => Step::Write { register: first, value: second },
            (2, 0) => Step::Pin { pin: first, edge },
            (2, 1) => Step::Watchdog,
            (2, 2) => Step::Nmi { edge },
            (2, 3) => Step::Request { record: first },
            (3, _) => Step::Arbitrate,
            (4, _) => Step::Return,
            (5, _) => Step::Reset,
            _ => Step::Word(word),
        }
    }
}

impl From<Step> for u64 {
    fn from(step: Step) -> u64 {
        step.word()
    }
}

const fn packed(kind: u64, trigger: u64, first: u32, second: u32) -> u64 {
    kind << 48 | trigger << 32 | fitted(first, FIRST_LARGEST) << 8 | fitted(second, SECOND_LARGEST)
}

const fn fitted(number: u32, largest: u32) -> u64 {
    if number < largest {
        number as u64
    } else {
        largest as u64
    }
}

#[cfg(test)]
mod tests {
    use super::*;

    /// The words that `include/st9.h` makes of the same numbers.
    #[test]
    fn words() {
        let falling = Edge::Falling;
        let number = Edge::Number(256);
        let expected = [
            (Step::Read { register: 243 }, 0x0000_0000_0000_F300),
            (Step::Read { register: u32::MAX }, 0x0000_0000_FFFF_FF00),
            (Step::Write { register: 243, value: 0xFF }, 0x0001_0000_0000_F3FF),
            (Step::Pin { pin: 2, edge: falling }, 0x0002_0000_0000_0200),
            (Step::Pin { pin: 2, edge: Edge::Rising }, 0x0002_0000_0000_0201),
            (Step::Pin { pin: u32::MAX, edge: number }, 0x0002_0000_FFFF_FFFF),
            (Step::Watchdog, 0x0002_0001_0000_0000),
            (Step::Nmi { edge: number }, 0x0002_0002_0000_00FF),
            (Step::Request { record: 11 }, 0x0002_0003_0000_0B00),
            (Step::Arbitrate, 0x0003_0000_0000_0000),
            (Step::Return, 0x0004_0000_0000_0000),
            (Step::Reset, 0x0005_0000_0000_0000),
            (Step::Word(u64::MAX), u64::MAX),
        ];
        for (step, word) in expected {
            assert_eq!(step.word(), word, "{step:?}");
            assert_eq!(Step::of_word(word).word(), word, "{step:?}");
        }
    }

    #[test]
    fn registers_by_number() {
        const READ: Step = Step::read(255);
        const WRITE: Step = Step::write(243, 0x10);
        assert_eq!(READ, Step::Read { register: 255 });
        assert_eq!(WRITE, Step::Write { register: 243, value: 0x10 });
    }

    #[test]
    fn edges_by_number() {
        assert_eq!(Edge::from(0), Edge::Falling);
        assert_eq!(Edge::from(1), Edge::Rising);
        assert_eq!(Edge::from(2), Edge::Number(2));
    }
}
