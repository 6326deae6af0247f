//! The two bounds of a source's wait: demand 3's, and the handlers' with reads and writes in the list.

use crate::run::count;
use crate::{calls, sys, words, Channel, Refusal, Source, Step};
use std::fmt;

/// What is promised of a source over a list of steps: by demand 3 (`bound`), or by the handlers' claim (`handler_bound`).
#[derive(Clone, Copy, Debug, PartialEq, Eq, Hash)]
pub enum Bound {
    /// All premises hold: the source is acknowledged by arbitration `bound` at the latest, if the list has that many,
    /// and is pending until then.
    Within {
        /// H: the unmasked sources outranking it that are pending at the start. A source outranks another if its level
        /// number is smaller or, at equal level, its own number is.
        outranking: u64,
        /// E: the triggers of unmasked sources outranking it in the list; of a handlers' bound those up to its
        /// acknowledgement, and the pending bits of such sources that writes raise.
        triggers: u64,
        /// H + E + 1.
        bound: u64,
    },
    /// Nothing is promised: the first premise that fails.
    Fails(Premise),
}

/// A premise that fails.
#[derive(Clone, Copy, Debug, PartialEq, Eq, Hash)]
pub enum Premise {
    /// Nested mode (IAM = 1).
    Nested,
    /// A record has DM = 1.
    DmaEnabled,
    /// TLNM or TLI is 1.
    TopLevelEnabled,
    /// The mark is set.
    TopLevelInService,
    /// The source is not pending.
    NotPending,
    /// The source is masked.
    Masked,
    /// The source's level is not above the current one.
    LevelNotAbove,
    /// A step that is no trigger, arbitration or return and is not refused; of a handlers' bound it is a reset.
    OtherStep {
        /// Its index, from 0.
        index: usize,
    },
    /// An arbitration with IEN = 0.
    InterruptsDisabled {
        /// Its index, from 0.
        index: usize,
    },
    /// Of a handlers' bound alone: a write that changed what the bound rests on.
    Changed {
        /// What it changed.
        basis: Basis,
        /// Its index, from 0.
        index: usize,
    },
}

/// What a handlers' bound rests on, beside the premises on the start; of several that a write changes, the first of these.
#[derive(Clone, Copy, Debug, PartialEq, Eq, Hash)]
pub enum Basis {
    /// The source's pending bit, which was 1.
    Pending,
    /// The mode, IAM.
    Mode,
    /// The current level, CPL.
    CurrentLevel,
    /// The top level's enables, TLI and TLNM.
    TopLevel,
    /// Each source's mask.
    Mask,
    /// Each record's DMA enable.
    DmaEnable,
    /// Each source's level.
    Level,
}

/// By which arbitration of the list the source is acknowledged at the latest, or the first premise of demand 3 that
/// fails. With reads or writes in the list ask [`handler_bound`]. A refused step is passed over, whatever it is: it
/// changes nothing and counts nowhere. Refused with 1, 2 or 4 as a wait report without a memory is. One allocation a
/// call, for the words of the steps; [`words::bound`] takes them ready.
///
/// ```
/// use st9::{bound, cicr, place, register, Bound, Premise, Source, Step};
///
/// let mut image = [0; st9::IMAGE_LENGTH];
/// let steps = [Step::Arbitrate];
/// let fails = Bound::Fails(Premise::NotPending);
/// assert_eq!(bound(&image, &[], Source::INTB0, &steps), Ok(fails));
///
/// image[place(0, register::CICR)] = cicr::IEN | cicr::CPL;
/// image[place(0, register::EIPR)] = 0x04;
/// image[place(0, register::EIMR)] = 0x04;
/// let within = Bound::Within { outranking: 0, triggers: 0, bound: 1 };
/// assert_eq!(bound(&image, &[], Source::INTB0, &steps), Ok(within));
/// ```
pub fn bound(
    image: &[u8],
    channels: &[Channel],
    source: Source,
    steps: &[Step],
) -> Result<Bound, Refusal> {
    words::bound(image, channels, source, &words::of(steps))
}

/// The same with reads and writes in the list, as a handler does them: by which arbitration of the list the source is
/// acknowledged at the latest, if the list has so many, or the first premise that fails of the steps up to its
/// acknowledgement: no reset, IEN = 1 at each arbitration, and no write that changes the mode, the current level, the
/// top level's enables, a source's mask, level or DMA enable, or that erases the source's pending bit. The answer has
/// what a write changed. Never above `bound`'s where both answer one. Refused with 1, 2 or 4 as a wait report
/// without a memory is. One allocation a call, for the words of the steps; [`words::handler_bound`] takes them ready.
///
/// ```
/// use st9::{cicr, handler_bound, place, register, Basis, Bound, Premise, Source, Step};
///
/// let mut image = [0; st9::IMAGE_LENGTH];
/// image[place(0, register::CICR)] = cicr::CPL; // the handler of INTB0 runs: IEN is 0
/// image[place(0, register::EIPR)] = 0x14; // INTB0 and INTC0 pending
/// image[place(0, register::EIMR)] = 0x14;
/// image[place(0, register::EIPLR)] = 0xE7; // INTB0 at level 2, INTC0 at level 4
///
/// let handler = |kept| [Step::write(register::EIPR, kept), Step::Return, Step::Arbitrate];
/// let within = Bound::Within { outranking: 1, triggers: 0, bound: 2 };
/// assert_eq!(handler_bound(&image, &[], Source::INTC0, &handler(0x10)), Ok(within));
///
/// let erased = Bound::Fails(Premise::Changed { basis: Basis::Pending, index: 0 });
/// assert_eq!(handler_bound(&image, &[], Source::INTC0, &handler(0x00)), Ok(erased));
/// ```
pub fn handler_bound(
    image: &[u8],
    channels: &[Channel],
    source: Source,
    steps: &[Step],
) -> Result<Bound, Refusal> {
    words::handler_bound(image, channels, source, &words::of(steps))
}

impl Bound {
    /// Either bound's answer.
    pub(crate) fn told(flat: &sys::Answer) -> Result<Bound, Refusal> {
        match flat.kind {
            sys::REFUSED_CALL => Err(Refusal::answered(flat.refusal)),
            sys::WITHIN => Ok(Bound::Within {
                outranking: flat.first,
                triggers: flat.second,
                bound: flat.third,
            }),
            _ => Ok(Bound::Fails(Premise::told(flat))),
        }
    }
}

impl Premise {
    fn told(flat: &sys::Answer) -> Premise {
        let index = count(flat.steps);
        match flat.kind {
            sys::NESTED => Premise::Nested,
            sys::DMA_ENABLED => Premise::DmaEnabled,
            sys::TOP_LEVEL_ENABLED => Premise::TopLevelEnabled,
            sys::TOP_LEVEL_IN_SERVICE => Premise::TopLevelInService,
            sys::NOT_PENDING => Premise::NotPending,
            sys::MASKED => Premise::Masked,
            sys::LEVEL_NOT_ABOVE => Premise::LevelNotAbove,
            sys::OTHER_STEP => Premise::OtherStep { index },
            sys::INTERRUPTS_DISABLED => Premise::InterruptsDisabled { index },
            sys::CHANGED => Premise::Changed { basis: Basis::told(flat.first), index },
            kind => calls::foreign("the kind of a bound", kind),
        }
    }

    /// The index of the step that breaks the premise, where it is one of steps.
    pub const fn index(self) -> Option<usize> {
        match self {
            Premise::OtherStep { index }
            | Premise::InterruptsDisabled { index }
            | Premise::Changed { index, .. } => Some(index),
            _ => None,
        }
    }
}

impl Basis {
    fn told(number: u64) -> Basis {
        match number {
            sys::CHANGED_PENDING => Basis::Pending,
            sys::CHANGED_MODE => Basis::Mode,
            sys::CHANGED_CURRENT_LEVEL => Basis::CurrentLevel,
            sys::CHANGED_TOP_LEVEL => Basis::TopLevel,
            sys::CHANGED_MASK => Basis::Mask,
            sys::CHANGED_DMA_ENABLE => Basis::DmaEnable,
            sys::CHANGED_LEVEL => Basis::Level,
            number => calls::foreign("what a write changed", number),
        }
    }

    /// What a write does to it: `changes the mode (IAM)`.
    pub fn change(self) -> String {
        match self {
            Basis::Pending => format!("erases {self}"),
            _ => format!("changes {self}"),
        }
    }
}

/// `by arbitration 3 at the latest, H 1, E 1`, `none: the source is masked`.
impl fmt::Display for Bound {
    fn fmt(&self, f: &mut fmt::Formatter<'_>) -> fmt::Result {
        f.pad(&match *self {
            Bound::Within { outranking, triggers, bound } => {
                format!("by arbitration {bound} at the latest, H {outranking}, E {triggers}")
            }
            Bound::Fails(Premise::Changed { basis, index }) => {
                format!("none: the write at step {index} {}", basis.change())
            }
            Bound::Fails(premise) => match premise.index() {
                Some(index) => format!("none: {premise} at step {index}"),
                None => format!("none: {premise}"),
            },
        })
    }
}

/// `nested mode (IAM = 1)`, `a write that changes the mode (IAM)`: without the step.
impl fmt::Display for Premise {
    fn fmt(&self, f: &mut fmt::Formatter<'_>) -> fmt::Result {
        let words = match self {
            Premise::Nested => "nested mode (IAM = 1)",
            Premise::DmaEnabled => "a channel has DMA enabled (DM = 1)",
            Premise::TopLevelEnabled => "top level enabled (TLNM or TLI is 1)",
            Premise::TopLevelInService => "top level in service (the mark is set)",
            Premise::NotPending => "the source is not pending",
            Premise::Masked => "the source is masked",
            Premise::LevelNotAbove => "the source's level is not above the current one",
            Premise::OtherStep { .. } => "a step that is no trigger, arbitration or return",
            Premise::InterruptsDisabled { .. } => {
                "an arbitration with interrupts disabled (IEN = 0)"
            }
            Premise::Changed { basis, .. } => {
                return f.pad(&format!("a write that {}", basis.change()))
            }
        };
        f.pad(words)
    }
}

/// `the mode (IAM)`.
impl fmt::Display for Basis {
    fn fmt(&self, f: &mut fmt::Formatter<'_>) -> fmt::Result {
        f.pad(match self {
            Basis::Pending => "the source's pending bit",
            Basis::Mode => "the mode (IAM)",
            Basis::CurrentLevel => "the current level (CPL)",
            Basis::TopLevel => "the top level's enables (TLI or TLNM)",
            Basis::Mask => "a source's mask",
            Basis::DmaEnable => "a channel's DMA enable (DM)",
            Basis::Level => "a source's level",
        })
    }
}

#[cfg(test)]
mod tests {
    use super::*;

    /// The kinds and changes by their numbers in `include/st9.h`.
    #[test]
    fn premises_by_number() {
        let index = 5;
        let changed = |basis| Premise::Changed { basis, index };
        let expected = [
            (15, 0, Premise::Nested),
            (16, 0, Premise::DmaEnabled),
            (17, 0, Premise::TopLevelEnabled),
            (18, 0, Premise::TopLevelInService),
            (19, 0, Premise::NotPending),
            (20, 0, Premise::Masked),
            (21, 0, Premise::LevelNotAbove),
            (22, 0, Premise::OtherStep { index }),
            (23, 0, Premise::InterruptsDisabled { index }),
            (25, 1, changed(Basis::Pending)),
            (25, 2, changed(Basis::Mode)),
            (25, 3, changed(Basis::CurrentLevel)),
            (25, 4, changed(Basis::TopLevel)),
            (25, 5, changed(Basis::Mask)),
            (25, 6, changed(Basis::DmaEnable)),
            (25, 7, changed(Basis::Level)),
        ];
        for (kind, first, premise) in expected {
            let flat = sys::Answer { kind, first, steps: 5, ..sys::Answer::default() };
            assert_eq!(Bound::told(&flat), Ok(Bound::Fails(premise)));
        }
    }
}
