//! What is answered: of a step, a run, a wait report and a bound.

/// The refusals of document 01 and of request §1, with their numbers.
#[derive(Clone, Copy, Debug, PartialEq, Eq, Hash)]
pub enum Refusal {
    /// The image's length is not 1,265.
    BadLength = 1,
    /// The channel list breaks a rule.
    BadList = 2,
    /// A register that is not modelled or over 255; a viewed page over 63.
    BadRegister = 3,
    /// A pin over 7, a direction over 1, a record or source that isn't there.
    BadNumber = 4,
    /// The DMA winner's memory address is not below the memory's length.
    BadAddress = 5,
    /// The DMA winner has its pair or its address over 223; on the memory path either pointer over 222.
    BadPointer = 6,
    /// A step or trigger of unknown kind.
    UnknownKind = 7,
    /// The memory is longer than 65,536 bytes.
    BadMemory = 8,
}

impl Refusal {
    /// The papers' number.
    pub fn number(self) -> u64 {
        self as u64
    }
}

/// What a trigger did to a pending bit.
#[derive(Clone, Copy, Debug, PartialEq, Eq, Hash)]
pub enum Effect {
    NotSelected,
    Raised,
    /// The bit was 1 already.
    Merged,
}

/// The answer of one step.
#[derive(Clone, Copy, Debug, PartialEq, Eq, Hash)]
pub enum Answer {
    /// A read.
    Byte(u8),
    /// A write, with the EIPR bits that it took from 1 to 0.
    Written {
        lost: u8,
    },
    /// A trigger, with what it did to the maskable bit and to TLIP.
    Triggered {
        maskable: Effect,
        tlip: Effect,
    },
    /// An arbitration that found nothing.
    Nothing,
    /// An arbitration that acknowledged the top level.
    TopLevel {
        vector: u8,
    },
    /// An arbitration that acknowledged an interrupt.
    Interrupt {
        source: u8,
        level: u8,
        vector: u8,
    },
    /// An arbitration that served DMA; `ended` with the block's last byte.
    Transferred {
        source: u8,
        ended: bool,
    },
    Returned,
    Reset,
    Refused(Refusal),
}

impl Answer {
    /// Whether it is of an arbitration that acknowledged this source by an interrupt.
    pub(crate) fn acknowledges(self, awaited: u8) -> bool {
        matches!(self, Answer::Interrupt { source, .. } if source == awaited)
    }
}

/// The answer of a run.
#[derive(Clone, Copy, Debug, PartialEq, Eq, Hash)]
pub enum Ran {
    /// The list was empty.
    NoSteps,
    /// All steps were done; `last` is the answer of the last one.
    Done { steps: usize, last: Answer },
    /// Refused before any step.
    RefusedCall(Refusal),
    /// The step at `index` was refused, those before it were done.
    RefusedStep { refusal: Refusal, index: usize },
}

/// The answer of a wait report. `arbitrations` counts those made, the last included, a refused one not.
#[derive(Clone, Copy, Debug, PartialEq, Eq, Hash)]
pub enum Waited {
    /// The list ended before the source was acknowledged.
    Ended { arbitrations: usize },
    /// The source was acknowledged by an interrupt.
    Acknowledged { arbitrations: usize },
    /// Refused before any step.
    RefusedCall(Refusal),
    /// The step at `index` was refused, those before it were done.
    RefusedStep { refusal: Refusal, index: usize, arbitrations: usize },
}

/// What a write of a handler may not change; of several that it changes the first is answered.
#[derive(Clone, Copy, Debug, PartialEq, Eq, Hash)]
pub enum Basis {
    /// Our pending bit, which was 1.
    Pending,
    /// IAM.
    Mode,
    /// CPL.
    CurrentLevel,
    /// TLI or TLNM.
    TopLevel,
    /// Any source's.
    Mask,
    /// Any record's DM.
    DmaEnable,
    /// Any source's.
    Level,
}

/// The answer of either bound: the first premise that fails, or the bound.
#[derive(Clone, Copy, Debug, PartialEq, Eq, Hash)]
pub enum Bounded {
    Refused(Refusal),
    /// IAM = 1.
    Nested,
    /// Some record has DM = 1.
    DmaEnabled,
    /// TLNM or TLI is 1.
    TopLevelEnabled,
    /// The mark is set.
    TopLevelInService,
    NotPending,
    Masked,
    /// The source's level number is not strictly below CPL.
    LevelNotAbove,
    /// The first step that is neither refused nor a trigger, arbitration or return; in handlers a reset.
    OtherStep {
        index: usize,
    },
    /// The first arbitration that gets IEN = 0.
    InterruptsDisabled {
        index: usize,
    },
    /// In handlers: the first write that changes what the bound rests on.
    Changed {
        basis: Basis,
        index: usize,
    },
    /// All premises hold: H, E and H + E + 1.
    Within {
        outranking: usize,
        triggers: usize,
        bound: usize,
    },
}
