//! The plain model's answers in the flat form of `include/st9.h`.

use model::{Answer, Basis, Bounded, Effect, Ran, Refusal, Waited};
use st9::sys;

/// An answer of a kind whose fields are all 0.
fn of_kind(kind: u64) -> sys::Answer {
    sys::Answer { kind, ..sys::Answer::default() }
}

/// An answer of a kind with its first field.
fn with_first(kind: u64, first: u64) -> sys::Answer {
    sys::Answer { first, ..of_kind(kind) }
}

/// An answer of a kind with the index of a step.
fn with_steps(kind: u64, steps: usize) -> sys::Answer {
    sys::Answer { steps: steps as u64, ..of_kind(kind) }
}

/// A refusal before any step.
pub fn refused_call(refusal: Refusal) -> sys::Answer {
    refused(sys::REFUSED_CALL, refusal)
}

/// A refusal of a kind.
fn refused(kind: u64, refusal: Refusal) -> sys::Answer {
    sys::Answer { refusal: refusal.number(), ..of_kind(kind) }
}

/// A refusal at a step of a run or a wait.
fn refused_step(refusal: Refusal, index: usize, arbitrations: usize) -> sys::Answer {
    sys::Answer {
        steps: index as u64,
        first: arbitrations as u64,
        ..refused(sys::REFUSED_STEP, refusal)
    }
}

/// The number of an effect.
fn effect(effect: Effect) -> u64 {
    match effect {
        Effect::NotSelected => sys::NOT_SELECTED,
        Effect::Raised => sys::RAISED,
        Effect::Merged => sys::MERGED,
    }
}

/// The answer of a step.
pub fn step(answer: Answer) -> sys::Answer {
    match answer {
        Answer::Byte(byte) => with_first(sys::BYTE, byte.into()),
        Answer::Written { lost } => with_first(sys::WRITTEN, lost.into()),
        Answer::Triggered { maskable, tlip } => {
            sys::Answer { second: effect(tlip), ..with_first(sys::TRIGGERED, effect(maskable)) }
        }
        Answer::Nothing => of_kind(sys::NOTHING),
        Answer::TopLevel { vector } => {
            sys::Answer { third: vector.into(), ..of_kind(sys::TOP_LEVEL) }
        }
        Answer::Interrupt { source, level, vector } => sys::Answer {
            second: level.into(),
            third: vector.into(),
            ..with_first(sys::INTERRUPT, source.into())
        },
        Answer::Transferred { source, ended } => {
            sys::Answer { second: ended.into(), ..with_first(sys::TRANSFERRED, source.into()) }
        }
        Answer::Returned => of_kind(sys::RETURNED),
        Answer::Reset => of_kind(sys::RESET),
        Answer::Refused(refusal) => refused(sys::REFUSED, refusal),
    }
}

/// The answer of a run.
pub fn run(answer: Ran) -> sys::Answer {
    match answer {
        Ran::NoSteps => of_kind(sys::NO_STEP),
        Ran::Done { steps, last } => sys::Answer { steps: steps as u64, ..step(last) },
        Ran::RefusedCall(refusal) => refused_call(refusal),
        Ran::RefusedStep { refusal, index } => refused_step(refusal, index, 0),
    }
}

/// The answer of a wait report.
pub fn wait(answer: Waited) -> sys::Answer {
    match answer {
        Waited::Ended { arbitrations } => with_first(sys::ENDED, arbitrations as u64),
        Waited::Acknowledged { arbitrations } => with_first(sys::ACKNOWLEDGED, arbitrations as u64),
        Waited::RefusedCall(refusal) => refused_call(refusal),
        Waited::RefusedStep { refusal, index, arbitrations } => {
            refused_step(refusal, index, arbitrations)
        }
    }
}

/// The number of what a write changed.
fn basis(basis: Basis) -> u64 {
    match basis {
        Basis::Pending => sys::CHANGED_PENDING,
        Basis::Mode => sys::CHANGED_MODE,
        Basis::CurrentLevel => sys::CHANGED_CURRENT_LEVEL,
        Basis::TopLevel => sys::CHANGED_TOP_LEVEL,
        Basis::Mask => sys::CHANGED_MASK,
        Basis::DmaEnable => sys::CHANGED_DMA_ENABLE,
        Basis::Level => sys::CHANGED_LEVEL,
    }
}

/// The answer of either bound.
pub fn bound(answer: Bounded) -> sys::Answer {
    match answer {
        Bounded::Refused(refusal) => refused_call(refusal),
        Bounded::Nested => of_kind(sys::NESTED),
        Bounded::DmaEnabled => of_kind(sys::DMA_ENABLED),
        Bounded::TopLevelEnabled => of_kind(sys::TOP_LEVEL_ENABLED),
        Bounded::TopLevelInService => of_kind(sys::TOP_LEVEL_IN_SERVICE),
        Bounded::NotPending => of_kind(sys::NOT_PENDING),
        Bounded::Masked => of_kind(sys::MASKED),
        Bounded::LevelNotAbove => of_kind(sys::LEVEL_NOT_ABOVE),
        Bounded::OtherStep { index } => with_steps(sys::OTHER_STEP, index),
        Bounded::InterruptsDisabled { index } => with_steps(sys::INTERRUPTS_DISABLED, index),
        Bounded::Changed { basis: changed, index } => {
            sys::Answer { first: basis(changed), ..with_steps(sys::CHANGED, index) }
        }
        Bounded::Within { outranking, triggers, bound } => sys::Answer {
            second: triggers as u64,
            third: bound as u64,
            ..with_first(sys::WITHIN, outranking as u64)
        },
    }
}
