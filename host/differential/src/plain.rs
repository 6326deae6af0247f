//! The plain model, as scenarios call it.

use model::{Bounded, Ran, Waited};
use scenario::Model;
use st9::{
    Answer, Basis, Bound, Channel, Done, Effect, Premise, Refusal, RunError, Source, Step, Wait,
    WaitError,
};

/// The crate `model`.
#[derive(Clone, Copy, Debug)]
pub struct Plain;

impl Model for Plain {
    fn step(
        &self,
        image: &mut [u8],
        channels: &[Channel],
        memory: &mut [u8],
        step: Step,
    ) -> Result<Answer, Refusal> {
        answer(model::step(image, &records(channels), memory, step.word()))
    }

    fn run(
        &self,
        image: &mut [u8],
        channels: &[Channel],
        memory: &mut [u8],
        words: &[u64],
    ) -> Result<Done, RunError> {
        match model::run(image, &records(channels), memory, words) {
            Ran::NoSteps => Ok(Done { steps: 0, last: None }),
            Ran::Done { steps, last } => match answer(last) {
                Ok(last) => Ok(Done { steps, last: Some(last) }),
                Err(refusal) => panic!("the plain model calls a run done that was {refusal:?}"),
            },
            Ran::RefusedCall(why) => Err(RunError::Call(refusal(why))),
            Ran::RefusedStep { refusal: why, index } => {
                Err(RunError::Step { refusal: refusal(why), index })
            }
        }
    }

    fn wait(
        &self,
        image: &mut [u8],
        channels: &[Channel],
        memory: &mut [u8],
        source: Source,
        words: &[u64],
    ) -> Result<Wait, WaitError> {
        match model::wait(image, &records(channels), memory, source.0, words) {
            Waited::Ended { arbitrations } => Ok(Wait::Ended { arbitrations: arbitrations as u64 }),
            Waited::Acknowledged { arbitrations } => {
                Ok(Wait::Acknowledged { arbitrations: arbitrations as u64 })
            }
            Waited::RefusedCall(why) => Err(WaitError::Call(refusal(why))),
            Waited::RefusedStep { refusal: why, index, arbitrations } => Err(WaitError::Step {
                refusal: refusal(why),
                index,
                arbitrations: arbitrations as u64,
            }),
        }
    }

    fn bound(
        &self,
        image: &[u8],
        channels: &[Channel],
        source: Source,
        words: &[u64],
    ) -> Result<Bound, Refusal> {
        bounded(model::bound(image, &records(channels), source.0, words))
    }

    fn handler_bound(
        &self,
        image: &[u8],
        channels: &[Channel],
        source: Source,
        words: &[u64],
    ) -> Result<Bound, Refusal> {
        bounded(model::handler_bound(image, &records(channels), source.0, words))
    }

    fn view<'a>(&self, image: &'a [u8], page: u32) -> Result<&'a [u8], Refusal> {
        model::view(image, page).map_err(refusal)
    }
}

/// The plain model's records.
fn records(channels: &[Channel]) -> Vec<model::Channel> {
    let record = |channel: &Channel| {
        let Channel { page, idcr, ivr, dcpr, dapr, data, direction } = *channel;
        model::Channel { page, idcr, ivr, dcpr, dapr, data, direction }
    };
    channels.iter().map(record).collect()
}

fn answer(plain: model::Answer) -> Result<Answer, Refusal> {
    Ok(match plain {
        model::Answer::Byte(byte) => Answer::Byte(byte),
        model::Answer::Written { lost } => Answer::Written { erased: lost },
        model::Answer::Triggered { maskable, tlip } => {
            Answer::Triggered { maskable: effect(maskable), tlip: effect(tlip) }
        }
        model::Answer::Nothing => Answer::Nothing,
        model::Answer::TopLevel { vector } => Answer::TopLevel { vector },
        model::Answer::Interrupt { source, level, vector } => {
            Answer::Interrupt { source: Source(source.into()), level, vector }
        }
        model::Answer::Transferred { source, ended } => {
            Answer::Transferred { source: Source(source.into()), ended }
        }
        model::Answer::Returned => Answer::Returned,
        model::Answer::Reset => Answer::Reset,
        model::Answer::Refused(why) => return Err(refusal(why)),
    })
}

/// Either bound.
fn bounded(plain: Bounded) -> Result<Bound, Refusal> {
    let premise = match plain {
        Bounded::Refused(why) => return Err(refusal(why)),
        Bounded::Within { outranking, triggers, bound } => {
            return Ok(Bound::Within {
                outranking: outranking as u64,
                triggers: triggers as u64,
                bound: bound as u64,
            })
        }
        Bounded::Nested => Premise::Nested,
        Bounded::DmaEnabled => Premise::DmaEnabled,
        Bounded::TopLevelEnabled => Premise::TopLevelEnabled,
        Bounded::TopLevelInService => Premise::TopLevelInService,
        Bounded::NotPending => Premise::NotPending,
        Bounded::Masked => Premise::Masked,
        Bounded::LevelNotAbove => Premise::LevelNotAbove,
        Bounded::OtherStep { index } => Premise::OtherStep { index },
        Bounded::InterruptsDisabled { index } => Premise::InterruptsDisabled { index },
        Bounded::Changed { basis: changed, index } => {
            Premise::Changed { basis: basis(changed), index }
        }
    };
    Ok(Bound::Fails(premise))
}

fn basis(plain: model::Basis) -> Basis {
    match plain {
        model::Basis::Pending => Basis::Pending,
        model::Basis::Mode => Basis::Mode,
        model::Basis::CurrentLevel => Basis::CurrentLevel,
        model::Basis::TopLevel => Basis::TopLevel,
        model::Basis::Mask => Basis::Mask,
        model::Basis::DmaEnable => Basis::DmaEnable,
        model::Basis::Level => Basis::Level,
    }
}

fn effect(plain: model::Effect) -> Effect {
    match plain {
        model::Effect::NotSelected => Effect::NotSelected,
        model::Effect::Raised => Effect::Raised,
        model::Effect::Merged => Effect::Merged,
    }
}

/// By its number, which both have from the papers.
fn refusal(plain: model::Refusal) -> Refusal {
    Refusal::from_number(plain.number()).expect("a refusal of the papers")
}
