//! Steps, runs and the wait report.

use crate::arbitration::{arbitrate, return_from};
use crate::channels::{check_list, check_source};
use crate::image::{Image, MOST_MEMORY};
use crate::registers::{read, reset, write};
use crate::triggers::{trigger, Trigger};
use crate::{Answer, Channel, Ran, Refusal, Waited};

/// A step of a known kind.
#[derive(Clone, Copy)]
pub(crate) enum Step {
    Read { register: u32 },
    Write { register: u32, value: u8 },
    Trigger(Trigger),
    Arbitrate,
    Return,
    Reset,
}

impl Step {
    /// The step of a word: kind * 2^48 + trigger * 2^32 + first * 2^8 + second. Refusal 7: a kind of step or of trigger that is unknown.
    pub(crate) fn decode(word: u64) -> Result<Step, Refusal> {
        let first = (word >> 8) as u32 & 0xFF_FFFF;
        let second = word as u8;
        match word >> 48 {
            0 => Ok(Step::Read { register: first }),
            1 => Ok(Step::Write { register: first, value: second }),
            2 => decode_trigger((word >> 32) as u16, first, second).map(Step::Trigger),
            3 => Ok(Step::Arbitrate),
            4 => Ok(Step::Return),
            5 => Ok(Step::Reset),
            _ => Err(Refusal::UnknownKind),
        }
    }
}

/// The trigger of a word's fields.
fn decode_trigger(kind: u16, first: u32, second: u8) -> Result<Trigger, Refusal> {
    match kind {
        0 => Ok(Trigger::PinEdge { pin: first, direction: second }),
        1 => Ok(Trigger::Watchdog),
        2 => Ok(Trigger::NmiEdge { direction: second }),
        3 => Ok(Trigger::Request { record: first }),
        _ => Err(Refusal::UnknownKind),
    }
}

/// Refusals 1 and 2: the image's length, then the list.
pub(crate) fn admit<'a>(
    image: &'a mut [u8],
    channels: &[Channel],
) -> Result<&'a mut Image, Refusal> {
    let image = image.try_into().map_err(|_| Refusal::BadLength)?;
    check_list(channels)?;
    Ok(image)
}

/// Refusals 1, 2 and 8: the same, then the memory.
fn admit_all<'a>(
    image: &'a mut [u8],
    channels: &[Channel],
    memory: &[u8],
) -> Result<&'a mut Image, Refusal> {
    let image = admit(image, channels)?;
    if memory.len() > MOST_MEMORY {
        return Err(Refusal::BadMemory);
    }
    Ok(image)
}

/// Performs a step on an image, a list and a memory that are good. A refused one changes nothing.
fn perform(
    image: &mut Image,
    channels: &[Channel],
    memory: &mut [u8],
    step: Step,
) -> Result<Answer, Refusal> {
    match step {
        Step::Read { register } => read(image, channels, register),
        Step::Write { register, value } => write(image, channels, register, value),
        Step::Trigger(kind) => trigger(image, channels, kind),
        Step::Arbitrate => arbitrate(image, channels, memory),
        Step::Return => {
            return_from(image);
            Ok(Answer::Returned)
        }
        Step::Reset => {
            reset(image);
            Ok(Answer::Reset)
        }
    }
}

/// Performs the step of a word likewise, and says which it was.
pub(crate) fn attempt(
    image: &mut Image,
    channels: &[Channel],
    memory: &mut [u8],
    word: u64,
) -> Result<(Step, Answer), Refusal> {
    let step = Step::decode(word)?;
    let answer = perform(image, channels, memory, step)?;
    Ok((step, answer))
}

/// One step.
pub fn step(image: &mut [u8], channels: &[Channel], memory: &mut [u8], word: u64) -> Answer {
    admit_all(image, channels, memory)
        .and_then(|image| attempt(image, channels, memory, word))
        .map_or_else(Answer::Refused, |(_, answer)| answer)
}

/// The steps in order, up to the first that is refused.
pub fn run(image: &mut [u8], channels: &[Channel], memory: &mut [u8], words: &[u64]) -> Ran {
    let image = match admit_all(image, channels, memory) {
        Ok(image) => image,
        Err(refusal) => return Ran::RefusedCall(refusal),
    };
    let mut last = None;
    for (index, &word) in words.iter().enumerate() {
        match attempt(image, channels, memory, word) {
            Ok((_, answer)) => last = Some(answer),
            Err(refusal) => return Ran::RefusedStep { refusal, index },
        }
    }
    match last {
        None => Ran::NoSteps,
        Some(last) => Ran::Done { steps: words.len(), last },
    }
}

/// The wait report: the steps until the named source is acknowledged by an interrupt, or the list ends, or a step is refused.
pub fn wait(
    image: &mut [u8],
    channels: &[Channel],
    memory: &mut [u8],
    source: u32,
    words: &[u64],
) -> Waited {
    let admitted = admit_all(image, channels, memory).and_then(|image| {
        let source = check_source(channels, source)?;
        Ok((image, source))
    });
    let (image, awaited) = match admitted {
        Ok(admitted) => admitted,
        Err(refusal) => return Waited::RefusedCall(refusal),
    };
    let mut arbitrations = 0;
    for (index, &word) in words.iter().enumerate() {
        match attempt(image, channels, memory, word) {
            Ok((Step::Arbitrate, answer)) => {
                arbitrations += 1;
                if answer.acknowledges(awaited) {
                    return Waited::Acknowledged { arbitrations };
                }
            }
            Ok(_) => {}
            Err(refusal) => return Waited::RefusedStep { refusal, index, arbitrations },
        }
    }
    Waited::Ended { arbitrations }
}
