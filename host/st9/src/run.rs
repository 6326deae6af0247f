//! Runs and the wait report.

use crate::text::{counted, refused};
use crate::{calls, sys, words, Answer, Channel, Refusal, Source, Step};
use std::error::Error;
use std::fmt;

/// A run whose steps were all done.
#[derive(Clone, Copy, Debug, PartialEq, Eq, Hash)]
pub struct Done {
    /// How many steps were done.
    pub steps: usize,
    /// The answer of the last one; none for an empty list.
    pub last: Option<Answer>,
}

/// A run that was refused.
#[derive(Clone, Copy, Debug, PartialEq, Eq, Hash)]
pub enum RunError {
    /// Refused before any step: the image's length, the channel list or the memory's length.
    Call(Refusal),
    /// Refused at a step; image and memory are as the steps before it left them.
    Step {
        /// Why.
        refusal: Refusal,
        /// The step's index, from 0.
        index: usize,
    },
}

/// What a wait report answers.
#[derive(Clone, Copy, Debug, PartialEq, Eq, Hash)]
pub enum Wait {
    /// The source was acknowledged by an interrupt, at the last of so many arbitrations in the list.
    Acknowledged {
        /// The arbitrations made, the last included.
        arbitrations: u64,
    },
    /// The list ended first.
    Ended {
        /// The arbitrations made.
        arbitrations: u64,
    },
}

/// A wait report that was refused.
#[derive(Clone, Copy, Debug, PartialEq, Eq, Hash)]
pub enum WaitError {
    /// Refused before any step: the image's length, the channel list, the memory's length or the source's number.
    Call(Refusal),
    /// Refused at a step; image and memory are as the steps before it left them.
    Step {
        /// Why.
        refusal: Refusal,
        /// The step's index, from 0.
        index: usize,
        /// The arbitrations made before it.
        arbitrations: u64,
    },
}

/// Does the steps one after another, up to the first that is refused. One allocation a call, for the words of the
/// steps; [`words::run`] takes them ready.
///
/// ```
/// use st9::{register, run, Refusal, RunError, Step};
///
/// let mut image = [0; st9::IMAGE_LENGTH];
/// let steps = [Step::write(register::EIMR, 0x14), Step::Return, Step::Read { register: 256 }];
/// let done = run(&mut image, &[], &mut [], &steps[..2])?;
/// assert_eq!(done.to_string(), "done: 2 steps, last answer: returned");
/// let refused = RunError::Step { refusal: Refusal::Register, index: 2 };
/// assert_eq!(run(&mut image, &[], &mut [], &steps), Err(refused));
/// # Ok::<(), RunError>(())
/// ```
pub fn run(
    image: &mut [u8],
    channels: &[Channel],
    memory: &mut [u8],
    steps: &[Step],
) -> Result<Done, RunError> {
    words::run(image, channels, memory, &words::of(steps))
}

/// Does the steps until the source is acknowledged by an interrupt, or the list ends, or a step is refused, and counts
/// the arbitrations. One allocation a call, for the words of the steps; [`words::wait`] takes them ready.
///
/// ```
/// use st9::{wait, Refusal, Source, Step, WaitError};
///
/// let mut image = [0; st9::IMAGE_LENGTH];
/// let steps = [Step::Arbitrate];
/// let waited = wait(&mut image, &[], &mut [], Source::INTB1, &steps)?;
/// assert_eq!(waited.to_string(), "not acknowledged, the list ended after 1 arbitration");
/// let refused = WaitError::Call(Refusal::Number);
/// assert_eq!(wait(&mut image, &[], &mut [], Source::channel(0), &steps), Err(refused));
/// # Ok::<(), WaitError>(())
/// ```
pub fn wait(
    image: &mut [u8],
    channels: &[Channel],
    memory: &mut [u8],
    source: Source,
    steps: &[Step],
) -> Result<Wait, WaitError> {
    words::wait(image, channels, memory, source, &words::of(steps))
}

impl Done {
    /// A run's answer.
    pub(crate) fn told(flat: &sys::Answer) -> Result<Done, RunError> {
        let refusal = || Refusal::answered(flat.refusal);
        let steps = count(flat.steps);
        match flat.kind {
            sys::REFUSED_CALL => Err(RunError::Call(refusal())),
            sys::REFUSED_STEP => Err(RunError::Step { refusal: refusal(), index: steps }),
            sys::NO_STEP => Ok(Done { steps, last: None }),
            _ => Ok(Done { steps, last: Some(Answer::told(flat)) }),
        }
    }
}

impl Wait {
    /// A wait report's answer.
    pub(crate) fn told(flat: &sys::Answer) -> Result<Wait, WaitError> {
        let arbitrations = flat.first;
        match flat.kind {
            sys::ACKNOWLEDGED => Ok(Wait::Acknowledged { arbitrations }),
            sys::ENDED => Ok(Wait::Ended { arbitrations }),
            sys::REFUSED_CALL => Err(WaitError::Call(Refusal::answered(flat.refusal))),
            sys::REFUSED_STEP => Err(WaitError::Step {
                refusal: Refusal::answered(flat.refusal),
                index: count(flat.steps),
                arbitrations,
            }),
            kind => calls::foreign("the kind of a wait report", kind),
        }
    }
}

/// A number of steps or an index, which no list of words can have beyond `usize`.
pub(crate) fn count(number: u64) -> usize {
    usize::try_from(number).unwrap_or_else(|_| calls::foreign("a number of steps", number))
}

/// `done: 3 steps, last answer: byte 14h`.
impl fmt::Display for Done {
    fn fmt(&self, f: &mut fmt::Formatter<'_>) -> fmt::Result {
        let steps = counted(self.steps as u64, "step");
        let last = match self.last {
            Some(answer) => answer.to_string(),
            None => "none (the list is empty)".to_string(),
        };
        f.pad(&format!("done: {steps}, last answer: {last}"))
    }
}

/// `acknowledged by arbitration 3`.
impl fmt::Display for Wait {
    fn fmt(&self, f: &mut fmt::Formatter<'_>) -> fmt::Result {
        f.pad(&match *self {
            Wait::Acknowledged { arbitrations } => {
                format!("acknowledged by arbitration {arbitrations}")
            }
            Wait::Ended { arbitrations } => {
                let made = counted(arbitrations, "arbitration");
                format!("not acknowledged, the list ended after {made}")
            }
        })
    }
}

/// `refused with 3 at step 2 (..)`, `refused with 1 (..), before any step`.
impl fmt::Display for RunError {
    fn fmt(&self, f: &mut fmt::Formatter<'_>) -> fmt::Result {
        f.pad(&match *self {
            RunError::Call(refusal) => refused_before(refusal),
            RunError::Step { refusal, index } => refused_at(refusal, index, ""),
        })
    }
}

/// `refused with 3 at step 2, after 1 arbitration (..)`, `refused with 1 (..), before any step`.
impl fmt::Display for WaitError {
    fn fmt(&self, f: &mut fmt::Formatter<'_>) -> fmt::Result {
        f.pad(&match *self {
            WaitError::Call(refusal) => refused_before(refusal),
            WaitError::Step { refusal, index, arbitrations } => {
                let made = counted(arbitrations, "arbitration");
                refused_at(refusal, index, &format!(", after {made}"))
            }
        })
    }
}

fn refused_before(refusal: Refusal) -> String {
    format!("{}, before any step", refused(refusal, ""))
}

fn refused_at(refusal: Refusal, index: usize, made: &str) -> String {
    refused(refusal, &format!(" at step {index}{made}"))
}

impl Error for RunError {}

impl Error for WaitError {}
