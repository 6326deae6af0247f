//! [`run`](fn@crate::run), [`wait`](fn@crate::wait), [`bound`](fn@crate::bound) and
//! [`handler_bound`](fn@crate::handler_bound) over words, for lists that are kept and run many times.
//!
//! The functions of the crate's root make the words of their steps at each call, in one allocation, and call these.
//!
//! ```
//! use st9::{words, Step};
//!
//! let mut image = [0; st9::IMAGE_LENGTH];
//! let list = words::of(&[Step::Arbitrate, Step::Return]);
//! for _ in 0..1000 {
//!     assert_eq!(words::run(&mut image, &[], &mut [], &list)?.steps, 2);
//! }
//! # Ok::<(), st9::RunError>(())
//! ```

use crate::{calls, Bound, Channel, Done, Refusal, RunError, Source, Step, Wait, WaitError};

/// The words of steps, in their order.
pub fn of(steps: &[Step]) -> Vec<u64> {
    steps.iter().map(|step| step.word()).collect()
}

/// Does the steps one after another, up to the first that is refused.
pub fn run(
    image: &mut [u8],
    channels: &[Channel],
    memory: &mut [u8],
    words: &[u64],
) -> Result<Done, RunError> {
    Done::told(&calls::run(image, channels, memory, words))
}

/// Does the steps until the source is acknowledged by an interrupt, or the list ends, or a step is refused, and counts
/// the arbitrations.
pub fn wait(
    image: &mut [u8],
    channels: &[Channel],
    memory: &mut [u8],
    source: Source,
    words: &[u64],
) -> Result<Wait, WaitError> {
    Wait::told(&calls::wait(image, channels, memory, source.0, words))
}

/// Demand 3's bound over triggers, arbitrations and returns.
pub fn bound(
    image: &[u8],
    channels: &[Channel],
    source: Source,
    words: &[u64],
) -> Result<Bound, Refusal> {
    Bound::told(&calls::bound(image, channels, source.0, words))
}

/// The handlers' bound, with reads and writes in the list.
pub fn handler_bound(
    image: &[u8],
    channels: &[Channel],
    source: Source,
    words: &[u64],
) -> Result<Bound, Refusal> {
    Bound::told(&calls::handler_bound(image, channels, source.0, words))
}
