//! The proved model, as scenarios call it.

use crate::Model;
use st9::{Answer, Bound, Channel, Done, Refusal, RunError, Source, Step, Wait, WaitError};

/// The library `st9`.
#[derive(Clone, Copy, Debug)]
pub struct Proved;

impl Model for Proved {
    fn step(
        &self,
        image: &mut [u8],
        channels: &[Channel],
        memory: &mut [u8],
        step: Step,
    ) -> Result<Answer, Refusal> {
        st9::step(image, channels, memory, step)
    }

    fn run(
        &self,
        image: &mut [u8],
        channels: &[Channel],
        memory: &mut [u8],
        words: &[u64],
    ) -> Result<Done, RunError> {
        st9::words::run(image, channels, memory, words)
    }

    fn wait(
        &self,
        image: &mut [u8],
        channels: &[Channel],
        memory: &mut [u8],
        source: Source,
        words: &[u64],
    ) -> Result<Wait, WaitError> {
        st9::words::wait(image, channels, memory, source, words)
    }

    fn bound(
        &self,
        image: &[u8],
        channels: &[Channel],
        source: Source,
        words: &[u64],
    ) -> Result<Bound, Refusal> {
        st9::words::bound(image, channels, source, words)
    }

    fn handler_bound(
        &self,
        image: &[u8],
        channels: &[Channel],
        source: Source,
        words: &[u64],
    ) -> Result<Bound, Refusal> {
        st9::words::handler_bound(image, channels, source, words)
    }

    fn view<'a>(&self, image: &'a [u8], page: u32) -> Result<&'a [u8], Refusal> {
        st9::view(image, page)
    }
}
