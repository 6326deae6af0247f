//! What a bound claims, followed through the calls: on both models or on the plain one alone.

use crate::places;
use crate::{flat, Pair};
use model::Channel;
use st9::sys;

/// An image, a channel list and a memory that calls are made on.
pub trait Calls {
    fn step(&mut self, word: u64) -> sys::Answer;
    fn wait(&mut self, source: u32, words: &[u64]) -> sys::Answer;
    /// The image and the memory as they stand.
    fn image(&self) -> &[u8];
    fn memory(&self) -> &[u8];
    fn channels(&self) -> &[Channel];
}

impl Calls for Pair {
    fn step(&mut self, word: u64) -> sys::Answer {
        Pair::step(self, word)
    }

    fn wait(&mut self, source: u32, words: &[u64]) -> sys::Answer {
        Pair::wait(self, source, words)
    }

    fn image(&self) -> &[u8] {
        Pair::image(self)
    }

    fn memory(&self) -> &[u8] {
        Pair::memory(self)
    }

    fn channels(&self) -> &[Channel] {
        Pair::channels(self)
    }
}

/// The plain model alone.
pub struct Alone {
    image: Vec<u8>,
    memory: Vec<u8>,
    channels: Vec<Channel>,
}

impl Alone {
    pub fn new(image: &[u8], channels: &[Channel], memory: &[u8]) -> Alone {
        Alone { image: image.to_vec(), memory: memory.to_vec(), channels: channels.to_vec() }
    }
}

impl Calls for Alone {
    fn step(&mut self, word: u64) -> sys::Answer {
        flat::step(model::step(&mut self.image, &self.channels, &mut self.memory, word))
    }

    fn wait(&mut self, source: u32, words: &[u64]) -> sys::Answer {
        flat::wait(model::wait(&mut self.image, &self.channels, &mut self.memory, source, words))
    }

    fn image(&self) -> &[u8] {
        &self.image
    }

    fn memory(&self) -> &[u8] {
        &self.memory
    }

    fn channels(&self) -> &[Channel] {
        &self.channels
    }
}

/// A bound that was answered for a source over a list.
#[derive(Clone, Copy, Debug)]
pub struct Claim<'a> {
    pub source: u32,
    pub words: &'a [u64],
    pub bound: sys::Answer,
}

impl Claim<'_> {
    /// The source is still pending.
    fn check_pending(&self, calls: &impl Calls) {
        assert!(places::is_pending(calls.image(), calls.channels(), self.source), "{self:?}");
    }
}

/// What became of the sources that a bound was given for.
#[derive(Debug, Default)]
pub struct Waited {
    pub acknowledged: u64,
    /// Those by the very arbitration of the bound, and of these those with H + E > 0.
    pub at_the_bound: u64,
    pub at_a_bound_over_one: u64,
    pub ended: u64,
    pub refused: u64,
    /// Lists followed call by call, refused ones passed over, and those acknowledged.
    pub followed: u64,
    pub followed_to_acknowledgement: u64,
    /// Of these those by the very arbitration of the bound with H + E > 0, and with E > 0.
    pub followed_to_a_bound_over_one: u64,
    pub followed_to_a_bound_with_events: u64,
}

impl Waited {
    /// The wait report is acknowledged within the bound, or made at most H + E arbitrations with the source still pending.
    pub fn check_report(&mut self, mut calls: impl Calls, claim: Claim) {
        let Claim { source, words, bound } = claim;
        let answer = calls.wait(source, words);
        let arbitrations = answer.first;
        match answer.kind {
            sys::ACKNOWLEDGED => {
                assert!(arbitrations <= bound.third, "{claim:?}");
                self.acknowledged += 1;
                self.at_the_bound += u64::from(arbitrations == bound.third);
                self.at_a_bound_over_one +=
                    u64::from(arbitrations == bound.third && bound.third > 1);
            }
            kind => {
                assert!(arbitrations <= bound.first + bound.second, "{claim:?}");
                claim.check_pending(&calls);
                self.ended += u64::from(kind == sys::ENDED);
                self.refused += u64::from(kind == sys::REFUSED_STEP);
            }
        }
    }

    /// The claim itself, call by call: the source is pending after every call before its acknowledgement, which is by arbitration H + E + 1 if the list
    /// has that many.
    pub fn check_calls(&mut self, calls: impl Calls, claim: Claim) {
        self.follow(calls, claim, |_| true);
    }

    /// The same with only those arbitrations counted that are made with IEN = 1.
    pub fn check_enabled_calls(&mut self, calls: impl Calls, claim: Claim) {
        self.follow(calls, claim, places::is_enabled);
    }

    /// The claim with those arbitrations counted that find an image that `counts`.
    fn follow(&mut self, mut calls: impl Calls, claim: Claim, counts: fn(&[u8]) -> bool) {
        let Claim { source, words, bound } = claim;
        let mut arbitrations = 0;
        self.followed += 1;
        for word in words {
            let is_counted = counts(calls.image());
            let answer = calls.step(*word);
            let is_arbitration = matches!(answer.kind, sys::NOTHING..=sys::TRANSFERRED);
            arbitrations += u64::from(is_arbitration && is_counted);
            if answer.kind == sys::INTERRUPT && answer.first == u64::from(source) {
                assert!(arbitrations <= bound.third, "{claim:?}");
                self.followed_to_acknowledgement += 1;
                let is_last = arbitrations == bound.third;
                self.followed_to_a_bound_over_one += u64::from(is_last && bound.third > 1);
                self.followed_to_a_bound_with_events += u64::from(is_last && bound.second > 0);
                return;
            }
            claim.check_pending(&calls);
            assert!(arbitrations < bound.third, "{claim:?}");
        }
    }
}
