//! Demand 3's bound: by which arbitration a source is acknowledged at the latest.

use crate::channels::{check_source, source, source_count};
use crate::image::{current_level, has, in_service, Image, CICR, DM, IAM, IEN, NICR, TLI, TLNM};
use crate::steps::{admit, attempt, Step};
use crate::triggers::Trigger;
use crate::{Answer, Bounded, Channel, Effect};

/// The bound of a source over the steps, or the first premise that fails. The image is only read.
pub fn bound(image: &[u8], channels: &[Channel], named: u32, words: &[u64]) -> Bounded {
    bounded(image, channels, named, |start| count_triggers(start, channels, words))
}

/// The bound with the E that `count` finds in the steps, where the start meets the premises.
pub(crate) fn bounded(
    image: &[u8],
    channels: &[Channel],
    named: u32,
    count: impl FnOnce(Start) -> Result<usize, Bounded>,
) -> Bounded {
    let within = |start: Start| {
        let outranking = start.pending;
        let triggers = count(start)?;
        Ok(Bounded::Within { outranking, triggers, bound: outranking + triggers + 1 })
    };
    Start::of(image, channels, named).and_then(within).unwrap_or_else(|failed| failed)
}

/// A start that meets the premises.
pub(crate) struct Start {
    /// A copy, on which the steps are followed.
    pub image: Image,
    pub ours: u8,
    /// The unmasked sources that outrank ours, a bit a source.
    pub outranking: u32,
    /// H: how many of them are pending.
    pending: usize,
}

impl Start {
    /// Fails with the refusal, else with the first premise that does.
    fn of(image: &[u8], channels: &[Channel], named: u32) -> Result<Start, Bounded> {
        let mut copy = image.to_vec();
        let image = *admit(&mut copy, channels).map_err(Bounded::Refused)?;
        let ours = check_source(channels, named).map_err(Bounded::Refused)?;
        if let Some(failed) = failed_at_start(&image, channels, ours) {
            return Err(failed);
        }
        let mut start = Start { image, ours, outranking: 0, pending: 0 };
        start.gather_outranking(channels);
        Ok(start)
    }

    /// One source outranks another if its level number is smaller or, at equal level, its source number is.
    fn gather_outranking(&mut self, channels: &[Channel]) {
        let our_level = source(&self.image, channels, self.ours).level;
        for number in 0..source_count(channels) as u8 {
            let other = source(&self.image, channels, number);
            if other.unmasked && (other.level, number) < (our_level, self.ours) {
                self.outranking |= 1 << number;
                self.pending += usize::from(other.pending);
            }
        }
    }
}

/// The first premise about the start that fails.
fn failed_at_start(image: &Image, channels: &[Channel], ours: u8) -> Option<Bounded> {
    let dma_enabled = |channel: &Channel| has(image, channel.idcr_place(), DM);
    let ours = source(image, channels, ours);
    if has(image, CICR, IAM) {
        Some(Bounded::Nested)
    } else if channels.iter().any(dma_enabled) {
        Some(Bounded::DmaEnabled)
    } else if has(image, NICR, TLNM) || has(image, CICR, TLI) {
        Some(Bounded::TopLevelEnabled)
    } else if in_service(image) {
        Some(Bounded::TopLevelInService)
    } else if !ours.pending {
        Some(Bounded::NotPending)
    } else if !ours.unmasked {
        Some(Bounded::Masked)
    } else if ours.level >= current_level(image) {
        Some(Bounded::LevelNotAbove)
    } else {
        None
    }
}

/// Follows the list to its end and counts E, the triggers of outranking sources. Fails at the first step of another kind, else at the first
/// arbitration with IEN = 0. Refused steps are passed over. No record has DM = 1, so the memory doesn't matter and is empty.
fn count_triggers(start: Start, channels: &[Channel], words: &[u64]) -> Result<usize, Bounded> {
    let Start { mut image, outranking, .. } = start;
    let mut triggers = 0;
    let mut disabled = None;
    for (index, &word) in words.iter().enumerate() {
        let enabled = has(&image, CICR, IEN);
        let Ok((step, answer)) = attempt(&mut image, channels, &mut [], word) else {
            continue;
        };
        match step {
            Step::Trigger(trigger) => {
                triggers += usize::from(selects(trigger, answer, outranking));
            }
            Step::Arbitrate if !enabled => {
                disabled = disabled.or(Some(Bounded::InterruptsDisabled { index }));
            }
            Step::Arbitrate | Step::Return => {}
            Step::Read { .. } | Step::Write { .. } | Step::Reset => {
                return Err(Bounded::OtherStep { index });
            }
        }
    }
    disabled.map_or(Ok(triggers), Err)
}

/// Whether a trigger that was done selected the pending bit of a counted source, raised or merged.
pub(crate) fn selects(trigger: Trigger, answer: Answer, counted: u32) -> bool {
    let is_counted = trigger.source().is_some_and(|k| counted >> k & 1 == 1);
    let is_selected = match answer {
        Answer::Triggered { maskable, .. } => maskable != Effect::NotSelected,
        _ => false,
    };
    is_counted && is_selected
}
