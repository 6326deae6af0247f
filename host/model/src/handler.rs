//! The bound with reads and writes in the list, as handlers do them.

use crate::bound::{bounded, selects, Start};
use crate::channels::{source, source_count, Source};
use crate::image::{has, Image, CICR, CPL, DM, IAM, IEN, NICR, TLI, TLNM};
use crate::steps::{attempt, Step};
use crate::{Basis, Bounded, Channel};

/// The bound of a source over the steps up to its acknowledgement, or the first premise that fails. The image is only read.
pub fn handler_bound(image: &[u8], channels: &[Channel], named: u32, words: &[u64]) -> Bounded {
    bounded(image, channels, named, |start| count_events(start, channels, words))
}

/// Follows the list up to the acknowledgement and counts E, the triggers of outranking sources and the pending bits of such that writes raise. Fails at
/// the first step that breaks a premise. Refused steps are passed over. No record gets DM = 1, so the memory doesn't matter and is empty.
fn count_events(start: Start, channels: &[Channel], words: &[u64]) -> Result<usize, Bounded> {
    let Start { mut image, ours, outranking, .. } = start;
    let mut events = 0;
    for (index, &word) in words.iter().enumerate() {
        let before = image;
        let Ok((step, answer)) = attempt(&mut image, channels, &mut [], word) else {
            continue;
        };
        match step {
            Step::Trigger(trigger) => {
                events += usize::from(selects(trigger, answer, outranking));
            }
            Step::Arbitrate if !has(&before, CICR, IEN) => {
                return Err(Bounded::InterruptsDisabled { index });
            }
            Step::Arbitrate if answer.acknowledges(ours) => break,
            Step::Write { .. } => {
                if let Some(basis) = changed(&before, &image, channels, ours) {
                    return Err(Bounded::Changed { basis, index });
                }
                events += raised(&before, &image, channels, outranking);
            }
            Step::Reset => return Err(Bounded::OtherStep { index }),
            Step::Arbitrate | Step::Return | Step::Read { .. } => {}
        }
    }
    Ok(events)
}

/// The first thing that the bound rests on and that a write changed.
fn changed(before: &Image, after: &Image, channels: &[Channel], ours: u8) -> Option<Basis> {
    let bits = |place: usize, bits: u8| (before[place] ^ after[place]) & bits != 0;
    let of_any = |differ: fn(&Source, &Source) -> bool| {
        sources(before, after, channels).any(|(_, was, is)| differ(&was, &is))
    };
    let erased =
        |(number, was, is): (u8, Source, Source)| number == ours && was.pending && !is.pending;
    if sources(before, after, channels).any(erased) {
        Some(Basis::Pending)
    } else if bits(CICR, IAM) {
        Some(Basis::Mode)
    } else if bits(CICR, CPL) {
        Some(Basis::CurrentLevel)
    } else if bits(CICR, TLI) || bits(NICR, TLNM) {
        Some(Basis::TopLevel)
    } else if of_any(|was, is| was.unmasked != is.unmasked) {
        Some(Basis::Mask)
    } else if channels.iter().any(|channel| bits(channel.idcr_place(), DM)) {
        Some(Basis::DmaEnable)
    } else if of_any(|was, is| was.level != is.level) {
        Some(Basis::Level)
    } else {
        None
    }
}

/// How many pending bits of counted sources a write took from 0 to 1.
fn raised(before: &Image, after: &Image, channels: &[Channel], counted: u32) -> usize {
    sources(before, after, channels)
        .filter(|(number, was, is)| counted >> number & 1 == 1 && !was.pending && is.pending)
        .count()
}

/// Each source by its number, before and after a write.
fn sources<'a>(
    before: &'a Image,
    after: &'a Image,
    channels: &'a [Channel],
) -> impl Iterator<Item = (u8, Source, Source)> + 'a {
    (0..source_count(channels) as u8).map(move |number| {
        (number, source(before, channels, number), source(after, channels, number))
    })
}
