//! A list as the handlers' bound looks at it, judged by the bytes that each step leaves: apart from the model's own way, and in more detail.

use crate::places::{self, Bits};
use crate::{Calls, Start};
use st9::sys;

/// What there is in a list up to the acknowledgement or to the first step that breaks a premise.
#[derive(Default)]
pub struct Account {
    /// H.
    outranking: u64,
    /// E's two parts: triggers, and bits that writes raised.
    pub triggers: u64,
    pub raised: u64,
    /// The most of these bits that one write raised.
    pub at_once: u64,
    /// The steps passed over.
    pub refused: u64,
    /// The answer to the step that breaks a premise; what it changed by number and place, where it is a write.
    broken: Option<sys::Answer>,
    pub changes: Vec<(u64, usize)>,
    /// Whether a step after the acknowledgement would break one.
    pub broken_after: bool,
}

impl Account {
    pub fn of(start: &Start, source: u32, words: &[u64]) -> Account {
        let counted = outranking(start, source);
        let rests = rests(start, source);
        let mut alone = start.alone();
        let pending = |image: &[u8]| pending(image, start, &counted);
        let outranking = pending(&start.image).len() as u64;
        let mut account = Account { outranking, ..Account::default() };
        let mut acknowledged = false;
        for (index, word) in (0..).zip(words) {
            let before = alone.image().to_vec();
            let answer = alone.step(*word);
            let changes = changes(&rests, &before, alone.image());
            let broken = breaks(index, answer, &before, &changes);
            if acknowledged {
                account.broken_after |= broken.is_some();
            } else if broken.is_some() {
                return Account { broken, changes, ..account };
            } else {
                let was_pending = pending(&before);
                let is_pending = pending(alone.image());
                let raised = is_pending.iter().filter(|source| !was_pending.contains(source));
                account.count(*word, answer, raised.count() as u64, &counted);
                acknowledged = answer.kind == sys::INTERRUPT && answer.first == source.into();
            }
        }
        account
    }

    fn count(&mut self, word: u64, answer: sys::Answer, raised: u64, counted: &[u32]) {
        match answer.kind {
            sys::REFUSED => self.refused += 1,
            sys::TRIGGERED if answer.first != sys::NOT_SELECTED => {
                self.triggers += u64::from(counted.contains(&triggered(word)));
            }
            sys::WRITTEN => {
                self.raised += raised;
                self.at_once = self.at_once.max(raised);
            }
            _ => {}
        }
    }

    /// What the bound has to answer.
    pub fn answer(&self) -> sys::Answer {
        let second = self.triggers + self.raised;
        self.broken.unwrap_or(sys::Answer {
            kind: sys::WITHIN,
            first: self.outranking,
            second,
            third: self.outranking + second + 1,
            ..sys::Answer::default()
        })
    }
}

/// The unmasked sources that outrank ours at the start.
fn outranking(start: &Start, ours: u32) -> Vec<u32> {
    let Start { image, channels, .. } = start;
    let rank = |source| places::rank(image, channels, source);
    (0..8 + channels.len() as u32)
        .filter(|other| places::is_unmasked(image, channels, *other) && rank(*other) < rank(ours))
        .collect()
}

/// Those of these sources that are pending in an image.
fn pending(image: &[u8], start: &Start, sources: &[u32]) -> Vec<u32> {
    let is_pending = |source: &u32| places::is_pending(image, &start.channels, *source);
    sources.iter().copied().filter(is_pending).collect()
}

/// The source of a trigger that selected a maskable bit.
fn triggered(word: u64) -> u32 {
    let first = (word >> 8) as u32 & 0xFF_FFFF;
    match word >> 32 & 0xFFFF {
        0 => first,
        1 => 0,
        _ => 8 + first,
    }
}

/// The bits that the bound rests on, each with its number in an answer, in the order of these.
fn rests(start: &Start, source: u32) -> Vec<(u64, Bits)> {
    let idcrs = start.channels.iter().map(|channel| model::paged(channel.page, channel.idcr));
    let of_records = idcrs.flat_map(|idcr| {
        [
            (sys::CHANGED_MASK, (idcr, 0x08)),
            (sys::CHANGED_DMA_ENABLE, (idcr, 0x10)),
            (sys::CHANGED_LEVEL, (idcr, 0x07)),
        ]
    });
    let mut rests = vec![
        (sys::CHANGED_PENDING, places::pending(&start.channels, source)),
        (sys::CHANGED_MODE, (230, 0x08)),
        (sys::CHANGED_CURRENT_LEVEL, (230, 0x07)),
        (sys::CHANGED_TOP_LEVEL, (230, 0x20)),
        (sys::CHANGED_TOP_LEVEL, (247, 0x80)),
        (sys::CHANGED_MASK, (244, 0xFF)),
        (sys::CHANGED_LEVEL, (245, 0xFF)),
    ];
    rests.extend(of_records);
    rests.sort_unstable();
    rests
}

/// Those of them that differ, by number and place; the pending bit only where it fell.
fn changes(rests: &[(u64, Bits)], before: &[u8], after: &[u8]) -> Vec<(u64, usize)> {
    let differs = |(basis, (place, bits)): &&(u64, Bits)| {
        let (was, is) = (before[*place] & bits, after[*place] & bits);
        was != is && (*basis != sys::CHANGED_PENDING || is == 0)
    };
    rests.iter().filter(differs).map(|(basis, (place, _))| (*basis, *place)).collect()
}

/// The answer to a step that breaks a premise.
fn breaks(
    index: u64,
    answer: sys::Answer,
    before: &[u8],
    changes: &[(u64, usize)],
) -> Option<sys::Answer> {
    let at = |kind, first| Some(sys::Answer { kind, first, steps: index, ..Default::default() });
    match answer.kind {
        sys::NOTHING..=sys::TRANSFERRED if !places::is_enabled(before) => {
            at(sys::INTERRUPTS_DISABLED, 0)
        }
        sys::RESET => at(sys::OTHER_STEP, 0),
        sys::WRITTEN => at(sys::CHANGED, changes.first()?.0),
        _ => None,
    }
}
