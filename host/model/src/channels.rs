//! The channel list and the sources.

use crate::image::{has, paged, Image, EIMR, EIPLR, EIPR, IM, IP, PRL};
use crate::Refusal;

/// The most records of a channel list.
pub const MOST_CHANNELS: usize = 12;

/// The external channels, which stand before the records in the daisy chain.
pub(crate) const EXTERNAL_CHANNELS: u8 = 8;

/// A record of the channel list: a page (1 to 63), five registers there (240 to 255), and a direction (0: from the peripheral).
#[derive(Clone, Copy, Debug, PartialEq, Eq, Hash)]
pub struct Channel {
    pub page: u8,
    pub idcr: u8,
    pub ivr: u8,
    pub dcpr: u8,
    pub dapr: u8,
    pub data: u8,
    pub direction: u8,
}

impl Channel {
    /// The record's five register numbers.
    pub(crate) fn registers(&self) -> [u8; 5] {
        [self.idcr, self.ivr, self.dcpr, self.dapr, self.data]
    }

    /// The byte of the record's IDCR.
    pub(crate) fn idcr_place(&self) -> usize {
        paged(self.page, self.idcr)
    }

    /// Whether the record keeps the rules beside the records before it, whose registers are in `taken`, a bit a register; adds its own.
    fn is_good(&self, taken: &mut [u16; 64]) -> bool {
        if !(1..=63).contains(&self.page) || self.direction > 1 {
            return false;
        }
        let page = &mut taken[usize::from(self.page)];
        self.registers().into_iter().all(|register| {
            let bit = 1 << (register & 15);
            let free = register >= 240 && *page & bit == 0;
            *page |= bit;
            free
        })
    }
}

/// Refusal 2: more than twelve records, a field out of its range, or a (page, register) pair twice.
pub(crate) fn check_list(channels: &[Channel]) -> Result<(), Refusal> {
    let mut taken = [0; 64];
    if channels.len() <= MOST_CHANNELS && channels.iter().all(|channel| channel.is_good(&mut taken))
    {
        Ok(())
    } else {
        Err(Refusal::BadList)
    }
}

/// Refusal 4: the named source is no external channel and no record.
pub(crate) fn check_source(channels: &[Channel], source: u32) -> Result<u8, Refusal> {
    match u8::try_from(source) {
        Ok(number) if usize::from(number) < source_count(channels) => Ok(number),
        _ => Err(Refusal::BadNumber),
    }
}

/// How many sources there are: the external channels and the records.
pub(crate) fn source_count(channels: &[Channel]) -> usize {
    usize::from(EXTERNAL_CHANNELS) + channels.len()
}

/// The level of external channel k: its group's two bits, then k modulo 2.
pub(crate) fn external_level(image: &Image, k: u8) -> u8 {
    let group_bits = image[EIPLR] >> (k & 6) & 3;
    2 * group_bits + k % 2
}

/// A source as demand 3 looks at it.
pub(crate) struct Source {
    pub pending: bool,
    pub unmasked: bool,
    pub level: u8,
}

/// The state of source number `source`, which is there.
pub(crate) fn source(image: &Image, channels: &[Channel], source: u8) -> Source {
    if source < EXTERNAL_CHANNELS {
        let bit = 1 << source;
        Source {
            pending: has(image, EIPR, bit),
            unmasked: has(image, EIMR, bit),
            level: external_level(image, source),
        }
    } else {
        let idcr = channels[usize::from(source - EXTERNAL_CHANNELS)].idcr_place();
        Source {
            pending: has(image, idcr, IP),
            unmasked: has(image, idcr, IM),
            level: image[idcr] & PRL,
        }
    }
}
