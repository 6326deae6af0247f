//! Where the bits of a source stand, said here apart from the model's own words.

use model::{paged, Channel};

/// A byte of the image and bits of it.
pub type Bits = (usize, u8);

/// The record of a source, if it is none of the external channels.
fn record(channels: &[Channel], source: u32) -> Option<usize> {
    let channel = channels.get((source as usize).wrapping_sub(8))?;
    Some(paged(channel.page, channel.idcr))
}

/// The source's EIPR or IP bit.
pub fn pending(channels: &[Channel], source: u32) -> Bits {
    record(channels, source).map_or((243, 1 << source), |idcr| (idcr, 0x20))
}

pub fn is_pending(image: &[u8], channels: &[Channel], source: u32) -> bool {
    let (place, bit) = pending(channels, source);
    image[place] & bit != 0
}

/// Whether the source's EIMR or IM bit is 1.
pub fn is_unmasked(image: &[u8], channels: &[Channel], source: u32) -> bool {
    let (place, bit) = record(channels, source).map_or((244, 1 << source), |idcr| (idcr, 0x08));
    image[place] & bit != 0
}

/// The source's place in the order of arbitration among interrupts: its level, then its number.
pub fn rank(image: &[u8], channels: &[Channel], source: u32) -> (u8, u32) {
    let level = match record(channels, source) {
        Some(idcr) => image[idcr] & 7,
        None => (image[245] >> (source & 6) & 3) * 2 + source as u8 % 2,
    };
    (level, source)
}

/// The record whose DMA comes first: with IP and DM, above the current level, the smallest level and then the first.
pub fn first_dma(image: &[u8], channels: &[Channel]) -> Option<usize> {
    let idcr = |record: usize| image[paged(channels[record].page, channels[record].idcr)];
    let requests =
        |record: &usize| idcr(*record) & 0x30 == 0x30 && idcr(*record) & 7 < image[230] & 7;
    (0..channels.len()).filter(requests).min_by_key(|record| (idcr(*record) & 7, *record))
}

/// Whether IEN is 1.
pub fn is_enabled(image: &[u8]) -> bool {
    image[230] & 0x10 != 0
}
