//! Images.

use crate::Random;
use model::{paged, Channel, IMAGE_LENGTH, MARK};

pub(crate) const CICR: usize = 230;
pub(crate) const PPR: usize = 234;
pub(crate) const EITR: usize = 242;
pub(crate) const EIPR: usize = 243;
pub(crate) const EIMR: usize = 244;
pub(crate) const EIPLR: usize = 245;
pub(crate) const EIVR: usize = 246;
pub(crate) const NICR: usize = 247;

/// An image of the right length for a memory of so many bytes: random, all FFh or 00h, or (mostly) one in which arbitrations find something.
pub fn image(random: &mut Random, channels: &[Channel], length: usize) -> Vec<u8> {
    let mut image = match random.below(20) {
        0 => return vec![0xFF; IMAGE_LENGTH],
        1 => return vec![0x00; IMAGE_LENGTH],
        2 => return filled(random, IMAGE_LENGTH),
        3..=8 => filled(random, IMAGE_LENGTH),
        _ => vec![0x00; IMAGE_LENGTH],
    };
    set_control(random, &mut image, channels);
    set_records(random, &mut image, channels, length);
    image
}

/// An image of a wrong length.
pub fn damaged_image(random: &mut Random) -> Vec<u8> {
    let length = random.pick(&[0, 1, 1264, 1266, 1268, 1265 + 256]);
    filled(random, length)
}

/// Random bytes.
pub(crate) fn filled(random: &mut Random, length: usize) -> Vec<u8> {
    let words = (0..length.div_ceil(8)).flat_map(|_| random.any().to_le_bytes());
    words.take(length).collect()
}

/// The system registers, page 0 and the mark.
fn set_control(random: &mut Random, image: &mut [u8], channels: &[Channel]) {
    image[CICR] = cicr(random);
    image[PPR] = ppr(random, channels);
    image[EITR] = random.byte();
    image[EIPR] = random.byte() & random.byte();
    image[EIMR] = random.byte() | random.byte();
    image[EIPLR] = random.byte();
    image[EIVR] = random.byte();
    image[NICR] = nicr(random);
    image[MARK] = match random.below(16) {
        0 => 1,
        1 => random.byte(),
        _ => 0,
    };
}

/// A CICR, mostly with interrupts enabled, CPL high and the top level disabled.
pub(crate) fn cicr(random: &mut Random) -> u8 {
    let mut cicr = random.byte();
    if random.chance(3, 4) {
        cicr |= 0x10;
    }
    if random.chance(2, 3) {
        cicr |= random.pick(&[7, 7, 6, 4]);
    }
    if random.chance(3, 4) {
        cicr &= !0x20;
    }
    cicr
}

/// A PPR that selects page 0, a record's page or any, with any absent bits.
pub(crate) fn ppr(random: &mut Random, channels: &[Channel]) -> u8 {
    let page = match random.below(8) {
        0..=2 => 0,
        3 => random.between(0, 63),
        _ if channels.is_empty() => 0,
        _ => random.pick(channels).page,
    };
    4 * page + random.between(0, 3)
}

/// A NICR, mostly without TLNM, often with few HL bits.
pub(crate) fn nicr(random: &mut Random) -> u8 {
    let held = match random.below(3) {
        0 => 0,
        1 => random.byte() & random.byte(),
        _ => random.byte(),
    };
    if random.chance(1, 8) {
        held | 0x80
    } else {
        held & 0x7F
    }
}

/// The registers of the records, in one image out of three with no DMA, and the pairs in the register file.
fn set_records(random: &mut Random, image: &mut [u8], channels: &[Channel], length: usize) {
    let kept = if random.chance(1, 3) { !0x10 } else { 0xFF };
    for channel in channels {
        image[paged(channel.page, channel.idcr)] = random.byte() & kept;
        image[paged(channel.page, channel.ivr)] = random.byte();
        image[paged(channel.page, channel.data)] = random.byte();
        let dcpr = pointer(random);
        set_block(random, image, channel, dcpr, length);
    }
}

/// DCPR and DAPR of a record, and what they name: with an odd DCPR the address and the counter of a block in the register file, with an even one those of
/// a block in memory.
fn set_block(random: &mut Random, image: &mut [u8], channel: &Channel, dcpr: u8, length: usize) {
    let dapr = dapr(random, dcpr);
    image[paged(channel.page, channel.dcpr)] = dcpr;
    image[paged(channel.page, channel.dapr)] = dapr;
    if dcpr % 2 == 1 {
        set_file_pair(random, image, dcpr & 0xFE);
    } else {
        set_word(image, dcpr, counter(random));
        // After the counter: where the pairs coincide it is mostly a good address.
        set_word(image, dapr & 0xFE, address(random, length));
    }
}

/// A DCPR: any path, often near the end of the register file.
pub(crate) fn pointer(random: &mut Random) -> u8 {
    match random.below(32) {
        0 => random.byte(),
        1 | 2 => random.pick(&[0xDE, 0xDF, 0xE0, 0xE1]),
        3 => random.pick(&[0xDE, 0xDF, 0xFE, 0xFF]),
        _ => random.between(0, 223),
    }
}

/// A DAPR: likewise, and often of DCPR's own pair.
pub(crate) fn dapr(random: &mut Random, dcpr: u8) -> u8 {
    match random.below(6) {
        0 => dcpr & 0xFE | random.between(0, 1),
        _ => pointer(random),
    }
}

/// The address and the counter at a pair of the register file: its edges, the pair itself, a counter at its end.
fn set_file_pair(random: &mut Random, image: &mut [u8], first: u8) {
    if first > 222 {
        return;
    }
    image[usize::from(first)] = match random.below(8) {
        0 => first,
        1 => first + 1,
        2 => random.between(220, 225),
        3 => random.byte(),
        _ => random.between(0, 223),
    };
    image[usize::from(first) + 1] = match random.below(4) {
        0 => 0,
        1 => 1,
        2 => 2,
        _ => random.byte(),
    };
}

/// The 16 bits of a pair, high byte first; none beyond the register file.
fn set_word(image: &mut [u8], first: u8, word: u16) {
    if first <= 222 {
        let first = usize::from(first);
        (image[first], image[first + 1]) = ((word >> 8) as u8, word as u8);
    }
}

/// An address of a memory: mostly within it, often at its end, or where one of its bytes wraps.
pub(crate) fn address(random: &mut Random, length: usize) -> u16 {
    match random.below(16) {
        0 => length as u16,
        1 | 2 => length.wrapping_sub(1) as u16,
        3 => random.pick(&[0x0000, 0x0001, 0x00FF, 0x0100, 0xFFFE, 0xFFFF]),
        4 => random.any() as u16,
        _ => random.below(length.max(1) as u64) as u16,
    }
}

/// A counter: at its end, or where one of its bytes wraps.
pub(crate) fn counter(random: &mut Random) -> u16 {
    match random.below(8) {
        0 => 0,
        1..=3 => 1,
        4 => 2,
        5 => random.pick(&[0x0100, 0x0101, 0xFFFF]),
        _ => random.any() as u16,
    }
}

/// An image in which most records request DMA in memory, above the current level.
pub fn transferring_image(random: &mut Random, channels: &[Channel], length: usize) -> Vec<u8> {
    let mut image = self::image(random, channels, length);
    image[MARK] = 0;
    image[CICR] = random.byte() & 0x98 | random.pick(&[7, 7, 5]);
    for channel in channels {
        if random.chance(1, 8) {
            continue;
        }
        // Absent bits any; IP mostly, DM, IM any, a level.
        let idcr = random.byte() & 0xC8 | 0x10 | random.pick(&[0x20, 0x20, 0]);
        image[paged(channel.page, channel.idcr)] = idcr | random.between(0, 6);
        let dcpr = pointer(random) & 0xFE;
        set_block(random, &mut image, channel, dcpr, length);
    }
    image
}
