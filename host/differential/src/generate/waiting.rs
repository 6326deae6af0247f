//! Starts and lists of calls that meet the premises of demand 3, or nearly.

use super::images::{filled, CICR, EIMR, EIPLR, EIPR, EITR, EIVR, NICR, PPR};
use super::steps::{bad_step, trigger, with_unused};
use crate::Random;
use model::{paged, word, Channel, IMAGE_LENGTH, MARK};

/// An image in concurrent mode, no DMA enabled, top level disabled and not in service, in which the source is pending, unmasked and above CPL.
pub fn waiting_image(random: &mut Random, channels: &[Channel], source: u32) -> Vec<u8> {
    let mut image =
        if random.chance(1, 3) { filled(random, IMAGE_LENGTH) } else { vec![0; IMAGE_LENGTH] };
    for place in [EITR, EIPLR, EIVR, PPR] {
        image[place] = random.byte();
    }
    image[EIPR] = random.byte();
    image[EIMR] = random.byte() | random.byte();
    image[NICR] = random.byte() & 0x7F;
    image[MARK] = 0;
    for channel in channels {
        image[paged(channel.page, channel.idcr)] = random.byte() & !0x10;
        image[paged(channel.page, channel.ivr)] = random.byte();
    }
    let level = set_waiting(random, &mut image, channels, source);
    let cpl = if random.chance(1, 2) { 7 } else { random.between(level + 1, 7) };
    // GCEN, TLIP and IEN may be anything.
    image[CICR] = random.byte() & 0xD0 | cpl;
    image
}

/// Makes the source pending and unmasked at a level below 7, mostly a low priority; gives the level.
fn set_waiting(random: &mut Random, image: &mut [u8], channels: &[Channel], source: u32) -> u8 {
    let level = match random.below(3) {
        0 => random.between(0, 6),
        _ => random.between(4, 6),
    };
    if source < 8 {
        image[EIPR] |= 1 << source;
        image[EIMR] |= 1 << source;
        // The low bit is the source's own; level 7 is left out.
        let own = source as u8 % 2;
        let group = (level / 2).min(3 - own);
        let shift = source & 6;
        image[EIPLR] = image[EIPLR] & !(3 << shift) | group << shift;
        2 * group + own
    } else {
        let channel = &channels[source as usize - 8];
        let idcr = &mut image[paged(channel.page, channel.idcr)];
        *idcr = *idcr & 0xC0 | 0x28 | level;
        level
    }
}

/// Breaks one premise about the start.
pub fn break_premise(random: &mut Random, image: &mut [u8], channels: &[Channel], source: u32) {
    match random.below(8) {
        0 => image[CICR] |= 0x08,
        1 if !channels.is_empty() => {
            let channel = random.pick(channels);
            image[paged(channel.page, channel.idcr)] |= 0x10;
        }
        2 => image[CICR] |= 0x20,
        3 => image[NICR] |= 0x80,
        4 => image[MARK] = random.between(1, 255),
        5 => clear_of_source(image, channels, source, EIPR, 0x20),
        6 => clear_of_source(image, channels, source, EIMR, 0x08),
        _ => image[CICR] &= !random.between(1, 7),
    }
}

/// Clears the source's bit in an external register, or a bit of its IDCR.
fn clear_of_source(image: &mut [u8], channels: &[Channel], source: u32, external: usize, bit: u8) {
    if source < 8 {
        image[external] &= !(1 << source);
    } else {
        let channel = &channels[source as usize - 8];
        image[paged(channel.page, channel.idcr)] &= !bit;
    }
}

/// Triggers, arbitrations, returns and refused steps, mostly with a return before every arbitration. In one list out of twelve a return is left out, in
/// another one there is some other step.
pub fn list_of_calls(random: &mut Random, channels: &[Channel], count: usize) -> Vec<u64> {
    let bad_of_hundred = random.pick(&[0, 0, 8]);
    let triggers_of_hundred = random.pick(&[5, 20, 50]);
    let mut words = Vec::with_capacity(count + 2);
    while words.len() < count {
        if random.chance(bad_of_hundred, 100) {
            words.push(refused_step(random, channels));
        } else if random.chance(triggers_of_hundred, 100) {
            words.push(trigger(random, channels));
        } else {
            words.push(word::return_from());
            if random.chance(1, 4) {
                words.push(trigger(random, channels));
            }
            words.push(word::arbitrate());
        }
    }
    if random.chance(1, 12) {
        remove_return(random, &mut words);
    }
    if random.chance(1, 12) {
        let place = random.below(words.len() as u64 + 1) as usize;
        let others = [word::read(0), word::write(1, 2), word::reset()];
        words.insert(place, random.pick(&others));
    }
    words.into_iter().map(|step| with_unused(random, step)).collect()
}

/// A step that is refused in every image: a bad number, an unknown kind or a register over 255.
pub fn refused_step(random: &mut Random, channels: &[Channel]) -> u64 {
    let mut image = [0; IMAGE_LENGTH];
    loop {
        let step = bad_step(random, channels);
        // Registers of a page depend on PPR.
        let paged = matches!(step >> 48, 0 | 1) && step >> 8 & 0xFF_FFFF < 256;
        let answer = model::step(&mut image, channels, &mut [], step);
        if !paged && matches!(answer, model::Answer::Refused(_)) {
            return step;
        }
    }
}

/// Takes one return out.
fn remove_return(random: &mut Random, words: &mut Vec<u64>) {
    let places: Vec<usize> =
        (0..words.len()).filter(|place| words[*place] == word::return_from()).collect();
    if !places.is_empty() {
        words.remove(random.pick(&places));
    }
}
