//! Lists of calls as handlers make them: with reads, and writes that mostly leave what the handlers' bound rests on.

use super::images::{CICR, EIMR, EIPLR, EIPR, EITR, EIVR, NICR, PPR};
use super::steps::{trigger, with_unused};
use super::waiting::refused_step;
use crate::{places, Random};
use model::{paged, word, Channel};

/// Triggers, arbitrations, returns, reads, writes and refused steps; in one list out of three some writes are harmful, or a step is a reset. Mostly a
/// return stands before every arbitration.
pub fn list_of_handlers(
    random: &mut Random,
    image: &[u8],
    channels: &[Channel],
    source: u32,
    count: usize,
) -> Vec<u64> {
    let mix = Mix::any(random);
    let mut handlers = Handlers { random, image: image.to_vec(), channels, source, words: vec![] };
    while handlers.words.len() < count {
        handlers.act(&mix);
    }
    handlers.words
}

/// How many of a hundred there are of each.
struct Mix {
    refused: u64,
    harmful: u64,
    triggers: u64,
    writes: u64,
    /// Of the arbitrations: those without a return before.
    unreturned: u64,
}

impl Mix {
    fn any(random: &mut Random) -> Mix {
        Mix {
            refused: random.pick(&[0, 0, 8]),
            harmful: random.pick(&[0, 0, 8]),
            triggers: random.pick(&[0, 10, 40]),
            writes: random.pick(&[5, 30, 60]),
            unreturned: random.pick(&[0, 0, 0, 25]),
        }
    }
}

/// The list as it grows, with the image that it leaves, so that what was read can be written back.
struct Handlers<'a> {
    random: &'a mut Random,
    image: Vec<u8>,
    channels: &'a [Channel],
    source: u32,
    words: Vec<u64>,
}

impl Handlers<'_> {
    /// One of the mix.
    fn act(&mut self, mix: &Mix) {
        if self.random.chance(mix.refused, 100) {
            let step = refused_step(self.random, self.channels);
            self.push(step);
        } else if self.random.chance(mix.harmful, 100) {
            self.harm();
        } else if self.random.chance(mix.triggers, 100) {
            let step = trigger(self.random, self.channels);
            self.push(step);
        } else if self.random.chance(mix.writes, 100) {
            self.harmless_write();
        } else if self.random.chance(1, 8) {
            let register = self.random.below(256) as u32;
            self.push(word::read(register));
        } else {
            self.arbitrate(mix);
        }
    }

    fn push(&mut self, step: u64) {
        let step = with_unused(self.random, step);
        model::step(&mut self.image, self.channels, &mut [], step);
        self.words.push(step);
    }

    fn write(&mut self, register: usize, value: u8) {
        self.push(word::write(register as u32, value));
    }

    /// Writes a register of a page, which PPR selects first where it doesn't.
    fn write_paged(&mut self, page: u8, register: u8, value: u8) {
        if self.image[PPR] >> 2 != page {
            let absent = self.random.between(0, 3);
            self.write(PPR, 4 * page + absent);
        }
        self.write(register.into(), value);
    }

    /// Writes one of page 0's registers, whose byte in the image is its number.
    fn write_first_page(&mut self, register: usize, value: u8) {
        self.write_paged(0, register as u8, value);
    }

    /// An arbitration, mostly after a return or a write that sets IEN.
    fn arbitrate(&mut self, mix: &Mix) {
        if !self.random.chance(mix.unreturned, 100) {
            match self.random.below(8) {
                0 => self.write(CICR, self.image[CICR] | 0x10),
                _ => self.push(word::return_from()),
            }
        }
        self.push(word::arbitrate());
    }

    /// The bit of a byte that the source's pending bit is, if it stands there and is 1.
    fn ours_at(&self, place: usize) -> u8 {
        let (byte, bit) = places::pending(self.channels, self.source);
        if byte == place {
            self.image[place] & bit
        } else {
            0
        }
    }

    /// A write that leaves what the bound rests on.
    fn harmless_write(&mut self) {
        let any = self.random.byte();
        match self.random.below(16) {
            0..=5 => self.write_pending(),
            6..=8 if !self.channels.is_empty() => self.write_idcr(),
            9 => self.write(CICR, self.image[CICR] & 0x2F | any & 0xD0),
            10 => self.write(PPR, any),
            11 => self.write_first_page(EITR, any),
            12 => self.write_first_page(EIVR, any),
            13 => self.write_first_page(NICR, any & 0x7F),
            14 => {
                let same = self.random.pick(&[EIMR, EIPLR]);
                self.write_first_page(same, self.image[same]);
            }
            _ => self.write_stored(any),
        }
    }

    /// A register that has nothing to do with it: of the register file, of the system, or of a record.
    fn write_stored(&mut self, any: u8) {
        let register = self.random.below(240) as usize;
        if self.channels.is_empty() || self.random.chance(2, 3) {
            let register = if register == CICR { 0 } else { register };
            return self.write(register, any);
        }
        let channel = self.random.pick(self.channels);
        let others = [channel.ivr, channel.dcpr, channel.dapr, channel.data];
        let register = self.random.pick(&others);
        self.write_paged(channel.page, register, any);
    }

    /// EIPR: one bit erased of what was read, some raised, or any; the source's stays.
    fn write_pending(&mut self) {
        let read = self.image[EIPR];
        let value = match self.random.below(3) {
            0 => {
                self.push(word::read(EIPR as u32));
                read & !(1 << self.random.below(8))
            }
            1 => read | self.random.byte() & self.random.byte(),
            _ => self.random.byte(),
        };
        self.write_first_page(EIPR, value | self.ours_at(EIPR));
    }

    /// A record's IDCR with any IP, the source's stays; the absent bits any.
    fn write_idcr(&mut self) {
        let channel = self.random.pick(self.channels);
        let place = paged(channel.page, channel.idcr);
        let value = self.image[place] & 0x1F | self.random.byte() & 0xE0 | self.ours_at(place);
        self.write_paged(channel.page, channel.idcr, value);
    }

    /// A reset, or a write that may change what the bound rests on, one thing or several.
    fn harm(&mut self) {
        let any = self.random.byte();
        let cicr = self.image[CICR];
        match self.random.below(15) {
            0 => self.push(word::reset()),
            1 | 2 => self.erase_ours(),
            3 => self.write(CICR, cicr ^ 0x08),
            4 => self.write(CICR, cicr ^ (1 + any % 7)),
            5 => self.write(CICR, cicr ^ 0x20),
            6 => self.write(CICR, any),
            7 => self.write_first_page(NICR, any | 0x80),
            8 => self.write_first_page(EIMR, any),
            9 => self.write_first_page(EIPLR, any),
            // On most pages this is refused.
            10 | 11 => self.write(usize::from(240 | any >> 4), any),
            _ if self.channels.is_empty() => self.write_first_page(EIPR, any),
            12 | 13 => {
                let channel = self.random.pick(self.channels);
                self.write_paged(channel.page, channel.idcr, any);
            }
            _ => self.start_block(any),
        }
    }

    /// A block of a record as it is started: address and counter in R16 and R17, DCPR, then DM.
    fn start_block(&mut self, any: u8) {
        let channel = self.random.pick(self.channels);
        let idcr = self.image[paged(channel.page, channel.idcr)];
        self.write(16, 20);
        self.write(17, 1 + any % 2);
        self.write_paged(channel.page, channel.dcpr, 0x11);
        self.write_paged(channel.page, channel.idcr, idcr | 0x10);
    }

    /// The write that erases the source's pending bit, and of EIPR all the others.
    fn erase_ours(&mut self) {
        match self.channels.get((self.source as usize).wrapping_sub(8)) {
            None => self.write_first_page(EIPR, 0),
            Some(channel) => {
                let (page, idcr) = (channel.page, channel.idcr);
                self.write_paged(page, idcr, self.image[paged(page, idcr)] & !0x20);
            }
        }
    }
}
