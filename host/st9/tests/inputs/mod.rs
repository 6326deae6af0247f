//! Random images, channel lists, memories, sources and words, good and bad.

use st9::{Channel, Source, Step};

/// Random numbers (xorshift64), the same at every run.
pub struct Random(pub u64);

impl Random {
    fn next(&mut self) -> u64 {
        self.0 ^= self.0 << 13;
        self.0 ^= self.0 >> 7;
        self.0 ^= self.0 << 17;
        self.0
    }

    pub fn below(&mut self, limit: u64) -> u64 {
        self.next() % limit
    }

    pub fn image(&mut self) -> Vec<u8> {
        let length = match self.below(8) {
            0 => self.below(2000) as usize,
            _ => st9::IMAGE_LENGTH,
        };
        let mut image: Vec<u8> = (0..length).map(|_| self.next() as u8).collect();
        if let (Some(mark), 0..=5) = (image.get_mut(st9::MARK), self.below(8)) {
            *mark = 0;
        }
        if self.below(2) == 0 {
            // The high bytes of all pairs: 16-bit addresses that a short memory has.
            image.iter_mut().take(224).step_by(2).for_each(|byte| *byte = 0);
        }
        image
    }

    pub fn memory(&mut self) -> Vec<u8> {
        let length = match self.below(32) {
            0 => st9::MOST_MEMORY + 1 + self.below(9) as usize,
            1 => st9::MOST_MEMORY,
            2..=5 => 0,
            _ => self.below(400) as usize,
        };
        vec![self.next() as u8; length]
    }

    pub fn channels(&mut self) -> Vec<Channel> {
        let good = |position: u64| Channel {
            page: 1 + position as u8,
            idcr: 240,
            ivr: 241,
            dcpr: 242,
            dapr: 243,
            data: 244,
            direction: (position % 2) as u8,
        };
        let mut channels: Vec<_> = (0..self.below(15)).map(good).collect();
        if let (Some(last), 0) = (channels.last_mut(), self.below(8)) {
            last.data = self.next() as u8;
        }
        channels
    }

    fn word(&mut self) -> u64 {
        let first = self.below(260) << 8 | self.below(3);
        match self.below(8) {
            0 => self.next(),
            1 => self.below(7) << 48 | self.below(5) << 32 | first,
            2 => Step::Return.word(),
            3 => Step::Request { record: self.below(12) as u32 }.word(),
            4 => Step::Pin { pin: self.below(8) as u32, edge: st9::Edge::Falling }.word(),
            _ => Step::Arbitrate.word(),
        }
    }

    pub fn words(&mut self) -> Vec<u64> {
        (0..self.below(12)).map(|_| self.word()).collect()
    }

    /// Any image, channel list, memory, source and words; every second time such that the premises of a bound can hold.
    pub fn asked(&mut self) -> Asked {
        let source = Source(self.below(22) as u32);
        let (image, channels, words) = (self.image(), self.channels(), self.words());
        let mut asked = Asked { image, channels, memory: self.memory(), source, words };
        if self.below(2) == 0 {
            meet_premises(&mut asked.image);
            asked.channels.clear();
            asked.words = self.waiting();
        }
        asked
    }

    /// Edges and arbitrations, a return after each arbitration, as demand 3 speaks of them; in every second list reads
    /// and writes too, of the register file or of EIPR. The list ends anywhere among these.
    fn waiting(&mut self) -> Vec<u64> {
        let mut words = Vec::new();
        let is_handler = self.below(2) == 0;
        for _ in 0..self.below(12) {
            let pin = self.below(8) as u32;
            words.push(Step::Pin { pin, edge: st9::Edge::Falling }.word());
            words.push(Step::Arbitrate.word());
            if is_handler {
                let register = [10, st9::register::EIPR][self.below(2) as usize];
                words.push(Step::read(register).word());
                words.push(Step::write(register, self.next() as u8).word());
            }
            words.push(Step::Return.word());
        }
        words.truncate(self.below(words.len() as u64 + 1) as usize);
        words
    }
}

/// What a call is given.
pub struct Asked {
    pub image: Vec<u8>,
    pub channels: Vec<Channel>,
    pub memory: Vec<u8>,
    pub source: Source,
    pub words: Vec<u64>,
}

/// Interrupts enabled, concurrent mode, CPL 7, top level disabled and not in service; page 0, every pin falling.
fn meet_premises(image: &mut [u8]) {
    for (index, byte) in [(230, 0x97), (234, 0x00), (242, 0x00), (247, 0x00), (st9::MARK, 0)] {
        if let Some(stored) = image.get_mut(index) {
            *stored = byte;
        }
    }
}
