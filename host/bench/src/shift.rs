//! The mixed trace: a shift of all kinds of steps.

use crate::traces::{channels, quiet_image};
use differential::Random;
use model::{word, Answer, Channel};
use st9::register::{CICR, EIMR, EIPLR, PPR};
use st9::{cicr, place};

/// A mixed trace in the making, followed on an image by the plain model: edges, requests, watchdog, each served by arbitrations, handlers that read and
/// write and return, blocks of DMA set up again, few resets.
pub struct Shift {
    random: Random,
    channels: Vec<Channel>,
    image: Vec<u8>,
    words: Vec<u64>,
}

impl Shift {
    /// Where the shift starts: nothing requests, the top level is enabled.
    pub fn image() -> Vec<u8> {
        let mut image = quiet_image(&channels());
        image[place(0, CICR)] |= cicr::TLI;
        image
    }

    /// The first steps of the shift.
    pub fn words(steps: usize) -> Vec<u64> {
        let mut shift = Shift {
            random: Random::new(7),
            channels: channels(),
            image: Shift::image(),
            words: Vec::new(),
        };
        (0..4).for_each(|record| shift.set_up_block(record));
        while shift.words.len() < steps {
            shift.event();
        }
        shift.words.truncate(steps);
        shift.words
    }

    /// Adds a step, which must not be refused.
    fn add(&mut self, word: u64) -> Answer {
        let answer = model::step(&mut self.image, &self.channels, &mut [], word);
        assert!(!matches!(answer, Answer::Refused(_)));
        self.words.push(word);
        answer
    }

    /// Adds a write.
    fn write(&mut self, register: u8, value: u8) {
        self.add(word::write(register.into(), value));
    }

    /// One to three triggers, then arbitrations until nothing is left; rarely a reset.
    fn event(&mut self) {
        for _ in 0..1 + self.random.below(3) {
            self.trigger();
        }
        loop {
            match self.add(word::arbitrate()) {
                Answer::Nothing => break,
                Answer::Transferred { .. } => {}
                answer => self.handle(answer),
            }
        }
        if self.random.chance(1, 500) {
            self.restart();
        }
    }

    /// An edge, a request, or the watchdog.
    fn trigger(&mut self) {
        let direction = self.random.between(0, 1);
        let word = match self.random.below(20) {
            0 => word::watchdog(),
            1 => word::nmi_edge(direction),
            2..=9 => word::request(self.random.below(12) as u32),
            _ => word::pin_edge(self.random.below(8) as u32, direction),
        };
        self.add(word);
    }

    /// A handler: it looks at a register or two, keeps a byte, sets an ended block up again, and returns.
    fn handle(&mut self, answer: Answer) {
        if let Answer::Interrupt { source: source @ 8..=11, .. } = answer {
            self.set_up_block(source - 8);
        } else if self.random.chance(1, 2) {
            let register = self.random.pick(&[20, 100, CICR, PPR]);
            self.add(word::read(register.into()));
        }
        if self.random.chance(1, 4) {
            let (register, value) = (self.random.below(16) as u8, self.random.byte());
            self.write(register, value);
        }
        self.add(word::return_from());
    }

    /// A block of one of the first four records: its pair in R16 to R23, eight bytes from R32 on, the pointer, and DMA enabled at the record's own level.
    fn set_up_block(&mut self, record: u8) {
        let channel = self.channels[usize::from(record)];
        let pair = 16 + 2 * record;
        self.write(pair, 32 + 8 * record);
        self.write(pair + 1, 8);
        self.write(PPR, 4 * channel.page);
        self.write(channel.dcpr, pair + 1);
        self.write(channel.idcr, 0x18 | (2 + record));
    }

    /// A reset, and page 0 and CICR set up again.
    fn restart(&mut self) {
        self.add(word::reset());
        self.write(PPR, 0);
        self.write(EIMR, 0xFF);
        self.write(EIPLR, 0xE4);
        self.write(CICR, 0xB7);
    }
}
