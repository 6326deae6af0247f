//! Where the calls of a test start.

use crate::generate::{self, Flavour};
use crate::{Alone, Pair, Random};
use model::Channel;

/// An image, the bytes of a list and a memory, and the records that steps are made for.
pub struct Start {
    pub image: Vec<u8>,
    pub list: Vec<u8>,
    pub memory: Vec<u8>,
    pub channels: Vec<Channel>,
}

impl Start {
    /// Mostly a good image, a good list and a good memory; one time in eleven one of them is damaged, two or all.
    pub fn any(random: &mut Random) -> Start {
        let count = random.below(13) as usize;
        let channels = generate::list(random, count);
        let mut memory = generate::memory(random);
        let mut image = generate::image(random, &channels, memory.len());
        let mut list = generate::bytes(&channels);
        // A bit for each.
        let damage = random.below(80);
        if matches!(damage, 1 | 3 | 5 | 7) {
            image = generate::damaged_image(random);
        }
        if matches!(damage, 2 | 3 | 6 | 7) {
            list = generate::damaged_bytes(random);
        }
        if matches!(damage, 4..8) {
            memory = generate::damaged_memory(random);
        }
        Start { image, list, memory, channels }
    }

    /// The same with nothing damaged, and blocks in memory for most records.
    pub fn transferring(random: &mut Random) -> Start {
        let count = 1 + random.below(12) as usize;
        let channels = generate::list(random, count);
        let memory = generate::memory(random);
        let image = generate::transferring_image(random, &channels, memory.len());
        let list = generate::bytes(&channels);
        Start { image, list, memory, channels }
    }

    /// A good list, and an image in which a source waits as demand 3 says.
    pub fn waiting(random: &mut Random) -> (Start, u32) {
        let count = random.below(13) as usize;
        let channels = generate::list(random, count);
        let source = random.below(8 + count as u64) as u32;
        let image = generate::waiting_image(random, &channels, source);
        let list = generate::bytes(&channels);
        let memory = generate::memory(random);
        (Start { image, list, memory, channels }, source)
    }

    /// The same; one time in six one premise is broken.
    pub fn nearly_waiting(random: &mut Random) -> (Start, u32) {
        let (mut start, source) = Start::waiting(random);
        if random.chance(1, 6) {
            generate::break_premise(random, &mut start.image, &start.channels, source);
        }
        (start, source)
    }

    /// Steps of all kinds for the start.
    pub fn steps(&self, random: &mut Random, flavour: Flavour, count: usize) -> Vec<u64> {
        let scene = (&self.image[..], &self.channels[..], self.memory.len());
        generate::steps(random, scene, flavour, count)
    }

    /// Both models; the name is said where they differ.
    pub fn pair(&self, name: String) -> Pair {
        Pair::new(name, &self.image, &self.list, &self.memory)
    }

    /// The plain model alone.
    pub fn alone(&self) -> Alone {
        Alone::new(&self.image, &self.channels, &self.memory)
    }
}
