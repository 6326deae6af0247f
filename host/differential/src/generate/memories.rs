//! Memories.

use super::images::filled;
use crate::Random;

/// A memory within the limit: of 0, 1, some or 65,536 bytes.
pub fn memory(random: &mut Random) -> Vec<u8> {
    let length = match random.below(20) {
        0 => 0,
        1 => 1,
        2 => random.pick(&[255, 256, 257]),
        3 => 65_535,
        4 | 5 => 65_536,
        _ => 2 + random.below(300) as usize,
    };
    filled(random, length)
}

/// A memory over the limit.
pub fn damaged_memory(random: &mut Random) -> Vec<u8> {
    let length = random.pick(&[65_537, 65_538, 65_536 + 256, 131_072]);
    filled(random, length)
}
