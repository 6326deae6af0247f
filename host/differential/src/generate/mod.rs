//! Images, channel lists, memories and steps, mostly such that something happens.

mod handlers;
mod images;
mod lists;
mod memories;
mod steps;
mod waiting;

pub use handlers::list_of_handlers;
pub use images::{damaged_image, image, transferring_image};
pub use lists::{bytes, damaged_bytes, list};
pub use memories::{damaged_memory, memory};
pub use steps::{steps, Flavour};
pub use waiting::{break_premise, list_of_calls, refused_step, waiting_image};

use crate::Random;

/// A number that is not below `count`: the next one, one that is good in its low bits, or any.
pub(crate) fn bad_number(random: &mut Random, count: u32, largest: u32) -> u32 {
    let good = random.below(u64::from(count.max(1))) as u32;
    match random.below(6) {
        0 | 1 => count,
        2 => 0x100 + good,
        3 if largest > 0x10000 => 0x10000 + good,
        4 => largest,
        _ => count.max(random.any() as u32 & largest),
    }
}

/// A direction over 1.
pub(crate) fn bad_direction(random: &mut Random) -> u8 {
    match random.below(4) {
        0 | 1 => 2,
        2 => 255,
        _ => random.between(2, 255),
    }
}

/// A source's number for a wait or a bound: mostly one that is there.
pub fn source(random: &mut Random, records: usize) -> u32 {
    let count = 8 + records as u32;
    if random.chance(1, 16) {
        bad_number(random, count, u32::MAX)
    } else {
        random.below(u64::from(count)) as u32
    }
}

/// A page's number for a view.
pub fn page(random: &mut Random) -> u32 {
    if random.chance(1, 4) {
        bad_number(random, 64, u32::MAX)
    } else {
        random.below(64) as u32
    }
}
