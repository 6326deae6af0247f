//! Steps.

use super::images::{address, cicr, counter, dapr, nicr, pointer, ppr, PPR};
use super::{bad_direction, bad_number};
use crate::Random;
use model::{word, Channel};

/// How many of a list's steps are bad ones.
#[derive(Clone, Copy)]
pub enum Flavour {
    /// None on purpose: only a DMA winner can be refused.
    Good,
    /// One in a hundred, and some registers of the wrong page.
    Rare,
    /// One in ten, likewise.
    Bad,
}

/// What steps are made for: a channel list, a memory, and the page that PPR selects by then.
struct Scene<'a> {
    channels: &'a [Channel],
    /// The memory's length.
    memory: usize,
    page: u8,
    /// Whether registers of the wrong page are wanted.
    strays: bool,
}

/// `count` steps of all kinds for an image, a channel list and a memory of a length.
pub fn steps(
    random: &mut Random,
    (image, channels, memory): (&[u8], &[Channel], usize),
    flavour: Flavour,
    count: usize,
) -> Vec<u64> {
    let bad_of_hundred = match flavour {
        Flavour::Good => 0,
        Flavour::Rare => 1,
        Flavour::Bad => 10,
    };
    let mut scene = Scene {
        channels,
        memory,
        page: image.get(PPR).map_or(0, |ppr| ppr >> 2),
        strays: !matches!(flavour, Flavour::Good),
    };
    let step = |_| {
        let step = if random.chance(bad_of_hundred, 100) {
            bad_step(random, channels)
        } else {
            let step = good_step(random, &scene);
            with_unused(random, step)
        };
        scene.follow(step);
        step
    };
    (0..count).map(step).collect()
}

impl Scene<'_> {
    /// The page after a step: only a write to PPR changes it.
    fn follow(&mut self, step: u64) {
        if step >> 48 == 1 && step >> 8 & 0xFF_FFFF == PPR as u64 {
            self.page = (step as u8) >> 2;
        }
    }
}

/// A step that is mostly not refused.
fn good_step(random: &mut Random, scene: &Scene) -> u64 {
    match random.below(200) {
        0..=75 => trigger(random, scene.channels),
        76..=131 => word::arbitrate(),
        132..=166 => word::return_from(),
        167..=177 => word::read(register(random, scene)),
        178..=198 => write(random, scene),
        _ => word::reset(),
    }
}

/// A trigger within its ranges.
pub(crate) fn trigger(random: &mut Random, channels: &[Channel]) -> u64 {
    let direction = random.between(0, 1);
    match random.below(20) {
        0 | 1 => word::watchdog(),
        2 | 3 => word::nmi_edge(direction),
        4..=10 if !channels.is_empty() => word::request(random.below(channels.len() as u64) as u32),
        _ => word::pin_edge(random.below(8) as u32, direction),
    }
}

/// A register: of the register file, of the system, or of the selected page.
fn register(random: &mut Random, scene: &Scene) -> u32 {
    if scene.strays && random.chance(1, 12) {
        return 240 + random.below(16) as u32;
    }
    let there = |channel: &&Channel| channel.page == scene.page;
    let records: Vec<&Channel> = scene.channels.iter().filter(there).collect();
    match random.below(8) {
        0 => random.below(224) as u32,
        1 => 224 + random.below(16) as u32,
        2 => random.pick(&[230, 234, 235]),
        _ if scene.page == 0 => 242 + random.below(6) as u32,
        _ if records.is_empty() => 234,
        _ => {
            let c = random.pick(&records);
            random.pick(&[c.idcr, c.ivr, c.dcpr, c.dapr, c.data]).into()
        }
    }
}

/// A write: any, of PPR to reach another page, or of a control register with a value that keeps things going.
fn write(random: &mut Random, scene: &Scene) -> u64 {
    let on_page = |channel: &&Channel| channel.page == scene.page;
    match random.below(10) {
        0..=2 => word::write(234, ppr(random, scene.channels)),
        3 => word::write(230, cicr(random)),
        4 if scene.page == 0 => word::write(247, nicr(random)),
        5 if scene.page == 0 => word::write(244, random.byte() | random.byte()),
        6 => match scene.channels.iter().find(on_page) {
            Some(channel) => write_pointer(random, channel),
            None => word::write(234, 0),
        },
        7 => write_half(random, scene),
        _ => word::write(register(random, scene), random.byte()),
    }
}

/// A write of DCPR or DAPR.
fn write_pointer(random: &mut Random, channel: &Channel) -> u64 {
    let dcpr = pointer(random);
    if random.chance(1, 2) {
        word::write(channel.dcpr.into(), dcpr)
    } else {
        word::write(channel.dapr.into(), dapr(random, dcpr))
    }
}

/// A write of one byte of what may be an address or a counter, in the register file.
fn write_half(random: &mut Random, scene: &Scene) -> u64 {
    let words = [address(random, scene.memory), counter(random)];
    let [high, low] = random.pick(&words).to_be_bytes();
    let first = 2 * random.below(112) as u32;
    if random.chance(1, 2) {
        word::write(first, high)
    } else {
        word::write(first + 1, low)
    }
}

/// A step that is refused, or any word.
pub(crate) fn bad_step(random: &mut Random, channels: &[Channel]) -> u64 {
    let records = channels.len() as u32;
    let direction = random.between(0, 1);
    match random.below(12) {
        0 => word::read(bad_number(random, 256, 0xFF_FFFF)),
        1 => word::write(bad_number(random, 256, 0xFF_FFFF), random.byte()),
        2 => word::pin_edge(bad_number(random, 8, 0xFF_FFFF), direction),
        3 => word::pin_edge(random.below(8) as u32, bad_direction(random)),
        4 => word::nmi_edge(bad_direction(random)),
        5 | 6 => word::request(bad_number(random, records, 0xFF_FFFF)),
        7 => word::word(2, bad_kind(random, 4), random.below(16) as u32, direction),
        8 => word::word(bad_kind(random, 6), 0, random.below(16) as u32, direction),
        9 => random.any(),
        10 => random.any() & 0x0007_0003_0000_0FFF,
        _ => word::read(240 + random.below(16) as u32),
    }
}

/// A kind that is unknown; `count` are known.
fn bad_kind(random: &mut Random, count: u32) -> u16 {
    bad_number(random, count, 0xFFFF) as u16
}

/// The step, one time in five with something in the fields that it doesn't use.
pub(crate) fn with_unused(random: &mut Random, step: u64) -> u64 {
    let unused = match (step >> 48, step >> 32 & 0xFFFF) {
        (0, _) => word::word(0, 0xFFFF, 0, 0xFF),
        (1, _) => word::word(0, 0xFFFF, 0, 0),
        (2, 0) => 0,
        (2, 1) => word::word(0, 0, 0xFF_FFFF, 0xFF),
        (2, 2) => word::word(0, 0, 0xFF_FFFF, 0),
        (2, _) => word::word(0, 0, 0, 0xFF),
        _ => word::word(0, 0xFFFF, 0xFF_FFFF, 0xFF),
    };
    if random.chance(1, 5) {
        step | random.any() & unused
    } else {
        step
    }
}
