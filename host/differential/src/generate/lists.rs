//! Channel lists.

use super::bad_direction;
use crate::Random;
use model::Channel;

/// A good list of `count` records, several of them on one page.
pub fn list(random: &mut Random, count: usize) -> Vec<Channel> {
    let mut pages: Vec<(u8, Vec<u8>)> = Vec::new();
    while pages.len() < 8 {
        let page = match random.below(8) {
            0 => 1,
            1 => 63,
            _ => random.between(1, 63),
        };
        if pages.iter().all(|(other, _)| *other != page) {
            pages.push((page, (240..=255).collect()));
        }
    }
    let mut channels = Vec::new();
    while channels.len() < count {
        let chosen = random.below(8) as usize;
        let (page, free) = &mut pages[chosen];
        if free.len() >= 5 {
            channels.push(record(random, *page, free));
        }
    }
    channels
}

/// A record with five of the free registers of a page.
fn record(random: &mut Random, page: u8, free: &mut Vec<u8>) -> Channel {
    let mut take = || free.swap_remove(random.below(free.len() as u64) as usize);
    let (idcr, ivr, dcpr, dapr, data) = (take(), take(), take(), take(), take());
    Channel { page, idcr, ivr, dcpr, dapr, data, direction: random.between(0, 1) }
}

/// The bytes of a list, as they are lent.
pub fn bytes(channels: &[Channel]) -> Vec<u8> {
    channels
        .iter()
        .flat_map(|c| [c.page, c.idcr, c.ivr, c.dcpr, c.dapr, c.data, c.direction])
        .collect()
}

/// The bytes of a list that breaks one rule.
pub fn damaged_bytes(random: &mut Random) -> Vec<u8> {
    let count = 1 + random.below(12) as usize;
    let channels = list(random, count);
    let mut bytes = bytes(&channels);
    let record = 7 * random.below(count as u64) as usize;
    match random.below(12) {
        0 => bytes[record] = 0,
        1 => bytes[record] = random.between(64, 255),
        2 => bytes[record] = 64,
        3 | 4 => bytes[record + 1 + random.below(5) as usize] = random.between(0, 239),
        5 => bytes[record + 1 + random.below(5) as usize] = 239,
        6 => bytes[record + 6] = bad_direction(random),
        7 => double_within(random, &mut bytes, record),
        8 => double_across(random, &mut bytes, record),
        9 => bytes.extend_from_within(record..record + 7),
        10 => return self::bytes(&too_many(random)),
        _ => break_length(random, &mut bytes),
    }
    bytes
}

/// Two registers of one record the same.
fn double_within(random: &mut Random, bytes: &mut [u8], record: usize) {
    let one = random.below(5) as usize;
    let other = (one + 1 + random.below(4) as usize) % 5;
    bytes[record + 1 + one] = bytes[record + 1 + other];
}

/// A register of one record in another too; in a list of one the record is doubled with one register in common.
fn double_across(random: &mut Random, bytes: &mut Vec<u8>, record: usize) {
    let shared = bytes[record + 1 + random.below(5) as usize];
    let used: Vec<u8> = bytes
        .chunks_exact(7)
        .filter(|other| other[0] == bytes[record])
        .flat_map(|other| other[1..6].to_vec())
        .collect();
    let mut free = (240..=255).filter(|register| !used.contains(register));
    let mut double = [bytes[record], 0, 0, 0, 0, 0, random.between(0, 1)];
    for register in &mut double[1..6] {
        *register = free.next().unwrap_or(shared);
    }
    double[1 + random.below(5) as usize] = shared;
    // In place of another record, or at the end, so that twelve are not passed.
    let last = bytes.len() - 7;
    if last == record {
        bytes.extend_from_slice(&double);
    } else {
        bytes[last..].copy_from_slice(&double);
    }
}

/// Thirteen or fourteen records that are good but for their number.
fn too_many(random: &mut Random) -> Vec<Channel> {
    let count = 13 + random.below(2) as usize;
    list(random, count)
}

/// No whole number of records.
fn break_length(random: &mut Random, bytes: &mut Vec<u8>) {
    let odd = 1 + random.below(6) as usize;
    if random.chance(1, 2) {
        bytes.truncate(bytes.len() - odd);
    } else {
        let more: Vec<u8> = (0..odd).map(|_| random.byte()).collect();
        bytes.extend(more);
    }
}
