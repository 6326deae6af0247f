//! Every export against the plain model on fixed seeds. With `--nocapture` the counts are printed.
//!
//! What each call can answer is said in `differential::Call`; every such answer is asserted to be met, and no other.

use differential::generate::{self, Flavour};
use differential::{Call, Claim, Pair, Random, Start, Tally, Waited};
use st9::sys;

/// The steps that are tried at least, in single steps and in runs: four million in all.
const SINGLE_STEPS: u64 = 2_500_000;
const RUN_STEPS: u64 = 1_500_000;
const _: () = assert!(SINGLE_STEPS + RUN_STEPS >= 3_000_000);

#[test]
fn steps() {
    let mut random = Random::new(1);
    let mut tally = Tally::new(Call::Step);
    let mut trace = 0;
    while tally.steps < SINGLE_STEPS {
        let start = Start::any(&mut random);
        let mut pair = start.pair(format!("trace {trace} of single steps"));
        let flavour = random.pick(&[Flavour::Rare, Flavour::Bad]);
        let count = 1 + random.below(60) as usize;
        for word in start.steps(&mut random, flavour, count) {
            tally.count(pair.step(word));
        }
        trace += 1;
    }
    print!("{tally}");
    assert!(tally.steps >= SINGLE_STEPS);
    tally.assert_all_met();
    tally.assert_all_served();
}

#[test]
fn runs() {
    let mut random = Random::new(2);
    let mut tally = Tally::new(Call::Run);
    let mut number = 0;
    while tally.steps < RUN_STEPS {
        let start = Start::any(&mut random);
        let mut pair = start.pair(format!("run {number}"));
        let flavour = random.pick(&[Flavour::Good, Flavour::Rare, Flavour::Bad]);
        let count = random.below(80) as usize;
        let words = start.steps(&mut random, flavour, count);
        tally.count(pair.run(&words));
        number += 1;
    }
    print!("{tally}");
    assert!(tally.steps >= RUN_STEPS);
    tally.assert_all_met();
}

#[test]
fn waits() {
    let mut random = Random::new(3);
    let mut tally = Tally::new(Call::Wait);
    for number in 0..30_000 {
        let start = Start::any(&mut random);
        let mut pair = start.pair(format!("wait {number}"));
        let flavour = random.pick(&[Flavour::Good, Flavour::Rare, Flavour::Bad]);
        let count = random.below(60) as usize;
        let words = start.steps(&mut random, flavour, count);
        let source = generate::source(&mut random, start.channels.len());
        tally.count(pair.wait(source, &words));
    }
    print!("{tally}");
    tally.assert_all_met();
}

#[test]
fn bounds() {
    let mut random = Random::new(4);
    let mut tally = Tally::new(Call::Bound);
    for number in 0..12_000 {
        let start = Start::any(&mut random);
        let mut pair = start.pair(format!("bound {number}"));
        let flavour = random.pick(&[Flavour::Good, Flavour::Rare, Flavour::Bad]);
        let count = random.below(30) as usize;
        let words = start.steps(&mut random, flavour, count);
        let source = generate::source(&mut random, start.channels.len());
        tally.count(pair.bound(source, &words));
    }
    let mut waited = Waited::default();
    for number in 0..30_000 {
        let (start, source) = Start::nearly_waiting(&mut random);
        let count = random.below(50) as usize;
        let words = generate::list_of_calls(&mut random, &start.channels, count);
        let name = format!("waiting {number}");
        let bound = start.pair(name.clone()).bound(source, &words);
        tally.count(bound);
        if bound.kind == sys::WITHIN {
            let claim = Claim { source, words: &words, bound };
            waited.check_report(start.pair(name.clone()), claim);
            waited.check_calls(start.pair(name), claim);
        }
    }
    println!("{tally}{waited:#?}");
    tally.assert_all_met();
    assert!(tally.of_kind(sys::WITHIN) >= 15_000);
    assert!(waited.at_the_bound > 0 && waited.ended > 0 && waited.refused > 0);
}

#[test]
fn views() {
    let mut random = Random::new(5);
    let mut tally = Tally::new(Call::View);
    for number in 0..20_000 {
        let mut image = generate::image(&mut random, &[], 0);
        if random.chance(1, 8) {
            image = generate::damaged_image(&mut random);
        }
        let mut pair = Pair::new(format!("view {number}"), &image, &[], &[]);
        tally.count_view(pair.view_number(generate::page(&mut random)));
    }
    print!("{tally}");
    tally.assert_all_met();
}

/// Every word with small numbers, known kinds and the next unknown ones, on four images: what a random choice could pass by.
#[test]
fn every_small_word() {
    let mut random = Random::new(6);
    let channels = generate::list(&mut random, 12);
    let list = generate::bytes(&channels);
    for round in 0..4 {
        let memory = [7; 300];
        let image = generate::image(&mut random, &channels, memory.len());
        for kind in 0..8 {
            for trigger in 0..6 {
                for first in (0..20).chain(224..258) {
                    for second in 0..3 {
                        let word = model::word::word(kind, trigger, first, second);
                        let name = format!("word, round {round}");
                        Pair::new(name, &image, &list, &memory).step(word);
                    }
                }
            }
        }
    }
}

/// One record on page 9, R240 to R244.
const RECORD: [u8; 7] = [9, 240, 241, 242, 243, 244, 0];

/// A zero image with the record's data register 5Ah.
fn record_image() -> [u8; model::IMAGE_LENGTH] {
    let mut image = [0; model::IMAGE_LENGTH];
    image[model::paged(9, 244)] = 0x5A;
    image
}

/// Every CICR with every IDCR of one record that has a good block, arbitrated.
#[test]
fn every_cicr_and_idcr() {
    let mut image = record_image();
    image[model::paged(9, 242)] = 0x11;
    for (cicr, idcr) in all_pairs() {
        image[230] = cicr;
        image[model::paged(9, 240)] = idcr;
        for counter in [1, 2] {
            (image[16], image[17]) = (20, counter);
            let name = format!("CICR {cicr:02X}, IDCR {idcr:02X}, counter {counter}");
            Pair::new(name, &image, &RECORD, &[]).step(model::word::arbitrate());
        }
    }
}

/// Every CICR with every NICR: an interrupt of source 0 acknowledged, then a return.
#[test]
fn every_cicr_and_nicr() {
    let mut image = record_image();
    (image[243], image[244]) = (0xFF, 0x01);
    for (cicr, nicr) in all_pairs() {
        (image[230], image[247]) = (cicr, nicr);
        let name = format!("CICR {cicr:02X}, NICR {nicr:02X}");
        let mut pair = Pair::new(name, &image, &[], &[]);
        pair.step(model::word::arbitrate());
        pair.step(model::word::return_from());
        pair.step(model::word::return_from());
    }
}

/// Every DCPR with every address in the register file, in both directions; an even DCPR has its address in R0 and R1.
#[test]
fn every_dcpr_and_address() {
    for (dcpr, address) in all_pairs() {
        let mut image = record_image();
        image[230] = 0x87;
        image[model::paged(9, 240)] = 0x3A;
        image[model::paged(9, 242)] = dcpr;
        image[usize::from(dcpr & 0xFE)] = address;
        image[usize::from(dcpr | 1)] = 2;
        for direction in [0, 1] {
            let mut record = RECORD;
            record[6] = direction;
            let name = format!("DCPR {dcpr:02X}, address {address:02X}, direction {direction}");
            Pair::new(name, &image, &record, &[7; 300]).step(model::word::arbitrate());
        }
    }
}

/// All pairs of bytes.
fn all_pairs() -> impl Iterator<Item = (u8, u8)> {
    (0..=u16::MAX).map(|both| ((both >> 8) as u8, both as u8))
}
