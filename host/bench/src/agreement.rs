//! The strong program against the proved library, so that what is measured is one job: answers, refusals, and every byte of the images and memories. The
//! plain model is compared in `host/differential`.

use crate::sides::{proved_run, proved_step, strong_run, strong_step};
use crate::{check, SITUATIONS};
use differential::generate::{self, Flavour};
use differential::{Call, Random, Start, Tally};
use model::{word, IMAGE_LENGTH};
use st9::sys;

/// The starts of a test; from each there are fewer steps than this.
const STARTS: usize = 20_000;
const STEPS: u64 = 80;

#[test]
fn situations() {
    SITUATIONS.iter().for_each(|situation| check(&situation()));
}

#[test]
fn runs() {
    let mut random = Random::new(21);
    let mut tally = Tally::new(Call::Run);
    for number in 0..STARTS {
        let start = Start::any(&mut random);
        let flavour = random.pick(&[Flavour::Good, Flavour::Rare, Flavour::Bad]);
        let count = random.below(STEPS) as usize;
        let words = start.steps(&mut random, flavour, count);
        let (mut image, mut other) = (start.image.clone(), start.image);
        let (mut memory, mut other_memory) = (start.memory.clone(), start.memory);
        let proved = proved_run(&mut image, &start.list, &mut memory, &words);
        let strong = strong_run(&mut other, &start.list, &mut other_memory, &words);
        assert_eq!(strong, proved, "run {number}");
        assert_eq!(other, image, "run {number}");
        assert!(other_memory == memory, "run {number}");
        tally.count(proved);
    }
    tally.assert_all_met();
}

#[test]
fn single_steps() {
    let mut random = Random::new(22);
    let mut tally = Tally::new(Call::Step);
    for number in 0..STARTS {
        let start = Start::any(&mut random);
        let flavour = random.pick(&[Flavour::Rare, Flavour::Bad]);
        let count = random.below(STEPS) as usize;
        let words = start.steps(&mut random, flavour, count);
        let (mut image, mut other) = (start.image.clone(), start.image);
        let (mut memory, mut other_memory) = (start.memory.clone(), start.memory);
        for word in words {
            let proved = proved_step(&mut image, &start.list, &mut memory, word);
            let strong = strong_step(&mut other, &start.list, &mut other_memory, word);
            assert_eq!(strong, proved, "start {number}, word {word:016X}");
            assert_eq!(other, image, "start {number}, word {word:016X}");
            assert!(other_memory == memory, "start {number}, word {word:016X}");
            tally.count(proved);
        }
    }
    tally.assert_all_met();
    tally.assert_all_served();
}

/// Good lists with one byte replaced: some stay good, which no damaged list of the generator does.
#[test]
fn lists() {
    let mut random = Random::new(23);
    let mut refused = 0;
    for _ in 0..STARTS {
        let count = 1 + random.below(12) as usize;
        let mut list = generate::bytes(&generate::list(&mut random, count));
        let place = random.below(list.len() as u64) as usize;
        let byte = random.byte();
        list[place] = random.pick(&[0, 1, 63, 64, 239, 240, 255, byte]);
        let mut image = [0; IMAGE_LENGTH];
        let proved = proved_step(&mut image, &list, &mut [], word::arbitrate());
        let strong = strong_step(&mut image, &list, &mut [], word::arbitrate());
        assert_eq!(strong, proved, "{list:?}");
        refused += usize::from(proved.kind == sys::REFUSED);
    }
    assert!((STARTS / 4..STARTS).contains(&refused), "{refused}");
}
