//! Blocks in memory (request §1) on fixed seeds: traces, runs and waits in which most records transfer, every pointer, every address and counter, whole
//! blocks, and what is refused where several refusals fit. With `--nocapture` the counts are printed.

use differential::generate::{self, Flavour};
use differential::{Alone, Blocks, Calls, Claim, Pair, Random, Start, Waited};
use model::{paged, word, IMAGE_LENGTH, MOST_MEMORY};
use st9::sys;
use std::collections::BTreeMap;

/// The steps that are tried in traces of single steps.
const STEPS: u64 = 1_000_000;

/// The runs and the waits that are made.
const LISTS: u64 = 30_000;

#[test]
fn steps() {
    let mut random = Random::new(41);
    let mut blocks = Blocks::default();
    let mut steps = 0;
    for trace in 0.. {
        let start = Start::transferring(&mut random);
        let mut pair = start.pair(format!("trace {trace} of blocks"));
        let mut refused = 0;
        for word in words(&mut random, &start, 60) {
            let answer = blocks.follow(&mut pair, word);
            steps += 1;
            // A winner that is refused stays: the trace would be of nothing else.
            refused += u64::from(matches!(answer.refusal, 5 | 6));
            if refused == 3 {
                break;
            }
        }
        if steps >= STEPS {
            break;
        }
    }
    println!("{steps} steps: {blocks:?}");
    blocks.assert_all_met(100);
}

/// Requests and arbitrations, some steps of other kinds and, one time in four, bad ones.
fn words(random: &mut Random, start: &Start, most: u64) -> Vec<u64> {
    let flavour = random.pick(&[Flavour::Good, Flavour::Good, Flavour::Good, Flavour::Bad]);
    let count = 1 + random.below(most) as usize;
    let steps = start.steps(random, flavour, count);
    let step = |step| match random.below(4) {
        0 | 1 => word::arbitrate(),
        2 => word::request(random.below(start.channels.len() as u64) as u32),
        _ => step,
    };
    steps.into_iter().map(step).collect()
}

/// The lists with a transfer in memory by how they ended, and all transfers.
#[derive(Debug, Default)]
struct Lists {
    ended: u64,
    acknowledged: u64,
    /// By number.
    refused: BTreeMap<u64, u64>,
    blocks: Blocks,
}

impl Lists {
    /// A run, and its steps one by one on the plain model.
    fn run(&mut self, mut pair: Pair, start: &Start, words: &[u64]) {
        let answer = pair.run(words);
        let done = match answer.kind {
            sys::REFUSED_STEP => answer.steps as usize,
            _ => words.len(),
        };
        self.check(&pair, start.alone(), answer, words, done);
    }

    /// A wait likewise.
    fn wait(&mut self, mut pair: Pair, start: &Start, source: u32, words: &[u64]) {
        let answer = pair.wait(source, words);
        let done = match answer.kind {
            sys::REFUSED_STEP => answer.steps as usize,
            sys::ACKNOWLEDGED => acknowledged(words, answer.first),
            _ => words.len(),
        };
        self.check(&pair, start.alone(), answer, words, done);
    }

    /// The steps done, one by one, leave what the call left; then the refused one, if there is one, is refused.
    fn check(
        &mut self,
        pair: &Pair,
        mut alone: Alone,
        answer: sys::Answer,
        words: &[u64],
        done: usize,
    ) {
        let before = self.blocks.in_memory();
        for word in &words[..done] {
            assert_ne!(self.blocks.follow(&mut alone, *word).kind, sys::REFUSED);
        }
        assert_eq!(pair.image(), alone.image());
        assert!(pair.memory() == alone.memory());
        let transferred = u64::from(self.blocks.in_memory() > before);
        *match answer.kind {
            sys::REFUSED_STEP => {
                let refused = self.blocks.follow(&mut alone, words[done]);
                assert_eq!(refused.refusal, answer.refusal);
                self.refused.entry(answer.refusal).or_default()
            }
            sys::ACKNOWLEDGED => &mut self.acknowledged,
            _ => &mut self.ended,
        } += transferred;
    }

    fn assert_all_met(&self) {
        assert!(self.ended >= 1_000, "{self:?}");
        assert!((3..=7).all(|number| self.refused.get(&number) >= Some(&100)), "{self:?}");
        self.blocks.assert_all_met(20);
    }
}

/// How many steps a wait did whose source was acknowledged by that arbitration.
fn acknowledged(words: &[u64], arbitration: u64) -> usize {
    let mut arbitrations = (0..words.len()).filter(|place| words[*place] >> 48 == 3);
    arbitrations.nth(arbitration as usize - 1).map_or(0, |place| place + 1)
}

#[test]
fn runs() {
    let mut random = Random::new(42);
    let mut lists = Lists::default();
    for number in 0..LISTS {
        let start = Start::transferring(&mut random);
        let words = words(&mut random, &start, 20);
        lists.run(start.pair(format!("run {number} of blocks")), &start, &words);
    }
    println!("{lists:?}");
    lists.assert_all_met();
}

#[test]
fn waits() {
    let mut random = Random::new(43);
    let mut lists = Lists::default();
    for number in 0..LISTS {
        let start = Start::transferring(&mut random);
        let words = words(&mut random, &start, 20);
        let source = random.below(8 + start.channels.len() as u64) as u32;
        lists.wait(start.pair(format!("wait {number} of blocks")), &start, source, &words);
    }
    println!("{lists:?}");
    lists.assert_all_met();
    assert!(lists.acknowledged >= 100);
}

/// One record on page 9, R240 to R244, and its list in both directions.
const RECORDS: [[u8; 7]; 2] = [[9, 240, 241, 242, 243, 244, 0], [9, 240, 241, 242, 243, 244, 1]];

/// CPL 7; the record requests DMA at level 2 with IM = 1, its data 5Ah, and these bytes.
fn image(bytes: &[(usize, u8)]) -> Vec<u8> {
    let mut image = vec![0; IMAGE_LENGTH];
    let record = [(230, 0x87), (paged(9, 240), 0x3A), (paged(9, 244), 0x5A)];
    for (place, byte) in record.iter().chain(bytes) {
        image[*place] = *byte;
    }
    image
}

/// A memory of so many bytes, counted modulo 251.
fn counted(length: usize) -> Vec<u8> {
    (0..length).map(|place| (place % 251) as u8).collect()
}

/// Every DCPR with every DAPR: the pair from Rn on has n + 1 in its low byte and in its high byte n, so that few addresses are below the memory's length,
/// or 0, so that all are.
#[test]
fn every_dcpr_and_dapr() {
    let mut blocks = Blocks::default();
    let memory = [7; 512];
    for (dcpr, dapr) in (0..=u16::MAX).map(|both| ((both >> 8) as u8, both as u8)) {
        for list in RECORDS {
            for high in [0xFF, 0x00] {
                let mut image = image(&[(paged(9, 242), dcpr), (paged(9, 243), dapr)]);
                for first in (0..224).step_by(2) {
                    (image[first], image[first + 1]) = (first as u8 & high, first as u8 + 1);
                }
                let name = format!("DCPR {dcpr:02X}, DAPR {dapr:02X}, high {high:02X}");
                blocks.follow(&mut Pair::new(name, &image, &list, &memory), word::arbitrate());
            }
        }
    }
    println!("{blocks:?}");
    assert!(blocks.in_memory() >= 2 * 112 * 224);
}

/// Every address with five lengths of memory; every counter, also where one pair is for both.
#[test]
fn every_address_and_counter() {
    let mut blocks = Blocks::default();
    for length in [0, 1, 256, 65_535, MOST_MEMORY] {
        for list in RECORDS {
            let memory = counted(length);
            let start = image(&[(paged(9, 242), 0x10), (234, 0x24)]);
            let name = format!("every address and counter, {length} bytes of memory");
            let mut pair = Pair::new(name, &start, &list, &memory);
            for number in 0..=u16::MAX {
                transfer_at(&mut pair, &mut blocks, (number, 1), 0x12);
                if length == MOST_MEMORY {
                    transfer_at(&mut pair, &mut blocks, (7, number), 0x13);
                    transfer_at(&mut pair, &mut blocks, (0, number), 0x11);
                }
            }
        }
    }
    println!("{blocks:?}");
    assert_eq!(blocks.in_memory(), 2 * (1 + 256 + 65_535 + 3 * 65_536));
}

/// A transfer with this address in R18 and R19 and this counter in R16 and R17, which DCPR names.
fn transfer_at(pair: &mut Pair, blocks: &mut Blocks, (address, counter): (u16, u16), dapr: u8) {
    let [address_high, address_low] = address.to_be_bytes();
    let [high, low] = counter.to_be_bytes();
    let pairs = [(16, high), (17, low), (18, address_high), (19, address_low)];
    let bytes = [&pairs[..], &[(243, dapr), (240, 0x3A)]].concat();
    let words: Vec<u64> =
        bytes.iter().map(|(register, byte)| word::write(*register, *byte)).collect();
    assert_eq!(pair.run(&words).kind, sys::WRITTEN);
    blocks.follow(pair, word::arbitrate());
}

/// A block of 65,536 bytes, from an address on that wraps: every byte of memory once, in both directions.
#[test]
fn a_whole_memory() {
    for list in RECORDS {
        let start = [(paged(9, 242), 0x10), (paged(9, 243), 0x13), (18, 0x12), (19, 0x34)];
        let memory = counted(MOST_MEMORY);
        let mut pair = Pair::new("a whole memory".into(), &image(&start), &list, &memory);
        for left in (0..MOST_MEMORY as u64).rev() {
            let answer = pair.step(word::arbitrate());
            assert_eq!((answer.kind, answer.second), (sys::TRANSFERRED, u64::from(left == 0)));
            pair.step(word::request(0));
        }
        assert_eq!(pair.image()[16..20], [0, 0, 0x12, 0x34]);
        let moved = if list[6] == 0 { vec![0x5A; MOST_MEMORY] } else { memory };
        assert!(pair.memory() == moved);
    }
}

/// Which refusals fit a call, by their own tests, in the order of the papers; and how often two fit.
#[derive(Debug, Default)]
struct Faults {
    calls: u64,
    both: BTreeMap<(u64, u64), u64>,
}

impl Faults {
    /// Of those that fit, the first is given.
    fn check(&mut self, given: u64, fitting: &[(bool, u64)]) {
        let fit: Vec<u64> = fitting.iter().filter(|(fits, _)| *fits).map(|(_, n)| *n).collect();
        assert_eq!(given, fit.first().copied().unwrap_or(0), "{fitting:?}");
        self.calls += 1;
        for later in fit.iter().skip(1) {
            *self.both.entry((given, *later)).or_default() += 1;
        }
    }

    fn assert_met(&self, pairs: &[(u64, u64)]) {
        assert!(pairs.iter().all(|pair| self.both.get(pair) >= Some(&20)), "{self:?}");
    }
}

/// An image, a list and a memory, each damaged one time in two; whether they are.
fn perhaps_damaged(random: &mut Random) -> (Start, [(bool, u64); 3]) {
    let mut start = Start::transferring(random);
    let [image, list, memory] = [(); 3].map(|()| random.chance(1, 2));
    if image {
        start.image = generate::damaged_image(random);
    }
    if list {
        start.list = generate::damaged_bytes(random);
    }
    if memory {
        start.memory = generate::damaged_memory(random);
    }
    (start, [(image, 1), (list, 2), (memory, 8)])
}

/// The refusal of a step where image, list and memory are good, 0 where it is done. A winner's is looked for in the image itself, if its length is good.
fn own_refusal(start: &Start, word: u64) -> u64 {
    let memory = &start.memory[..start.memory.len().min(MOST_MEMORY)];
    let image = match start.image.len() {
        IMAGE_LENGTH => &start.image[..],
        _ => &[0; IMAGE_LENGTH],
    };
    Alone::new(image, &start.channels, memory).step(word).refusal
}

/// 1, 2, 8, then of a wait the source's 4, then the steps' own.
#[test]
fn the_order_of_refusals() {
    let mut random = Random::new(45);
    let mut of_steps = Faults::default();
    let mut of_runs = Faults::default();
    let mut of_waits = Faults::default();
    for number in 0..12_000 {
        let (start, lent) = perhaps_damaged(&mut random);
        let name = format!("refusals {number}");
        let bad = generate::refused_step(&mut random, &start.channels);
        let word = random.pick(&[bad, word::arbitrate(), word::return_from()]);
        let own = own_refusal(&start, word);
        let step = [&lent[..], &[(own != 0, own)]].concat();
        of_steps.check(start.pair(name.clone()).step(word).refusal, &step);
        let words = if random.chance(1, 4) { vec![] } else { vec![word] };
        let own = if words.is_empty() { 0 } else { own };
        let run = [&lent[..], &[(own != 0, own)]].concat();
        of_runs.check(start.pair(name.clone()).run(&words).refusal, &run);
        let source = generate::source(&mut random, start.channels.len());
        let source = if random.chance(1, 2) { source } else { 20 };
        let no_source = source >= 8 + start.channels.len() as u32;
        let wait = [&lent[..], &[(no_source, 4), (own != 0, own)]].concat();
        of_waits.check(start.pair(name).wait(source, &words).refusal, &wait);
    }
    println!("steps {of_steps:?}\nruns {of_runs:?}\nwaits {of_waits:?}");
    let lent = [(1, 2), (1, 8), (2, 8)];
    let own = [(8, 3), (8, 4), (8, 6), (8, 7)];
    of_steps.assert_met(&[&lent[..], &own].concat());
    of_runs.assert_met(&[&lent[..], &own].concat());
    of_waits.assert_met(&[&lent[..], &own, &[(4, 3), (4, 5), (4, 6), (4, 7)]].concat());
}

/// Demand 3 speaks of every list of calls: with a memory over the limit all are refused, count nowhere and change nothing.
#[test]
fn bounds_beside_a_memory_over_the_limit() {
    let mut random = Random::new(46);
    let mut waited = Waited::default();
    for number in 0..2_000 {
        let (mut start, source) = Start::waiting(&mut random);
        start.memory = generate::damaged_memory(&mut random);
        let words = generate::list_of_calls(&mut random, &start.channels, 20);
        let name = format!("bound {number} beside a memory");
        let bound = start.pair(name.clone()).bound(source, &words);
        let handlers = start.pair(name.clone()).handler_bound(source, &words);
        for bound in [bound, handlers].into_iter().filter(|bound| bound.kind == sys::WITHIN) {
            let claim = Claim { source, words: &words, bound };
            waited.check_report(start.pair(name.clone()), claim);
            waited.check_calls(start.pair(name.clone()), claim);
        }
    }
    println!("{waited:?}");
    assert!(waited.followed >= 1_000);
    assert_eq!((waited.acknowledged, waited.followed_to_acknowledgement, waited.ended), (0, 0, 0));
}
