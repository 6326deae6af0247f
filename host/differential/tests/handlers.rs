//! The handlers' bound on fixed seeds: its answers against the plain model's, and what it claims, followed. With `--nocapture` the counts are printed.

use differential::generate::{self, Flavour};
use differential::{flat, places, Account, Call, Calls, Claim, Pair, Random, Start, Tally, Waited};
use model::word;
use st9::sys;
use std::collections::BTreeMap;

/// The lists with a bound on which the claim is followed; the environment's `HANDLER_LISTS` may ask for more.
const LISTS: u64 = 100_000;

#[test]
fn handler_bounds() {
    let mut random = Random::new(7);
    let mut tally = Tally::new(Call::HandlerBound);
    let broken_lists = from_any_start(&mut random, &mut tally);
    let mut waited = Waited::default();
    let mut enabled = Waited::default();
    let mut met = Met::default();
    let mut compared = Compared::default();
    for number in 0..40_000 {
        let (start, source) = Start::nearly_waiting(&mut random);
        let words = list(&mut random, &start, source);
        let name = format!("handlers {number}");
        let bound = start.pair(name.clone()).handler_bound(source, &words);
        tally.count(bound);
        met.count(&start, source, &words, bound);
        compared.count(bound, start.pair(name.clone()).bound(source, &words));
        if bound.kind == sys::WITHIN {
            let claim = Claim { source, words: &words, bound };
            waited.check_report(start.pair(name.clone()), claim);
            waited.check_calls(start.pair(name.clone()), claim);
        }
        let fewer = without_disabled(&start, &words);
        let bound = start.pair(name.clone()).handler_bound(source, &fewer);
        if bound.kind == sys::WITHIN && fewer.len() < words.len() {
            enabled.check_enabled_calls(start.pair(name), Claim { source, words: &words, bound });
        }
    }
    println!("{tally}{broken_lists} broken lists\n{met:?}\n{compared:?}\n{waited:?}\n{enabled:?}");
    tally.assert_all_met();
    met.assert_all_met();
    assert!(broken_lists > 0 && compared.smaller >= 1_000);
    assert!(tally.of_kind(sys::WITHIN) >= 15_000);
    assert!(waited.at_a_bound_over_one > 0 && waited.ended > 0 && waited.refused > 0);
    assert!(enabled.followed_to_a_bound_with_events > 0);
}

/// Any images, lists and steps; gives how many lists were no whole number of records.
fn from_any_start(random: &mut Random, tally: &mut Tally) -> u64 {
    let mut broken_lists = 0;
    for number in 0..12_000 {
        let start = Start::any(random);
        let mut pair = start.pair(format!("handlers' bound {number}"));
        let flavour = random.pick(&[Flavour::Good, Flavour::Rare, Flavour::Bad]);
        let count = random.below(30) as usize;
        let words = start.steps(random, flavour, count);
        let source = generate::source(random, start.channels.len());
        tally.count(pair.handler_bound(source, &words));
        broken_lists += u64::from(!start.list.len().is_multiple_of(7));
    }
    broken_lists
}

/// Every byte written to every register of the system, of page 0 and of a record's page, before an external source and before the record is served.
#[test]
fn every_write() {
    let record = [9, 240, 241, 242, 243, 244, 0];
    let mut image = [0; model::IMAGE_LENGTH];
    // INTB1 and the record pending at level 1, INTA0 at level 0; INTB0 and INTA1 outrank both too.
    (image[230], image[243], image[244]) = (0x97, 0x09, 0x0F);
    image[model::paged(9, 240)] = 0x29;
    let mut tally = Tally::new(Call::HandlerBound);
    for (page, source) in [(0, 3), (0, 8), (9, 3), (9, 8)] {
        image[234] = 4 * page;
        for (register, value) in
            (224..=255).flat_map(|register| (0..=255).map(move |value| (register, value)))
        {
            let words = [word::write(register, value), word::return_from(), word::arbitrate()];
            let name = format!("page {page}, R{register} {value:02X}h");
            tally.count(Pair::new(name, &image, &record, &[]).handler_bound(source, &words));
        }
    }
    print!("{tally}");
    assert_eq!(tally.of_kind(sys::WITHIN) + tally.of_kind(sys::CHANGED), 4 * 32 * 256);
}

/// The claim in both its forms, on the plain model alone.
#[test]
fn claims() {
    let lists =
        std::env::var("HANDLER_LISTS").map_or(LISTS, |asked| asked.parse().expect("a number"));
    let mut random = Random::new(8);
    let mut tried = 0;
    let mut waited = Waited::default();
    let mut enabled = Waited::default();
    let mut compared = Compared::default();
    // Lists that have a bound only by the form without a premise on IEN.
    let mut inside_handlers = 0;
    while waited.followed < lists {
        tried += 1;
        let (start, source) = Start::waiting(&mut random);
        let words = list(&mut random, &start, source);
        let bound = |words: &[u64]| {
            flat::bound(model::handler_bound(&start.image, &start.channels, source, words))
        };
        let claim = Claim { source, words: &words, bound: bound(&words) };
        if claim.bound.kind == sys::WITHIN {
            waited.check_report(start.alone(), claim);
            waited.check_calls(start.alone(), claim);
        }
        let demand = model::bound(&start.image, &start.channels, source, &words);
        compared.count(claim.bound, flat::bound(demand));
        let second = Claim { bound: bound(&without_disabled(&start, &words)), ..claim };
        if second.bound.kind == sys::WITHIN {
            enabled.check_enabled_calls(start.alone(), second);
            inside_handlers += u64::from(claim.bound.kind == sys::INTERRUPTS_DISABLED);
        }
    }
    println!("{tried} lists, {inside_handlers} with a bound by the second form only");
    println!("{compared:?}\n{waited:#?}\nSecond form: {enabled:#?}");
    assert!(inside_handlers > lists / 100);
    assert!(waited.followed_to_a_bound_with_events > lists / 100);
    assert!(enabled.followed_to_a_bound_with_events > lists / 100);
}

/// Steps as handlers do them, one time in four only the calls of demand 3.
fn list(random: &mut Random, start: &Start, source: u32) -> Vec<u64> {
    let count = random.below(50) as usize;
    if random.chance(1, 4) {
        generate::list_of_calls(random, &start.channels, count)
    } else {
        generate::list_of_handlers(random, &start.image, &start.channels, source, count)
    }
}

/// The list without the arbitrations that find IEN = 0.
fn without_disabled(start: &Start, words: &[u64]) -> Vec<u64> {
    let mut alone = start.alone();
    let stays = |word: &u64| {
        let is_enabled = places::is_enabled(alone.image());
        alone.step(*word);
        is_enabled || word >> 48 != 3
    };
    words.iter().copied().filter(stays).collect()
}

/// What else was met, beside the answers.
#[derive(Debug, Default)]
struct Met {
    /// Bounds with E > 0, by what it counts.
    by_triggers: u64,
    by_raised_bits: u64,
    by_both: u64,
    /// Bounds with a write that raised two counted bits or more.
    raised_at_once: u64,
    /// Bounds with a refused step before the acknowledgement, and with a step after it that would break a premise.
    refused_before: u64,
    broken_after: u64,
    /// Writes by what they changed and where, and those that changed several things.
    changed: BTreeMap<(u64, usize), u64>,
    several_changes: u64,
}

impl Met {
    fn count(&mut self, start: &Start, source: u32, words: &[u64], answer: sys::Answer) {
        if !matches!(answer.kind, sys::OTHER_STEP..=sys::CHANGED) {
            return;
        }
        let account = Account::of(start, source, words);
        assert_eq!(account.answer(), answer);
        if answer.kind == sys::WITHIN {
            let Account { triggers, raised, .. } = account;
            self.by_triggers += u64::from(triggers > 0 && raised == 0);
            self.by_raised_bits += u64::from(triggers == 0 && raised > 0);
            self.by_both += u64::from(triggers > 0 && raised > 0);
            self.raised_at_once += u64::from(account.at_once > 1);
            self.refused_before += u64::from(account.refused > 0);
            self.broken_after += u64::from(account.broken_after);
        }
        if answer.kind == sys::CHANGED {
            // Records' registers together.
            let (basis, place) = account.changes[0];
            *self.changed.entry((basis, place.min(256))).or_default() += 1;
            self.several_changes += u64::from(account.changes.len() > 1);
        }
    }

    fn assert_all_met(&self) {
        let events = [self.by_triggers, self.by_raised_bits, self.by_both, self.raised_at_once];
        let others = [self.refused_before, self.broken_after, self.several_changes];
        assert!(events.iter().chain(&others).all(|count| *count >= 100), "{self:#?}");
        // Pending in EIPR and IDCR, the three of CICR, TLNM, the mask in EIMR and IDCR, DM, the level in EIPLR and IDCR.
        let ways = [(1, 243), (1, 256), (2, 230), (3, 230), (4, 230), (4, 247), (5, 244)];
        let ways = [&ways[..], &[(5, 256), (6, 256), (7, 245), (7, 256)]].concat();
        assert!(self.changed.keys().copied().eq(ways), "{self:#?}");
    }
}

/// The two bounds beside each other.
#[derive(Debug, Default)]
struct Compared {
    /// Lists that have both, and those where demand 3's is larger.
    both: u64,
    smaller: u64,
}

impl Compared {
    /// Where demand 3 has a bound there is a handlers' bound too, and it is not above it.
    fn count(&mut self, handlers: sys::Answer, demand: sys::Answer) {
        if demand.kind == sys::WITHIN {
            assert_eq!(handlers.kind, sys::WITHIN);
            assert!(handlers.third <= demand.third);
            self.both += 1;
            self.smaller += u64::from(handlers.third < demand.third);
        }
    }
}
