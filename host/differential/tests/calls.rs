//! Lists of calls, each a single step, a run or a wait report on the image that the call before it left: they leave what the steps that they did leave one by
//! one, and demand 3 and the handlers' claim hold of all these steps. With `--nocapture` the counts are printed.

use differential::generate;
use differential::{flat, places, Alone, Calls, Claim, Pair, Random, Start, Waited};
use model::word;
use st9::sys;

/// What the lists had.
#[derive(Debug, Default)]
struct Met {
    steps: u64,
    runs: u64,
    waits: u64,
    refused_before_any_step: u64,
    refused_midway: u64,
    acknowledged_by_a_step: u64,
    acknowledged_in_a_run: u64,
    acknowledged_in_a_wait: u64,
    /// Lists with a bound by demand 3 and by the handlers' claim, over the steps done.
    bounds: u64,
    handler_bounds: u64,
}

/// One list of calls: both models on one side, the steps done one by one on the other.
struct Followed<'a> {
    pair: Pair,
    alone: Alone,
    source: u32,
    done: Vec<u64>,
    acknowledged: bool,
    /// After every call ours was pending, or had been acknowledged.
    kept: bool,
    met: &'a mut Met,
}

impl Followed<'_> {
    /// A step that a call did, and whether ours was acknowledged by it.
    fn follow(&mut self, word: u64, awaited: u32) -> (bool, bool) {
        let answer = self.alone.step(word);
        self.done.push(word);
        let by = |source: u32| answer.kind == sys::INTERRUPT && answer.first == u64::from(source);
        self.acknowledged |= by(self.source);
        (by(self.source), by(awaited))
    }

    /// After a call the image and the memory are those of the steps done.
    fn check(&mut self) {
        assert_eq!(self.pair.image(), self.alone.image(), "{:x?}", self.done);
        assert!(self.pair.memory() == self.alone.memory(), "{:x?}", self.done);
        let pending = places::is_pending(self.pair.image(), self.pair.channels(), self.source);
        self.kept &= self.acknowledged || pending;
    }

    fn single(&mut self, word: u64) {
        self.pair.step(word);
        self.met.steps += 1;
        self.met.acknowledged_by_a_step += u64::from(self.follow(word, self.source).0);
    }

    fn run(&mut self, words: &[u64]) {
        let answer = self.pair.run(words);
        self.met.runs += 1;
        self.met.refused_midway += u64::from(answer.kind == sys::REFUSED_STEP);
        for word in &words[..done(answer, words)] {
            self.met.acknowledged_in_a_run += u64::from(self.follow(*word, self.source).0);
        }
    }

    fn wait(&mut self, awaited: u32, words: &[u64]) {
        let answer = self.pair.wait(awaited, words);
        self.met.waits += 1;
        self.met.refused_before_any_step += u64::from(answer.kind == sys::REFUSED_CALL);
        for word in &words[..done(answer, words)] {
            let (ours, awaited) = self.follow(*word, awaited);
            self.met.acknowledged_in_a_wait += u64::from(ours);
            if awaited {
                assert_eq!(answer.kind, sys::ACKNOWLEDGED);
                return;
            }
        }
        assert_ne!(answer.kind, sys::ACKNOWLEDGED);
    }
}

/// How many of the words a run or a wait report looked at, by its answer, the refused one included.
fn done(answer: sys::Answer, words: &[u64]) -> usize {
    match answer.kind {
        sys::REFUSED_CALL => 0,
        sys::REFUSED_STEP => answer.steps as usize + 1,
        _ => words.len(),
    }
}

/// Makes the calls; gives the steps that they did, and whether ours was kept after each call.
fn calls(
    random: &mut Random,
    start: &Start,
    source: u32,
    name: String,
    met: &mut Met,
) -> (Vec<u64>, bool) {
    let words = generate::list_of_calls(random, &start.channels, 30);
    let pair = start.pair(name);
    let alone = start.alone();
    let mut list =
        Followed { pair, alone, source, done: Vec::new(), acknowledged: false, kept: true, met };
    let mut rest = words.as_slice();
    while !rest.is_empty() {
        let count = random.below(rest.len().min(8) as u64 + 1) as usize;
        let (now, later) = rest.split_at(count);
        match random.below(3) {
            0 => {
                list.single(rest[0]);
                rest = &rest[1..];
            }
            1 => {
                list.run(now);
                rest = later;
            }
            _ => {
                let awaited = generate::source(random, start.channels.len());
                list.wait(random.pick(&[source, awaited]), now);
                rest = later;
            }
        }
        list.check();
    }
    list.single(word::return_from());
    list.check();
    (list.done, list.kept)
}

#[test]
fn lists_of_calls() {
    let mut random = Random::new(9);
    let mut met = Met::default();
    let mut waited = Waited::default();
    for number in 0..30_000 {
        let (start, source) = Start::waiting(&mut random);
        let name = format!("calls {number}");
        let (done, kept) = calls(&mut random, &start, source, name, &mut met);
        let demand = flat::bound(model::bound(&start.image, &start.channels, source, &done));
        let handlers =
            flat::bound(model::handler_bound(&start.image, &start.channels, source, &done));
        met.bounds += u64::from(demand.kind == sys::WITHIN);
        met.handler_bounds += u64::from(handlers.kind == sys::WITHIN);
        for bound in [demand, handlers].into_iter().filter(|bound| bound.kind == sys::WITHIN) {
            assert!(kept, "{done:x?}");
            waited.check_calls(start.alone(), Claim { source, words: &done, bound });
        }
    }
    println!("{met:?}\n{waited:?}");
    assert!(met.steps >= 10_000 && met.runs >= 10_000 && met.waits >= 10_000);
    assert!(met.refused_before_any_step > 0 && met.refused_midway > 0);
    assert!(met.acknowledged_by_a_step > 0 && met.acknowledged_in_a_run > 0);
    assert!(met.acknowledged_in_a_wait > 0 && met.bounds >= 5_000 && met.handler_bounds >= 5_000);
    assert!(waited.followed_to_a_bound_over_one > 0 && waited.followed_to_a_bound_with_events > 0);
}
