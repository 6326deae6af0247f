//! Steps a second.
//!
//! A round is all steps of a trace on a fresh copy of its image and memory. The sides take turns, round by round, so that all see the same machine; the best round of
//! each counts.

use crate::traces::Trace;
use crate::{heads, Side, NAME};
use std::hint::black_box;
use std::time::{Duration, Instant};

/// The time for the rounds of a trace, and the fewest rounds.
const TIME: Duration = Duration::from_millis(2500);
const FEWEST_ROUNDS: usize = 5;

/// Prints the table; last the rates with memory over those with the register file, of each side.
pub fn report(traces: &[Trace]) {
    let heads = heads("million steps a second");
    println!("{heads}{:>16}{:>16}", "proved/plain", "proved/strong");
    let rates: Vec<[f64; 3]> = traces.iter().map(row).collect();
    if let [.., file, memory] = rates[..] {
        let [proved, plain, strong] = [0, 1, 2].map(|side| memory[side] / file[side]);
        println!("{:NAME$}{proved:10.2}{plain:10.2}{strong:10.2}", "memory/register file");
    }
}

/// Prints the row of a trace; gives the rates.
fn row(trace: &Trace) -> [f64; 3] {
    let rate = |time: Duration| trace.words.len() as f64 / time.as_secs_f64() / 1e6;
    let rates @ [proved, plain, strong] = best_rounds(trace).map(rate);
    print!("{:NAME$}{proved:10.2}{plain:10.2}{strong:10.2}", trace.name);
    println!("{:16.2}{:16.2}", proved / plain, proved / strong);
    rates
}

/// The time of each side's best round.
fn best_rounds(trace: &Trace) -> [Duration; 3] {
    let mut best = [Duration::MAX; 3];
    let mut rounds = 0;
    let start = Instant::now();
    while rounds < FEWEST_ROUNDS || start.elapsed() < TIME {
        for (side, best) in Side::ALL.into_iter().zip(&mut best) {
            *best = round(trace, side).min(*best);
        }
        rounds += 1;
    }
    best
}

/// The time of one round.
fn round(trace: &Trace, side: Side) -> Duration {
    let mut lent = black_box(trace.lent.clone());
    let start = Instant::now();
    side.perform(trace, &mut lent, trace.words.len());
    let time = start.elapsed();
    black_box(lent);
    time
}
