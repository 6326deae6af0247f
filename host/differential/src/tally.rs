//! What was answered, counted, and what each call can answer.

use st9::sys;
use std::fmt::Write;
use std::ops::RangeInclusive;

/// The calls. A view's number is counted as a refusal of kind 0.
#[derive(Clone, Copy, Debug, PartialEq, Eq)]
pub enum Call {
    Step,
    Run,
    Wait,
    Bound,
    HandlerBound,
    View,
}

/// The kinds of answers.
const KINDS: usize = sys::CHANGED as usize + 1;

/// The numbers of refusals, and 0 for none.
const REFUSALS: usize = 9;

/// What a write can change of that which a handlers' bound rests on, numbered from 1.
const BASES: usize = sys::CHANGED_LEVEL as usize;

/// The kinds that have a refusal's number, and those numbers; every other kind has 0.
type Refusals = &'static [(u64, &'static [u64])];

impl Call {
    /// The kinds that the call can answer without a refusal.
    fn accepted(self) -> RangeInclusive<u64> {
        match self {
            Call::Step => sys::BYTE..=sys::RESET,
            Call::Run => sys::NO_STEP..=sys::RESET,
            Call::Wait => sys::ENDED..=sys::ACKNOWLEDGED,
            Call::Bound => sys::NESTED..=sys::WITHIN,
            Call::HandlerBound => sys::NESTED..=sys::CHANGED,
            Call::View => 0..=0,
        }
    }

    /// The kinds and numbers that the call can be refused with. A step in a run is never refused with 1, 2 or 8.
    fn refusals(self) -> Refusals {
        match self {
            Call::Step => &[(sys::REFUSED, &[1, 2, 3, 4, 5, 6, 7, 8])],
            Call::Run => &[(sys::REFUSED_CALL, &[1, 2, 8]), (sys::REFUSED_STEP, &[3, 4, 5, 6, 7])],
            Call::Wait => {
                &[(sys::REFUSED_CALL, &[1, 2, 4, 8]), (sys::REFUSED_STEP, &[3, 4, 5, 6, 7])]
            }
            Call::Bound | Call::HandlerBound => &[(sys::REFUSED_CALL, &[1, 2, 4])],
            Call::View => &[(0, &[1, 3])],
        }
    }

    /// Whether the call can answer a kind with a refusal's number.
    fn can_give(self, kind: u64, refusal: u64) -> bool {
        match refusal {
            0 => self.accepted().contains(&kind),
            _ => self
                .refusals()
                .iter()
                .any(|(of, numbers)| *of == kind && numbers.contains(&refusal)),
        }
    }
}

/// The answers of one call, counted.
pub struct Tally {
    call: Call,
    /// By kind and refusal.
    answers: [[u64; REFUSALS]; KINDS],
    /// The steps that were tried: those done and those refused by their own number.
    pub steps: u64,
    /// Interrupts by source and by level, triggers by their two effects.
    sources: [u64; 20],
    levels: [u64; 7],
    effects: [u64; 9],
    /// Writes that changed what a handlers' bound rests on, by what they changed.
    bases: [u64; BASES],
}

impl Tally {
    pub fn new(call: Call) -> Tally {
        Tally {
            call,
            answers: [[0; REFUSALS]; KINDS],
            steps: 0,
            sources: [0; 20],
            levels: [0; 7],
            effects: [0; 9],
            bases: [0; BASES],
        }
    }

    /// Counts an answer.
    pub fn count(&mut self, answer: sys::Answer) {
        self.answers[answer.kind as usize][answer.refusal as usize] += 1;
        match answer.kind {
            sys::INTERRUPT => {
                self.sources[answer.first as usize] += 1;
                self.levels[answer.second as usize] += 1;
            }
            sys::TRIGGERED => self.effects[(3 * answer.first + answer.second) as usize] += 1,
            sys::CHANGED => self.bases[answer.first as usize - 1] += 1,
            _ => {}
        }
        self.steps += match (self.call, answer.kind) {
            (Call::Step, _) => u64::from(!matches!(answer.refusal, 1 | 2 | 8)),
            (Call::Run, sys::REFUSED_STEP) => answer.steps + 1,
            (Call::Run, _) => answer.steps,
            _ => 0,
        };
    }

    /// Counts a view's number.
    pub fn count_view(&mut self, number: u64) {
        self.answers[0][number as usize] += 1;
    }

    /// How often a kind was answered.
    pub fn of_kind(&self, kind: u64) -> u64 {
        self.answers[kind as usize].iter().sum()
    }

    /// Panics unless exactly the answers that the call can give were met.
    pub fn assert_all_met(&self) {
        for (kind, answers) in (0..).zip(&self.answers) {
            for (refusal, count) in (0..).zip(answers) {
                let possible = self.call.can_give(kind, refusal);
                assert_eq!(*count > 0, possible, "{:?}: kind {kind}, refusal {refusal}", self.call);
            }
        }
        let changes = self.call == Call::HandlerBound;
        assert!(self.bases.iter().all(|count| (*count > 0) == changes), "{self}");
    }

    /// Panics unless every source, every level below 7 and every pair of effects was met.
    pub fn assert_all_served(&self) {
        let counts = [&self.sources[..], &self.levels, &self.effects];
        assert!(counts.concat().iter().all(|count| *count > 0), "{}", self);
    }
}

impl std::fmt::Display for Tally {
    fn fmt(&self, out: &mut std::fmt::Formatter<'_>) -> std::fmt::Result {
        writeln!(out, "{:?}: {} steps", self.call, self.steps)?;
        for (kind, refusals) in self.answers.iter().enumerate() {
            let mut line = String::new();
            for (refusal, count) in refusals.iter().enumerate().filter(|(_, n)| **n > 0) {
                match refusal {
                    0 => write!(line, " {count}")?,
                    _ => write!(line, " refusal {refusal}: {count}")?,
                }
            }
            if !line.is_empty() {
                writeln!(out, "  kind {kind:2}:{line}")?;
            }
        }
        if matches!(self.call, Call::Step | Call::Run) {
            writeln!(out, "  interrupts by source {:?}", self.sources)?;
            writeln!(out, "  interrupts by level {:?}", self.levels)?;
            writeln!(out, "  triggers by effects {:?}", self.effects)?;
        }
        if self.call == Call::HandlerBound {
            writeln!(out, "  writes by what they changed {:?}", self.bases)?;
        }
        Ok(())
    }
}
