//! The three that are measured.

use crate::strong;
use crate::traces::{Calls, Lent, Trace};
use differential::flat;
use model::Answer;
use st9::sys;
use std::hint::black_box;

/// Who does the steps.
#[derive(Clone, Copy)]
pub enum Side {
    /// The proved library.
    Proved,
    /// The plain model.
    Plain,
    /// The plain program written for speed.
    Strong,
}

impl Side {
    pub const ALL: [Side; 3] = [Side::Proved, Side::Plain, Side::Strong];

    pub fn name(self) -> &'static str {
        match self {
            Side::Proved => "proved",
            Side::Plain => "plain",
            Side::Strong => "strong",
        }
    }

    /// Does the first steps of a trace. Beside them only the loop around single calls grows with their number, by some dozen instructions a call.
    pub fn perform(self, trace: &Trace, lent: &mut Lent, steps: usize) {
        let Trace { channels, list, words, calls, .. } = trace;
        let words = &words[..steps];
        if let Calls::Run = calls {
            return each(&[words], |words| self.run(trace, lent, words));
        }
        let Lent { image, memory } = lent;
        match self {
            Side::Proved => each(words, |word| proved_step(image, list, memory, *word)),
            Side::Plain => each(words, |word| model::step(image, channels, memory, *word)),
            Side::Strong => each(words, |word| strong::step(image, list, memory, *word)),
        }
    }

    /// The answers of all calls of a trace, in the flat form.
    pub fn answers(self, trace: &Trace, lent: &mut Lent) -> Vec<sys::Answer> {
        let words = &trace.words;
        match trace.calls {
            Calls::Run => vec![self.run(trace, lent, words)],
            Calls::Single => words.iter().map(|word| self.step(trace, lent, *word)).collect(),
        }
    }

    fn run(self, trace: &Trace, lent: &mut Lent, words: &[u64]) -> sys::Answer {
        let Lent { image, memory } = lent;
        match self {
            Side::Proved => proved_run(image, &trace.list, memory, words),
            Side::Plain => flat::run(model::run(image, &trace.channels, memory, words)),
            Side::Strong => strong_run(image, &trace.list, memory, words),
        }
    }

    fn step(self, trace: &Trace, lent: &mut Lent, word: u64) -> sys::Answer {
        let Lent { image, memory } = lent;
        match self {
            Side::Proved => proved_step(image, &trace.list, memory, word),
            Side::Plain => flat::step(model::step(image, &trace.channels, memory, word)),
            Side::Strong => strong_step(image, &trace.list, memory, word),
        }
    }
}

/// Makes each call. Its answer is looked at where it stands, so that it is made and not copied.
#[inline(always)]
fn each<C, A>(calls: &[C], mut call: impl FnMut(&C) -> A) {
    for one in calls {
        black_box(&call(one));
    }
}

/// A run of the proved library.
pub fn proved_run(image: &mut [u8], list: &[u8], memory: &mut [u8], words: &[u64]) -> sys::Answer {
    // SAFETY: the lengths are those of the slices; image and memory are lent alone.
    unsafe {
        sys::st9_run(
            image.as_mut_ptr(),
            image.len(),
            list.as_ptr(),
            list.len(),
            memory.as_mut_ptr(),
            memory.len(),
            words.as_ptr(),
            words.len(),
        )
    }
}

/// A step of the proved library.
pub fn proved_step(image: &mut [u8], list: &[u8], memory: &mut [u8], word: u64) -> sys::Answer {
    // SAFETY: as for a run.
    unsafe {
        sys::st9_step(
            image.as_mut_ptr(),
            image.len(),
            list.as_ptr(),
            list.len(),
            memory.as_mut_ptr(),
            memory.len(),
            word,
        )
    }
}

/// A run of the strong program.
pub fn strong_run(image: &mut [u8], list: &[u8], memory: &mut [u8], words: &[u64]) -> sys::Answer {
    flat::run(strong::run(image, list, memory, words))
}

/// A step of the strong program.
pub fn strong_step(image: &mut [u8], list: &[u8], memory: &mut [u8], word: u64) -> sys::Answer {
    flat::step(strong::step(image, list, memory, word).unwrap_or_else(Answer::Refused))
}
