//! Progress of long traces on a terminal's standard error.

use std::io::{self, IsTerminal, Write};
use std::time::{Duration, Instant};

/// Traces of more lines or steps than this show progress.
const LONG: usize = 1_000_000;

/// The clock is looked at once in so many lines or steps.
const STRIDE: usize = 1 << 12;

const PAUSE: Duration = Duration::from_millis(100);

/// A line of progress, taken away when it is dropped.
pub struct Progress {
    shown: bool,
    total: usize,
    things: &'static str,
    last: Instant,
}

impl Progress {
    /// Of a trace of so many lines or steps.
    pub fn new(total: usize, things: &'static str) -> Progress {
        let shown = total > LONG && io::stderr().is_terminal();
        Progress { shown, total, things, last: Instant::now() }
    }

    /// The same where each step prints its line: on a terminal these are progress enough.
    pub fn beside_lines(total: usize, things: &'static str) -> Progress {
        let progress = Progress::new(total, things);
        Progress { shown: progress.shown && !io::stdout().is_terminal(), ..progress }
    }

    /// Tells that so many are done.
    pub fn at(&mut self, done: usize) {
        if self.shown && done.is_multiple_of(STRIDE) && self.last.elapsed() >= PAUSE {
            self.last = Instant::now();
            let percent = done as u128 * 100 / self.total as u128;
            self.print(&format!("{done} of {} {} ({percent} %)", self.total, self.things));
        }
    }

    /// Tells what is done with all of them by one call.
    pub fn whole(&self, work: &str) {
        if self.shown {
            self.print(&format!("{work} {} {}", self.total, self.things));
        }
    }

    fn print(&self, text: &str) {
        let _ = write!(io::stderr(), "\rst9: {text}\x1B[K");
    }
}

impl Drop for Progress {
    fn drop(&mut self) {
        if self.shown {
            let _ = write!(io::stderr(), "\r\x1B[K");
        }
    }
}
