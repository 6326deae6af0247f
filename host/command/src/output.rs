//! Standard output, and how the command ends.

use std::io::{self, BufWriter, ErrorKind, StdoutLock, Write};

/// How a command ended that could be carried out. The worse of two is the greater.
#[derive(Clone, Copy, Debug, PartialEq, Eq, PartialOrd, Ord)]
pub enum Outcome {
    /// Exit code 0.
    Done,
    /// An expectation is not met, or what an option forbids was met: exit code 3.
    Failed,
    /// Refused, and not expected so: exit code 1.
    Refused,
    /// A bad file among several, told already: exit code 2.
    BadFile,
}

impl Outcome {
    pub fn code(self) -> u8 {
        match self {
            Outcome::Done => 0,
            Outcome::Refused => 1,
            Outcome::BadFile => 2,
            Outcome::Failed => 3,
        }
    }
}

/// Bad usage, a bad file or an error of reading or writing: exit code 2, with the message.
#[derive(Clone, Debug, PartialEq, Eq)]
pub struct Failure(pub String);

/// Standard output, buffered. The first error ends the printing and not the run, so that exit code and saved image are
/// those of the whole run.
pub struct Output {
    out: BufWriter<StdoutLock<'static>>,
    error: Option<io::Error>,
}

impl Output {
    pub fn new() -> Output {
        Output { out: BufWriter::with_capacity(1 << 16, io::stdout().lock()), error: None }
    }

    /// Whether what is printed still has a reader.
    pub fn is_open(&self) -> bool {
        self.error.is_none()
    }

    pub fn line(&mut self, text: &str) {
        if self.is_open() {
            self.error = writeln!(self.out, "{text}").err();
        }
    }

    /// Prints what is buffered. A reader that has gone, as `head` does, is no failure.
    pub fn finish(mut self) -> Result<(), Failure> {
        if self.is_open() {
            self.error = self.out.flush().err();
        }
        match self.error {
            Some(error) if error.kind() != ErrorKind::BrokenPipe => {
                Err(Failure(format!("st9: standard output: {error}")))
            }
            _ => Ok(()),
        }
    }
}

/// A line on standard error. Where that is closed too, the exit code alone tells.
pub fn complain(message: &str) {
    let _ = writeln!(io::stderr(), "{}", message.trim_end());
}
