//! The command `st9`: runs scenarios, tests cases, reports waits, shows images.

#![forbid(unsafe_code)]

mod arguments;
mod counts;
mod help;
mod input;
mod options;
mod output;
mod print;
mod progress;
mod run;
mod save;
mod show;
mod test;
mod wait;

use arguments::Command;
use output::{complain, Failure, Outcome, Output};
use std::process::ExitCode;

fn main() -> ExitCode {
    let arguments: Vec<_> = std::env::args_os().skip(1).collect();
    let mut output = Output::new();
    let done = arguments::command(&arguments).and_then(|command| perform(&command, &mut output));
    let done = output.finish().and(done);
    match done {
        Ok(outcome) => ExitCode::from(outcome.code()),
        Err(Failure(message)) => {
            complain(&message);
            ExitCode::from(2)
        }
    }
}

fn perform(command: &Command, output: &mut Output) -> Result<Outcome, Failure> {
    match command {
        Command::Help(text) => {
            output.line(text.trim_end());
            Ok(Outcome::Done)
        }
        Command::Run(options) => run::run(options, output),
        Command::Test(options) => test::test(options, output),
        Command::Wait(options) => wait::wait(options, output),
        Command::Show(options) => show::show(options, output),
    }
}
