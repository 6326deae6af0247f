//! The proved library beside two plain Rust programs of the same job: the model of `host/model`, written from the papers, and `strong`, written for speed.
//!
//! Two tables with a row for each situation: instructions a step, counted by callgrind where `valgrind` is on the PATH, and steps a second. Before
//! anything is measured all three do every situation, and their answers and the images and memories they leave are compared: a difference ends the program. Nothing
//! is asserted about counts or times. In `host/`, about a minute for both tables:
//!
//! ```text
//! cargo run --release --offline -p bench
//! cargo run --release --offline -p bench -- instructions
//! cargo run --release --offline -p bench -- times
//! ```

#[cfg(test)]
mod agreement;
mod instructions;
mod shift;
mod sides;
mod strong;
mod times;
mod traces;

use sides::Side;
use std::env;
use std::process::ExitCode;
use traces::{Trace, SITUATIONS};

/// The width of a table's first column, the situation's name.
const NAME: usize = 42;

fn main() -> ExitCode {
    let arguments: Vec<String> = env::args().skip(1).collect();
    let arguments: Vec<&str> = arguments.iter().map(String::as_str).collect();
    match arguments[..] {
        [] => report(true, true),
        ["instructions"] => report(true, false),
        ["times"] => report(false, true),
        [instructions::COUNTED, situation, side, steps] => {
            instructions::perform(situation, side, steps);
        }
        _ => {
            eprintln!("bench takes no argument for both tables, or one: instructions, times");
            return ExitCode::from(2);
        }
    }
    ExitCode::SUCCESS
}

/// Compares, says what the situations are, and prints the tables that are wanted.
fn report(instructions: bool, times: bool) {
    let traces = SITUATIONS.map(|situation| situation());
    for trace in &traces {
        check(trace);
        println!("{}: {}", trace.name, trace.note);
    }
    if instructions {
        instructions::report(&traces);
    }
    if times {
        times::report(&traces);
    }
}

/// Panics unless all sides do all the steps, answer the same and leave the same image and memory.
fn check(trace: &Trace) {
    let [(proved, left), others @ ..] = Side::ALL.map(|side| {
        let mut lent = trace.lent.clone();
        (side.answers(trace, &mut lent), lent)
    });
    assert!(proved.iter().all(|answer| answer.refusal == 0), "{}", trace.name);
    for (other, other_left) in others {
        assert_eq!(other, proved, "{}", trace.name);
        assert_eq!(other_left.image, left.image, "{}", trace.name);
        assert!(other_left.memory == left.memory, "{}", trace.name);
    }
}

/// The heads of the columns of a table.
fn heads(of: &str) -> String {
    let sides = Side::ALL.map(|side| format!("{:>10}", side.name()));
    format!("\n{of:NAME$}{}", sides.concat())
}
