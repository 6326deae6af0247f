//! Instructions a step, by callgrind.
//!
//! The program calls itself under `valgrind`, twice for a trace and a side: to make the trace and do none of its steps, and to make it and do them all.
//! What is done before and after the steps is the same, so that the difference is the steps.

use crate::traces::{Trace, SITUATIONS};
use crate::{heads, Side, NAME};
use std::env;
use std::hint::black_box;
use std::process::{Command, Stdio};

/// The steps of a longer trace that are counted: callgrind takes its time.
const MOST_STEPS: usize = 30_000;

/// The argument with which the program calls itself; a situation's number, a side's name and a number of steps follow.
pub const COUNTED: &str = "counted";

/// Prints the table, or why there is none.
pub fn report(traces: &[Trace]) {
    if !has_valgrind() {
        println!("\nNo instructions are counted: valgrind is not on the PATH.");
        return;
    }
    println!("{}", heads("instructions a step"));
    for (number, trace) in traces.iter().enumerate() {
        let steps = trace.words.len().min(MOST_STEPS);
        let counts = Side::ALL.map(|side| {
            let difference = count(number, side, steps) - count(number, side, 0);
            format!("{:10.0}", difference as f64 / steps as f64)
        });
        println!("{:NAME$}{}", trace.name, counts.concat());
    }
}

fn has_valgrind() -> bool {
    let mut command = Command::new("valgrind");
    let call = command.arg("--version").stdout(Stdio::null()).stderr(Stdio::null());
    call.status().is_ok_and(|status| status.success())
}

/// The instructions of the whole program when it does so many steps of a situation.
fn count(number: usize, side: Side, steps: usize) -> u64 {
    let program = env::current_exe().expect("this program has a path");
    let mut command = Command::new("valgrind");
    command.args(["--tool=callgrind", "--callgrind-out-file=/dev/null"]).arg(program);
    command.args([COUNTED, &number.to_string(), side.name(), &steps.to_string()]);
    let output = command.output().expect("valgrind was there before");
    let said = String::from_utf8_lossy(&output.stderr);
    assert!(output.status.success(), "{said}");
    collected(&said).unwrap_or_else(|| panic!("no count in: {said}"))
}

/// The number in callgrind's line `Collected : 1234`.
fn collected(said: &str) -> Option<u64> {
    said.lines().find_map(|line| line.split_once("Collected :")?.1.trim().parse().ok())
}

/// What the program does when it is counted. Only it calls itself so.
pub fn perform(situation: &str, side: &str, steps: &str) {
    let number: usize = situation.parse().expect("a situation's number");
    let side = Side::ALL.into_iter().find(|one| one.name() == side).expect("a side's name");
    let steps = steps.parse().expect("a number of steps");
    let trace = SITUATIONS[number]();
    let mut lent = black_box(trace.lent.clone());
    side.perform(&trace, &mut lent, steps);
    black_box(lent);
}
