//! `st9 run`.

use crate::arguments::Run;
use crate::counts::Counts;
use crate::input::{self, Start};
use crate::output::{Failure, Outcome, Output};
use crate::print::{Printer, Style};
use crate::progress::Progress;
use crate::save::Saved;
use scenario::{follow, Event, Followed, Lent, Object, Proved};

pub fn run(options: &Run, output: &mut Output) -> Result<Outcome, Failure> {
    let loaded = input::scenario(&options.file)?;
    let saved = Saved::open(&options.save, &loaded)?;
    let mut outcome = Outcome::Done;
    let mut counts = Counts::default();
    let mut last = Lent::default();
    for (position, start) in loaded.cases.iter().enumerate() {
        let (followed, ended) = one(options, &loaded.file, start, position == 0, output);
        counts.add(&followed, &start.case, ended == Outcome::Done);
        outcome = outcome.max(ended);
        last = followed.left;
    }
    if loaded.cases.len() > 1 {
        if !options.json {
            output.line("");
        }
        output.line(&match options.json {
            true => counts.json(Object::new().text("type", "total")),
            false => counts.words(),
        });
    }
    saved.write(&last)?;
    Ok(outcome)
}

/// A case, followed and printed.
fn one(
    options: &Run,
    file: &str,
    start: &Start,
    first: bool,
    output: &mut Output,
) -> (Followed, Outcome) {
    let Run { json, quiet, verbose, .. } = *options;
    let Start { case, lent, sets } = start;
    let mut printer = Printer { file, case, style: Style { json, quiet, verbose }, output };
    printer.start(first, sets);
    let count = case.steps.len();
    let mut progress = match quiet {
        true => Progress::new(count, "steps"),
        false => Progress::beside_lines(count, "steps"),
    };
    let followed = follow(case, lent.clone(), &Proved, &mut |event| {
        if let Event::Step(report, _) = &event {
            progress.at(report.index);
        }
        printer.event(&event);
    });
    drop(progress);
    let outcome = printer.end(lent, &followed, &options.fail_on);
    (followed, outcome)
}
