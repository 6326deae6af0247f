//! `st9 test`.

use crate::arguments::Test;
use crate::counts::{unexpected, Counts};
use crate::input::{self, Loaded, Start};
use crate::output::{complain, Failure, Outcome, Output};
use crate::print::{end_words, failed, print_note};
use scenario::{end_note, follow, quoted, Case, Comparison, End, Event, Followed, Object, Proved};
use st9::text::counted;
use std::ffi::OsString;
use std::os::unix::ffi::OsStrExt;
use std::path::{Path, PathBuf};

pub fn test(options: &Test, output: &mut Output) -> Result<Outcome, Failure> {
    let mut counts = Counts::default();
    for file in files(&options.files)? {
        match input::scenario(file.as_os_str()) {
            Ok(loaded) => cases(&loaded, options, &mut counts, output),
            Err(Failure(message)) => {
                complain(&message);
                counts.bad_files += 1;
            }
        }
    }
    let (outcome, result) = match (counts.bad_files, counts.failed) {
        (0, 0) => (Outcome::Done, "passed"),
        (0, _) => (Outcome::Failed, "failed"),
        _ => (Outcome::BadFile, "bad file"),
    };
    output.line(&match options.json {
        true => counts.json(Object::new().text("type", "result").text("result", result)),
        false => counts.words(),
    });
    Ok(outcome)
}

/// The files, those of folders and all below them in the order of their names. A folder without any is bad usage, so
/// that nothing passes for want of a case.
fn files(named: &[OsString]) -> Result<Vec<PathBuf>, Failure> {
    let mut all = Vec::new();
    for name in named {
        let path = Path::new(name);
        if !path.is_dir() {
            all.push(path.to_path_buf());
            continue;
        }
        let shown = quoted(name.as_bytes());
        let before = all.len();
        below(path, &mut all).map_err(|error| {
            Failure(format!("st9: {shown}: {error}: expected a folder that can be read"))
        })?;
        if all.len() == before {
            let expected = "expected a folder with scenarios, files ending in .st9";
            return Err(Failure(format!("st9: {shown} has no scenario: {expected}")));
        }
    }
    Ok(all)
}

fn below(folder: &Path, all: &mut Vec<PathBuf>) -> std::io::Result<()> {
    let entries = std::fs::read_dir(folder)?;
    let mut paths = entries.map(|entry| Ok(entry?.path())).collect::<std::io::Result<Vec<_>>>()?;
    paths.sort();
    for path in paths {
        if path.is_dir() && !path.is_symlink() {
            below(&path, all)?;
        } else if path.extension().is_some_and(|end| end == "st9") {
            all.push(path);
        }
    }
    Ok(())
}

fn cases(loaded: &Loaded, options: &Test, counts: &mut Counts, output: &mut Output) {
    for Start { case, lent, .. } in &loaded.cases {
        let mut unmet = Vec::new();
        let followed = follow(case, lent.clone(), &Proved, &mut |event| {
            if let Event::Compared(comparison @ Comparison { met: false, .. }) = event {
                unmet.push(comparison.clone());
            }
        });
        let losses = failed(&followed, &options.fail_on, &case.names);
        let passed = followed.end == End::Done && unmet.is_empty() && losses.is_empty();
        counts.add(&followed, case, passed);
        let told = Told { loaded, case, followed: &followed, passed };
        if options.json {
            told.json(&unmet, &losses, output);
            continue;
        }
        if !passed {
            told.words(&unmet, &losses, output);
        }
        told.unexpected(output);
    }
}

/// A case and what it gave.
struct Told<'a> {
    loaded: &'a Loaded,
    case: &'a Case,
    followed: &'a Followed,
    passed: bool,
}

impl Told<'_> {
    /// A failed case: its title, then every way in which it failed.
    fn words(
        &self,
        unmet: &[Comparison],
        losses: &[(scenario::Loss, String)],
        output: &mut Output,
    ) {
        let Told { loaded, case, followed, .. } = self;
        let file = &loaded.file;
        let title = case.title.as_deref().map_or(String::new(), |title| format!("case {title}: "));
        output.line(&format!("{file}:{}: {title}failed", case.line));
        for Comparison { line, said, came, statement, .. } in unmet {
            output
                .line(&format!("  {file}:{line}: after {statement}: expected {said}; came {came}"));
        }
        if let Some(refusal) = followed.end.refusal() {
            let line = followed.end.line(case);
            let before = matches!(followed.end, End::Before(_));
            let place = if before { ", before any step" } else { "" };
            let words = refusal.with_number();
            output.line(&format!("  {file}:{line}: {words}{place}, and that is not expected"));
            if let Some(note) = self.note() {
                output.line(&format!("  note: {note}"));
            }
            if !before {
                output.line(&format!("  {}", end_words(followed, case)));
            }
        }
        if followed.not_reached != 0 {
            let expectations = counted(followed.not_reached as u64, "expectation");
            output.line(&format!("  {expectations} not reached"));
        }
        for (loss, bits) in losses {
            output.line(&format!("  failed on {}: {bits}", loss.name()));
        }
    }

    /// Alarms that a step erased though no expectation tells it, in a case that passed too.
    fn unexpected(&self, output: &mut Output) {
        const MOST: usize = 10;
        let Told { loaded, case, followed, .. } = self;
        for (index, erased) in followed.unexpected.iter().take(MOST) {
            let Some(step) = case.steps.get(*index) else { continue };
            let (line, statement) = (step.line, step.operation);
            let alarms = counted(*erased as u64, "alarm");
            output.line(&format!(
                "{}:{line}: {statement} erased {alarms}, and no expectation tells it",
                loaded.file
            ));
        }
        if let more @ 1.. = followed.unexpected.len().saturating_sub(MOST) {
            let more = counted(more as u64, "more such step");
            output.line(&format!("{}: and {more}", loaded.file));
        }
    }

    /// What can be told beside a refusal.
    fn note(&self) -> Option<String> {
        end_note(self.followed, self.case)
    }

    fn json(&self, unmet: &[Comparison], losses: &[(scenario::Loss, String)], output: &mut Output) {
        let Told { loaded, case, followed, passed } = self;
        unmet.iter().for_each(|unmet| output.line(&unmet.json(&loaded.file)));
        for (index, erased) in &followed.unexpected {
            let Some(step) = case.steps.get(*index) else { continue };
            let object = Object::new().text("type", "erased").text("file", &loaded.file);
            let object = object.number("line", step.line.into());
            let object = object.text("statement", &step.operation.to_string());
            output.line(&object.number("alarms", *erased as u64).end());
        }
        self.note().iter().for_each(|note| print_note(note, true, output));
        let object = Object::new()
            .text("type", "case")
            .text("file", &loaded.file)
            .number("line", case.line as u64)
            .text("case", case.title.as_deref().unwrap_or_default())
            .text("result", if *passed { "passed" } else { "failed" });
        let object = match followed.end.refusal() {
            Some(refusal) => object.refusal(refusal).number("at", followed.end.line(case)),
            None => object,
        };
        let object = object
            .number("steps", followed.done as u64)
            .number("met", followed.met as u64)
            .number("unmet", followed.unmet as u64)
            .number("not_reached", followed.not_reached as u64)
            .number("erased", followed.erased as u64)
            .number("erased_unexpected", unexpected(followed) as u64)
            .texts("failed_on", losses.iter().map(|(loss, _)| loss.name()));
        output.line(&object.end());
    }
}
