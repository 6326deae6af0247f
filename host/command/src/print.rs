//! A case that is followed, printed as it goes: lines of words or objects.

use crate::output::{Outcome, Output};
use scenario::{
    changes, folded, memory_words, note, refused_json, stretches, Account, Bit, CallReport, Case,
    Comparison, End, Event, Followed, Lent, Loss, Names, Object, Report, Row, Stored,
};
use st9::text::counted;

/// How a case is printed.
#[derive(Clone, Copy)]
pub struct Style {
    pub json: bool,
    pub quiet: bool,
    pub verbose: bool,
}

/// What prints a case.
pub struct Printer<'a> {
    pub file: &'a str,
    pub case: &'a Case,
    pub style: Style,
    pub output: &'a mut Output,
}

impl Printer<'_> {
    fn line(&mut self, words: impl FnOnce() -> String, json: impl FnOnce() -> String) {
        if self.output.is_open() {
            self.output.line(&match self.style.json {
                true => json(),
                false => words(),
            });
        }
    }

    /// The case's title, and with --verbose what each `set` and each `poke` stored.
    pub fn start(&mut self, first: bool, sets: &[(usize, Stored)]) {
        print_title(self.case, first, self.style.json, self.output);
        if self.style.verbose {
            let Case { channels, pokes, .. } = self.case;
            for (line, stored) in sets {
                let words = || format!("set  line {line}: {}", stored.words(channels));
                self.line(words, || stored.json(channels, Some(*line)));
            }
            pokes.iter().for_each(|poke| self.line(|| poke.words(), || poke.json()));
        }
    }

    pub fn event(&mut self, event: &Event) {
        match event {
            Event::Step(report, expected) => self.step(report, *expected),
            Event::Call(report, expected) => self.call(report, *expected),
            Event::Compared(comparison) => self.compared(comparison),
        }
    }

    /// With --quiet a step or a call is printed where it ends the case: its refusal stands nowhere else.
    fn step(&mut self, report: &Report, expected: bool) {
        let ends = report.answer.is_err() && !expected;
        if self.style.quiet && !ends {
            return;
        }
        let width = self.width();
        self.line(|| report.line(width), || report.json());
        if self.style.verbose {
            self.changes(report.before, report.after, Some(report.index));
        }
    }

    /// The columns of a step's index.
    fn width(&self) -> usize {
        self.case.steps.len().saturating_sub(1).to_string().len()
    }

    fn call(&mut self, report: &CallReport, expected: bool) {
        let ends = report.refusal().is_some() && !expected;
        if self.style.quiet && !ends {
            return;
        }
        let width = self.width();
        let start = || format!("{:width$}  {:<20}  ", "", report.statement());
        self.line(|| folded(&start(), &report.words()), || report.json().join("\n"));
    }

    fn compared(&mut self, comparison: &Comparison) {
        let Comparison { line, said, met, came, .. } = comparison;
        // A met one is told in objects alone.
        if *met && (self.style.quiet || !self.style.json) {
            return;
        }
        let file = self.file;
        let words = || format!("{file}:{line}: expected {said}; came {came}");
        self.line(words, || comparison.json(file));
    }

    /// The changes of a step, or of the whole case: registers, then the memory.
    fn changes(&mut self, before: &Lent, after: &Lent, step: Option<usize>) {
        let (channels, names) = (&self.case.channels, &self.case.names);
        let start = if step.is_some() { "    changed  " } else { "changed  " };
        for change in changes(&before.image, &after.image) {
            let words = || format!("{start}{}", change.words(channels, names));
            self.line(words, || change.json(channels, step));
        }
        let stretches = stretches(&before.memory, &after.memory);
        let lines: Vec<_> = match self.style.json {
            true => stretches.iter().map(|stretch| stretch.json(step)).collect(),
            false => {
                memory_words(&stretches).iter().map(|words| format!("{start}{words}")).collect()
            }
        };
        lines.iter().for_each(|line| self.output.line(line));
    }

    /// What the case left: changed registers and memory, the account, how it ended. What `--fail-on` names and was met
    /// is told.
    pub fn end(&mut self, start: &Lent, followed: &Followed, fail_on: &[Loss]) -> Outcome {
        self.changes(start, &followed.left, None);
        if start.image == followed.left.image && !self.style.json {
            self.output.line(match followed.changed {
                true => "every register as at the start",
                false => "no register changed",
            });
        }
        self.account(followed);
        let failed = failed(followed, fail_on, &self.case.names);
        self.result(followed, &failed);
        match followed.end {
            End::Done if followed.unmet == 0 && failed.is_empty() => Outcome::Done,
            End::Done => Outcome::Failed,
            _ => Outcome::Refused,
        }
    }

    fn account(&mut self, followed: &Followed) {
        let rows: Vec<_> = followed.account.iter().flat_map(Account::rows).collect();
        print_rows(&rows, self.case, self.style.json, self.output);
        if rows.is_empty() && !self.style.json {
            self.output.line(match followed.account {
                Some(_) => "account  nothing was pending or triggered",
                None => "account  none: the image is refused",
            });
        }
    }

    fn result(&mut self, followed: &Followed, failed: &[(Loss, String)]) {
        let case = self.case;
        let refusal = followed.end.refusal().or(followed.lent);
        let note = refusal.and_then(|refusal| note(refusal, case, &followed.left));
        note.iter().for_each(|note| print_note(note, self.style.json, self.output));
        if self.style.json {
            self.output.line(&result_json(followed, case, failed));
            return;
        }
        self.output.line(&end_words(followed, case));
        if let Some(words) = expectations_words(followed) {
            self.output.line(&words);
        }
        for (loss, bits) in failed {
            self.output.line(&format!("failed on {}: {bits}", loss.name()));
        }
    }
}

/// The title of a case, if it has one.
pub fn print_title(case: &Case, first: bool, json: bool, output: &mut Output) {
    let Some(title) = &case.title else { return };
    if json {
        let object = Object::new().text("type", "case").number("line", case.line as u64);
        return output.line(&object.text("case", title).end());
    }
    if !first {
        output.line("");
    }
    output.line(&format!("case {title}"));
}

/// What the command can tell beside a refusal.
pub fn print_note(note: &str, json: bool, output: &mut Output) {
    output.line(&match json {
        true => Object::new().text("type", "note").text("note", note).end(),
        false => format!("note: {note}"),
    });
}

/// The rows of an account, a line each.
pub fn print_rows(rows: &[(Bit, &Row)], case: &Case, json: bool, output: &mut Output) {
    let names = &case.names;
    let told = |bit: &Bit| bit.told(names);
    let width = rows.iter().map(|(bit, _)| told(bit).len()).max().unwrap_or_default();
    for (bit, row) in rows {
        output.line(&match json {
            true => row.json(*bit, names),
            false => format!("account  {:<width$}  {}", told(bit), row.words(case)),
        });
    }
}

/// What `--fail-on` names and was met, with the bits.
pub fn failed(followed: &Followed, fail_on: &[Loss], names: &Names) -> Vec<(Loss, String)> {
    let told = |loss: &Loss| {
        let bits = followed.account.iter().flat_map(|account| account.met(*loss));
        (*loss, bits.map(|bit| bit.told(names)).collect::<Vec<_>>().join(", "))
    };
    fail_on.iter().map(told).filter(|(_, bits)| !bits.is_empty()).collect()
}

/// How a case ended, in words.
pub fn end_words(followed: &Followed, case: &Case) -> String {
    let done = counted(followed.done as u64, "step");
    let refused_too = match followed.refused {
        0 => String::new(),
        refused => format!(", {refused} refused as expected"),
    };
    let place = match followed.end {
        End::Done => return format!("done: {done}{refused_too}"),
        End::Before(refusal) => return format!("{}, before any step", refusal.with_number()),
        End::Step { index, .. } => format!("step {index} (line {})", case.line_of(index)),
        End::Call { line, .. } => format!("line {line}"),
    };
    let at_step = usize::from(matches!(followed.end, End::Step { .. }));
    let rest = match case.steps.len() - followed.done - followed.refused - at_step {
        0 => String::new(),
        rest => format!(", {rest} not done"),
    };
    format!("ended by the refusal at {place}: {done} done{refused_too}{rest}")
}

/// How many expectations are met; none where there are none.
pub fn expectations_words(followed: &Followed) -> Option<String> {
    let Followed { met, unmet, not_reached, .. } = followed;
    let others = [(*unmet, "unmet"), (*not_reached, "not reached")];
    let others = others.iter().filter(|(count, _)| *count != 0);
    let others: String = others.map(|(count, what)| format!(", {count} {what}")).collect();
    match met + unmet + not_reached {
        0 => None,
        _ => Some(format!("expectations: {met} met{others}")),
    }
}

fn result_json(followed: &Followed, case: &Case, failed: &[(Loss, String)]) -> String {
    let object = Object::new().text("type", "result");
    let object = match followed.end {
        End::Done => object.text("result", "done"),
        End::Before(refusal) => refused_json(object, refusal, case, None),
        End::Step { refusal, index } => refused_json(object, refusal, case, Some(index)),
        End::Call { refusal, line } => object
            .text("result", "refused")
            .refusal(refusal)
            .optional("step", None)
            .number("line", line.into()),
    };
    object
        .number("steps", followed.done as u64)
        .number("refused_as_expected", followed.refused as u64)
        .number("met", followed.met as u64)
        .number("unmet", followed.unmet as u64)
        .number("not_reached", followed.not_reached as u64)
        .texts("failed_on", failed.iter().map(|(loss, _)| loss.name()))
        .end()
}
