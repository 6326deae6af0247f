//! `st9 wait`.

use crate::arguments::Wait as Options;
use crate::input::{self, Start};
use crate::options::{shown, usage};
use crate::output::{Failure, Outcome, Output};
use crate::print::{print_note, print_rows, print_title};
use crate::progress::Progress;
use crate::save::Saved;
use scenario::{
    bound_json, folded, follow, note, transfer_note, waited_json, waited_words, Account, Bit,
    Bounds, Case, Claim, Lent, List, Loss, Names, Object, Proved, Row,
};
use st9::{Bound, Premise, Refusal, Source, Wait, WaitError};
use std::ffi::OsStr;
use std::os::unix::ffi::OsStrExt;

pub fn wait(options: &Options, output: &mut Output) -> Result<Outcome, Failure> {
    let loaded = input::scenario(&options.file)?;
    let asked = loaded.cases.iter().map(|start| asked(options, &start.case));
    let asked = asked.collect::<Result<Vec<_>, _>>()?;
    let saved = Saved::open(&options.save, &loaded)?;
    let mut outcome = Outcome::Done;
    let mut last = Lent::default();
    for (position, Start { case, lent, .. }) in loaded.cases.iter().enumerate() {
        print_title(case, position == 0, options.json, output);
        let asked = &asked[position];
        let reports: Vec<_> = asked.iter().map(|source| Report::of(case, lent, *source)).collect();
        let account = account_of(case, lent);
        match (options.json, &reports[..]) {
            (true, reports) => reports.iter().for_each(|report| report.print_json(case, output)),
            (false, [report]) if options.source.is_some() => report.print(case, output),
            (false, reports) => print_table(case, &account, reports, output),
        }
        let lost = lost(&account, asked);
        print_rows(&lost, case, options.json, output);
        let note = reports.first().and_then(|report| report.note(case));
        note.iter().for_each(|note| print_note(note, options.json, output));
        outcome = outcome.max(judged(options, case, &account, &reports, output));
        last = reports.into_iter().next().map(|report| report.left).unwrap_or_default();
    }
    saved.write(&last)?;
    Ok(outcome)
}

/// The source that is named, or all of a case.
fn asked(options: &Options, case: &Case) -> Result<Vec<Source>, Failure> {
    match &options.source {
        Some(word) => Ok(vec![named(word, &case.names)?]),
        None => Ok(sources(case)),
    }
}

/// The source that a word of the command line names in a case.
fn named(word: &OsStr, names: &Names) -> Result<Source, Failure> {
    const EXPECTED: &str = "--source with INTB1, CH0, a name that the scenario gives, or a number";
    let found = names.source(word.as_bytes());
    found.ok_or_else(|| usage(&format!("{} is no source: expected {EXPECTED}", shown(word))))
}

/// All sources of a case.
fn sources(case: &Case) -> Vec<Source> {
    let records = case.channels.len().min(st9::MOST_CHANNELS) as u32;
    (0..8 + records).map(Source).collect()
}

/// The start of the line of a bound.
const BOUND: &str = "bound  ";

/// The wait report and the bounds of a source.
struct Report {
    source: Source,
    waited: Result<Wait, WaitError>,
    bounds: Result<Bounds, Refusal>,
    /// Image and memory after the wait.
    left: Lent,
}

impl Report {
    fn of(case: &Case, lent: &Lent, source: Source) -> Report {
        let words = case.words();
        let progress = Progress::new(words.len(), "steps");
        progress.whole("the bound over");
        let bounds = Bounds::of(&Proved, &lent.image, &case.channels, source, &words);
        progress.whole("the wait report over");
        let mut left = lent.clone();
        let Lent { image, memory } = &mut left;
        let waited = st9::words::wait(image, &case.channels, memory, source, &words);
        Report { source, waited, bounds, left }
    }

    fn print(&self, case: &Case, output: &mut Output) {
        let source = case.names.told(self.source);
        let waited = waited_words(self.waited, case, 0, Some(&self.left));
        output.line(&format!("wait for {source} (source {}): {waited}", self.source.0));
        let bound = match self.bounds {
            Ok(bounds) => bounds.explained(list(case)),
            Err(refusal) => refusal.with_number(),
        };
        let later = if self.is_raised_later() {
            let source = self.source.to_string();
            let name = case.names.of(self.source).unwrap_or(&source);
            format!(" at the start (`bound {name}` in the scenario, after it is raised, asks from there)")
        } else {
            String::new()
        };
        output.line(&folded(BOUND, &format!("{bound}{later}")));
        let counted = self.bounds.ok().and_then(Bounds::counted);
        for line in counted.into_iter().flatten() {
            output.line(&format!("{:1$}{line}", "", BOUND.len()));
        }
    }

    /// Whether the source gets no bound because it is not pending at the start, and is acknowledged all the same.
    fn is_raised_later(&self) -> bool {
        let demand3 = self.bounds.map(|bounds| bounds.demand3);
        demand3 == Ok(Bound::Fails(Premise::NotPending)) && self.is_acknowledged(None)
    }

    /// Why a transfer ended the wait.
    fn refused_transfer(&self, case: &Case) -> Option<String> {
        match self.waited {
            Err(WaitError::Step { refusal, .. }) => transfer_note(refusal, case, &self.left),
            _ => None,
        }
    }

    fn note(&self, case: &Case) -> Option<String> {
        match self.waited {
            Err(WaitError::Call(refusal)) => note(refusal, case, &self.left),
            _ => None,
        }
    }

    fn print_json(&self, case: &Case, output: &mut Output) {
        let wait = Object::new().text("type", "wait").source(self.source, &case.names);
        output.line(&waited_json(wait, self.waited, case, 0).end());
        let mut bound = |claim: Claim, bound: Result<Bound, Refusal>| {
            let object = Object::new().text("type", claim.kind()).source(self.source, &case.names);
            output.line(&bound_json(object, claim, bound, list(case)).end());
        };
        match self.bounds {
            Ok(bounds) => bounds.all().for_each(|claimed| bound(claimed.claim, Ok(claimed.bound))),
            Err(refusal) => bound(Claim::Demand3, Err(refusal)),
        }
    }

    /// Whether the source was acknowledged, by arbitration `within` at the latest where that is said.
    fn is_acknowledged(&self, within: Option<u64>) -> bool {
        match self.waited {
            Ok(Wait::Acknowledged { arbitrations }) => {
                within.is_none_or(|within| arbitrations <= within)
            }
            _ => false,
        }
    }
}

/// The steps of a case, whole.
fn list(case: &Case) -> List<'_> {
    List { steps: &case.steps, from: 0 }
}

/// All sources: a line each of those that something came for, one line with the others.
fn print_table(case: &Case, account: &Account, reports: &[Report], output: &mut Output) {
    if let Some(Report { waited: Err(WaitError::Call(refusal)), .. }) = reports.first() {
        return output.line(&format!("{}, before any step", refusal.with_number()));
    }
    let came =
        sources_with(account, |row| row.at_start || row.raised + row.blocks + row.unselected != 0);
    let (waiting, idle): (Vec<&Report>, Vec<_>) =
        reports.iter().partition(|report| came.contains(&report.source));
    let rows = waiting.iter().map(|report| {
        let bound = match report.bounds {
            Ok(bounds) => bounds.words(list(case)),
            Err(refusal) => refusal.with_number(),
        };
        let waited = waited_words(report.waited, case, 0, None);
        [case.names.told(report.source), waited, bound]
    });
    let head = ["source", "wait", "bound (if the list has so many arbitrations)"].map(String::from);
    let rows: Vec<_> = std::iter::once(head).chain(rows).collect();
    let width = |column: usize| rows.iter().map(|row| row[column].chars().count()).max();
    let (first, second) = (width(0).unwrap_or(0), width(1).unwrap_or(0));
    for [source, waited, bound] in rows.iter().filter(|_| !waiting.is_empty()) {
        output.line(&format!("{source:<first$}  {waited:<second$}  {bound}"));
    }
    if !idle.is_empty() {
        let names: Vec<_> = idle.iter().map(|report| case.names.told(report.source)).collect();
        output.line(&format!("nothing came for {}", names.join(", ")));
    }
    // All end at the same step: why is told once, not in each row.
    if let Some(why) = waiting.iter().find_map(|report| report.refused_transfer(case)) {
        print_note(&why, false, output);
    }
}

/// What became of the alarms over the steps of a case. As in the wait report there is no call and no expectation, and
/// the first refused step is the end.
fn account_of(case: &Case, lent: &Lent) -> Account {
    let steps = Case { asks: Vec::new(), ..case.clone() };
    follow(&steps, lent.clone(), &Proved, &mut |_| ()).account.unwrap_or_default()
}

/// The sources whose row of the account has something.
fn sources_with(account: &Account, has: impl Fn(&Row) -> bool) -> Vec<Source> {
    let sources = account.rows().filter_map(|(bit, row)| match bit {
        Bit::Of(source) => has(row).then_some(source),
        Bit::Tlip => None,
    });
    sources.collect()
}

/// The rows of sources that lost something anywhere in the list: a wait report ends at the first acknowledgement and
/// tells none of it.
fn lost<'a>(account: &'a Account, asked: &[Source]) -> Vec<(Bit, &'a Row)> {
    let losses = [Loss::Erased, Loss::Merged, Loss::Unselected];
    let lost = |row: &Row| losses.iter().any(|loss| row.has(*loss));
    let is_asked = |bit: Bit| asked.iter().any(|source| Bit::Of(*source) == bit);
    account.rows().filter(|(bit, row)| is_asked(*bit) && lost(row)).collect()
}

/// What the options say of the reports.
fn judged(
    options: &Options,
    case: &Case,
    account: &Account,
    reports: &[Report],
    output: &mut Output,
) -> Outcome {
    if reports.iter().any(|report| report.waited.is_err()) {
        return Outcome::Refused;
    }
    let failed = failed(options, account, reports);
    for (what, sources) in &failed {
        let object = || {
            let object = Object::new().text("type", "failed").text("on", what);
            let names = sources.iter().map(|source| source.to_string()).collect::<Vec<_>>();
            object.texts("sources", names.iter().map(String::as_str)).end()
        };
        output.line(&match options.json {
            true => object(),
            false => {
                let told = sources.iter().map(|source| case.names.told(*source));
                format!("failed on {what}: {}", told.collect::<Vec<_>>().join(", "))
            }
        });
    }
    match failed.is_empty() {
        true => Outcome::Done,
        false => Outcome::Failed,
    }
}

/// The sources that were never acknowledged, then those that were not in time. Of all sources those count that
/// something came for beside what DMA served.
fn failed(options: &Options, account: &Account, reports: &[Report]) -> Vec<(String, Vec<Source>)> {
    let came = sources_with(account, |row| {
        u64::from(row.at_start) + row.raised + row.blocks > row.served || row.unselected != 0
    });
    let asked = |report: &&Report| options.source.is_some() || came.contains(&report.source);
    let source = |report: &Report| report.source;
    let (late, never): (Vec<&Report>, Vec<_>) =
        reports.iter().filter(asked).partition(|report| report.is_acknowledged(None));
    let mut failed = Vec::new();
    if options.fail_on_never {
        failed.push(("never".to_string(), never.iter().copied().map(source).collect()));
    }
    if let Some(within) = options.within {
        // One that is never acknowledged is told once.
        let rest = if options.fail_on_never { &[][..] } else { &never };
        let late = late.iter().chain(rest).filter(|report| !report.is_acknowledged(Some(within)));
        failed.push((format!("not within {within}"), late.copied().map(source).collect()));
    }
    failed.retain(|(_, sources): &(String, Vec<Source>)| !sources.is_empty());
    failed
}
