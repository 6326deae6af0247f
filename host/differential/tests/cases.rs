//! The cases of `cases/`, followed on the proved model, as `st9 test cases` does, and on the plain one.

use differential::Plain;
use scenario::{
    follow, Ask, Asked, Call, Case, Comparison, Event, Expected, Followed, Lent, Model, Proved,
    RefusedAt, Scenario,
};
use st9::text::counted;
use st9::Effect;
use std::collections::HashSet;
use std::fs;
use std::path::{Path, PathBuf};

/// What `cases/` holds, so that a case that gets lost is seen.
const TOTALS: Totals =
    Totals { files: 24, cases: 879, distinct: 874, steps: 5253, calls: 674, expectations: 2627 };

#[derive(Debug, Default, PartialEq, Eq)]
struct Totals {
    files: usize,
    cases: usize,
    /// Those that start or ask otherwise than every other.
    distinct: usize,
    steps: usize,
    calls: usize,
    expectations: usize,
}

/// A case, where it stands, and the image and the memory that it starts from.
struct Start {
    file: String,
    case: Case,
    lent: Lent,
}

fn folder() -> PathBuf {
    Path::new(env!("CARGO_MANIFEST_DIR")).join("../../cases")
}

/// The scenarios, in the order of their names.
fn files() -> Vec<PathBuf> {
    let entries = fs::read_dir(folder()).expect("cases/ is there");
    let mut files: Vec<_> = entries
        .map(|entry| entry.expect("an entry").path())
        .filter(|path| path.extension().is_some_and(|end| end == "st9"))
        .collect();
    files.sort();
    files
}

/// All cases, in the order of the files.
fn starts() -> Vec<Start> {
    files().iter().flat_map(|path| starts_of(path)).collect()
}

fn starts_of(path: &Path) -> Vec<Start> {
    let file = format!("cases/{}", path.file_name().unwrap_or_default().to_string_lossy());
    let text = fs::read(path).unwrap_or_else(|error| panic!("{file}: {error}"));
    let scenario = Scenario::parse(&text).unwrap_or_else(|error| panic!("{file}:{error}"));
    assert_eq!(scenario.warnings, [], "{file}");
    let start = |case: Case| {
        let (image, line) = &case.image;
        let mut image = image
            .bytes(|name| fs::read(folder().join(name)))
            .unwrap_or_else(|error| panic!("{file}:{line}: {error}"));
        case.store(&mut image, |_, _| ());
        let memory = case.memory(|name| fs::read(folder().join(name)));
        let memory = memory.unwrap_or_else(|error| panic!("{file}:{error}"));
        Start { file: file.clone(), case, lent: Lent { image, memory } }
    };
    scenario.cases.into_iter().map(start).collect()
}

impl Start {
    /// A failure of this case, at a line.
    fn failure(&self, line: impl Into<u64>, what: &str) -> String {
        let title = self.case.title.as_deref().unwrap_or("without a title");
        format!("{}:{}: case {title}: {what}", self.file, line.into())
    }

    fn followed(&self, model: &impl Model, tell: &mut impl FnMut(Event)) -> Followed {
        follow(&self.case, self.lent.clone(), model, tell)
    }

    /// All that is not as the case expects.
    fn failures(&self, model: &impl Model) -> Vec<String> {
        let mut failures = Vec::new();
        let followed = self.followed(model, &mut |event| {
            if let Event::Compared(Comparison { met: false, line, said, came, statement }) = event {
                let what = format!("after {statement}: expected {said}; came {came}");
                failures.push(self.failure(*line, &what));
            }
        });
        if let Some(refusal) = followed.end.refusal() {
            let what = format!("{}, and that is not expected", refusal.with_number());
            failures.push(self.failure(followed.end.line(&self.case), &what));
        }
        if followed.not_reached != 0 {
            let expectations = counted(followed.not_reached as u64, "expectation");
            let what = format!("{expectations} not reached");
            failures.push(self.failure(self.case.line as u64, &what));
        }
        for (index, erased) in &followed.unexpected {
            let alarms = counted(*erased as u64, "alarm");
            let what = format!("step {index} erased {alarms}, and no expectation tells it");
            failures.push(self.failure(self.case.line_of(*index), &what));
        }
        failures
    }

    /// What the calls leave, and what is left at the end, each with its line.
    fn left(&self, model: &impl Model) -> Vec<(u32, Lent)> {
        let mut left = Vec::new();
        let followed = self.followed(model, &mut |event| {
            if let Event::Call(report, _) = event {
                left.push((report.line, report.after.clone()));
            }
        });
        let last = self.case.steps.last().map_or(self.case.line as u32, |step| step.line);
        left.push((last, followed.left));
        left
    }

    /// Where the plain model leaves other bytes than the proved one.
    fn differences(&self) -> Vec<String> {
        let (plain, proved) = (self.left(&Plain), self.left(&Proved));
        let mut differences = Vec::new();
        if plain.len() != proved.len() {
            differences.push(self.failure(self.case.line as u64, "one model made more calls"));
        }
        for ((line, plain), (_, proved)) in plain.iter().zip(&proved) {
            let parts =
                [("image", &plain.image, &proved.image), ("memory", &plain.memory, &proved.memory)];
            for (name, plain, proved) in parts {
                let place = plain.iter().zip(proved).position(|(plain, proved)| plain != proved);
                if let Some(place) = place {
                    let bytes =
                        format!("plain {:02X}h, proved {:02X}h", plain[place], proved[place]);
                    differences.push(self.failure(*line, &format!("{name} {place}: {bytes}")));
                }
            }
        }
        differences
    }

    /// The calls, and the steps before the first call over steps, each with its line and what is expected of it. The steps
    /// after that are part of the call's answer.
    fn asked(&self) -> Vec<(u32, Of, Vec<&Expected>)> {
        let Case { steps, asks, .. } = &self.case;
        let mut asked = Vec::new();
        let mut covered_from = steps.len();
        for (place, Ask { after, line, what }) in asks.iter().enumerate() {
            let Asked::Call(call) = *what else { continue };
            asked.push((*line, Of::Call(call), expected(&asks[place + 1..], *after)));
            if !matches!(call, Call::View(_)) {
                covered_from = covered_from.min(*after);
            }
        }
        for (index, step) in steps.iter().enumerate().take(covered_from) {
            let place = asks.partition_point(|ask| ask.after <= index);
            asked.push((step.line, Of::Step, expected(&asks[place..], index + 1)));
        }
        asked
    }

    /// The steps and calls of which an expectation leaves something open, or there is none of their answer or their bytes.
    fn open(&self) -> Vec<String> {
        let mut open = Vec::new();
        for (line, of, expected) in self.asked() {
            let left = expected.iter().find_map(|expected| left_open(of, expected));
            let left = left.or_else(|| missing(of, &expected));
            open.extend(left.map(|left| self.failure(line, &format!("nothing is said of {left}"))));
        }
        if self.case.expectations() == 0 {
            open.push(self.failure(self.case.line as u64, "expects nothing"));
        }
        open
    }
}

/// What is expected: of a step, or of a call.
#[derive(Clone, Copy)]
enum Of {
    Step,
    Call(Call),
}

/// The expectations after so many steps, up to the next call.
fn expected(asks: &[Ask], after: usize) -> Vec<&Expected> {
    let own = asks.iter().map_while(|ask| match &ask.what {
        Asked::Expect(expect) if ask.after == after => Some(&expect.what),
        _ => None,
    });
    own.collect()
}

/// What an expectation leaves open though the answer has it.
fn left_open(of: Of, expected: &Expected) -> Option<&'static str> {
    let open = match expected {
        Expected::Triggered(bits) => {
            let named = |(bit, effect): &(_, Effect)| {
                Option::is_some(bit) || *effect == Effect::NotSelected
            };
            (!bits.iter().all(named), "the bit")
        }
        Expected::TopLevel { vector } => (vector.is_none(), "the vector"),
        Expected::Interrupt { level, vector, .. } => {
            (level.is_none() || vector.is_none(), "level and vector")
        }
        Expected::Acknowledged { arbitration, .. } => (arbitration.is_none(), "the arbitration"),
        Expected::Never { arbitrations } => (arbitrations.is_none(), "the arbitrations"),
        Expected::Within { outranking, triggers, .. } => {
            (outranking.is_none() || triggers.is_none(), "H and E")
        }
        Expected::Nothing => (matches!(of, Of::Call(_)), "the premise"),
        Expected::Fails { premise, step } => {
            (step.is_none() && premise.index().is_some(), "the step")
        }
        Expected::Done { last, .. } => match last {
            Some(last) => return left_open(Of::Step, last),
            None => (true, "the last answer"),
        },
        Expected::Refused { at, arbitrations, .. } => return refusal_open(of, *at, *arbitrations),
        Expected::Changed(bytes) => {
            (bytes.iter().any(|(_, old, _)| old.is_none()), "the old bytes")
        }
        _ => (false, ""),
    };
    open.0.then_some(open.1)
}

fn refusal_open(of: Of, at: Option<RefusedAt>, made: Option<u64>) -> Option<&'static str> {
    match (of, at, made) {
        (Of::Call(Call::Run | Call::Wait(_)), None, _) => Some("the place"),
        (Of::Call(Call::Wait(_)), Some(RefusedAt::Step(_)), None) => Some("the arbitrations"),
        _ => None,
    }
}

/// What no expectation is about: the answer, or the bytes that changed where some may.
fn missing(of: Of, expected: &[&Expected]) -> Option<&'static str> {
    let bytes = |expected: &&&Expected| {
        matches!(expected, Expected::Changed(_) | Expected::Stored { .. } | Expected::Memory { .. })
    };
    let Some(answer) = expected.iter().find(|expected| !bytes(expected)) else {
        return Some("the answer");
    };
    let keeps = match (of, answer) {
        (Of::Call(Call::Bound(_) | Call::HandlerBound(_) | Call::View(_)), _) => true,
        (Of::Step, Expected::Byte(_)) => true,
        (Of::Step, Expected::Refused { .. }) => true,
        (_, Expected::Refused { at, .. }) => *at == Some(RefusedAt::BeforeAnyStep),
        _ => false,
    };
    let changed = |expected: &&Expected| matches!(expected, Expected::Changed(_));
    (!keeps && !expected.iter().any(changed)).then_some("the bytes that changed")
}

/// Panics with what fails of any case, all at once.
fn assert_none(failures: impl FnMut(&Start) -> Vec<String>) {
    let failures: Vec<_> = starts().iter().flat_map(failures).collect();
    assert!(failures.is_empty(), "{} failures\n{}", failures.len(), failures.join("\n"));
}

#[test]
fn hold_on_the_proved_model() {
    assert_none(|start| start.failures(&Proved));
}

#[test]
fn hold_on_the_plain_model() {
    assert_none(|start| start.failures(&Plain));
}

#[test]
fn both_models_leave_the_same_bytes() {
    assert_none(Start::differences);
}

/// Each says all that is to be said: a case that gets weaker is seen.
#[test]
fn leave_nothing_open() {
    assert_none(Start::open);
}

#[test]
fn none_is_lost() {
    let mut totals = Totals { files: files().len(), ..Totals::default() };
    let mut distinct = HashSet::new();
    for Start { case, lent, .. } in starts() {
        totals.cases += 1;
        totals.steps += case.steps.len();
        totals.expectations += case.expectations();
        totals.calls += case.asks.len() - case.expectations();
        let asked = case.asks.iter().map(|ask| format!("{:?}", ask.what)).collect::<Vec<_>>();
        let Lent { image, memory } = lent;
        distinct.insert((image, memory, format!("{:?}", case.channels), case.words(), asked));
    }
    totals.distinct = distinct.len();
    assert_eq!(totals, TOTALS);
}

/// `cases/README.md` has a row for each file, and no other.
#[test]
fn are_listed() {
    let readme = fs::read_to_string(folder().join("README.md")).expect("cases/README.md");
    let rows = readme.lines().filter(|line| line.starts_with("| `"));
    let cells = rows.filter_map(|row| row.split('|').nth(1));
    let mut listed: Vec<_> = cells.flat_map(|cell| cell.split('`').skip(1).step_by(2)).collect();
    listed.sort_unstable();
    let files = files();
    let mut names: Vec<_> = files.iter().filter_map(|path| path.file_stem()?.to_str()).collect();
    names.sort_unstable();
    assert_eq!(listed, names);
}
