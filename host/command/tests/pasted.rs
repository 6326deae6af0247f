//! What the command prints can be pasted after `expect`: over random cases with fixed seeds.

#[path = "support/objects.rs"]
mod objects;
#[path = "support/scenarios.rs"]
mod scenarios;
mod support;

use objects::{objects, Value};
use support::{st9, Random};

/// Random cases, and for each statement the objects that were printed of it once the case got there: two of a bound that
/// both claims were asked for.
struct Cases {
    starts: Vec<Vec<String>>,
    statements: Vec<Vec<String>>,
    answers: Vec<Vec<Vec<Value>>>,
}

const CASES: usize = 40;
const FILES: usize = 12;

impl Cases {
    fn random(random: &mut Random) -> Cases {
        let mut cases = Cases { starts: vec![], statements: vec![], answers: vec![vec![]; CASES] };
        for case in 0..CASES {
            let (start, statements) = match case % 4 {
                0 => scenarios::plain(random),
                1 => scenarios::handler(random),
                _ => (scenarios::start(random), any_statements(random)),
            };
            cases.starts.push(start);
            cases.statements.push(statements);
        }
        cases
    }

    /// The file with expectations after the statements.
    fn text(&self, expected: impl Fn(usize, usize) -> Vec<String>) -> String {
        let mut text = String::new();
        for case in 0..CASES {
            text.push_str(&format!("case number {case}\n{}\n", self.starts[case].join("\n")));
            for (index, statement) in self.statements[case].iter().enumerate() {
                text.push_str(&format!("{statement}\n"));
                expected(case, index)
                    .iter()
                    .for_each(|words| text.push_str(&format!("expect {words}\n")));
            }
        }
        text
    }

    fn words(&self, case: usize, index: usize) -> Vec<String> {
        let answers = self.answers[case].get(index).into_iter().flatten();
        answers.map(|answer| answer.text("words").to_string()).collect()
    }

    /// How many answers were printed.
    fn answered_in_all(&self) -> usize {
        self.answers.iter().flatten().map(Vec::len).sum()
    }

    /// A refused statement ends its case until it has its expectation, so that every round gets further.
    fn answered(mut self) -> Cases {
        for _ in 0..20 {
            let pasted = self.text(|case, index| self.words(case, index));
            let ran = st9(&["run", "-", "--json"], &pasted);
            assert!(matches!(ran.code, Some(0 | 1)), "{:?}: {}\n{pasted}", ran.code, ran.err);
            self.answers = answers_of(&ran.out);
            if ran.code == Some(0) {
                return self;
            }
        }
        panic!("a case does not come to its end");
    }
}

fn any_statements(random: &mut Random) -> Vec<String> {
    let mut statements: Vec<_> = (0..14).map(|_| scenarios::step(random)).collect();
    for _ in 0..2 {
        statements.insert(random.below(statements.len()), scenarios::call(random));
    }
    statements
}

/// The objects of the statements, case by case.
fn answers_of(out: &str) -> Vec<Vec<Vec<Value>>> {
    let mut cases: Vec<Vec<Vec<Value>>> = vec![];
    for object in objects(out) {
        match object.text("type") {
            "case" => cases.push(vec![]),
            "step" | "wait" | "bound" | "handler bound" | "run" | "view" => {
                let case = cases.last_mut().expect("a case");
                match case.last_mut() {
                    // The other object of a bound.
                    Some(last) if object.has("at") && last[0].get("at") == object.get("at") => {
                        last.push(object);
                    }
                    _ => case.push(vec![object]),
                }
            }
            _ => {}
        }
    }
    cases
}

/// The printed answer of every step and call, pasted after it, is met.
#[test]
fn printed_answers_are_met() {
    let mut random = Random(0x0915_0101);
    for _ in 0..FILES {
        let cases = Cases::random(&mut random).answered();
        let pasted = cases.text(|case, index| cases.words(case, index));
        let ran = st9(&["test", "-", "--json"], &pasted).with_code(0);
        let end = objects(&ran.out).pop().expect("a result");
        let all: usize = cases.statements.iter().map(Vec::len).sum();
        assert_eq!(cases.answers.iter().map(Vec::len).sum::<usize>(), all);
        assert_eq!(end.number("met"), cases.answered_in_all() as i64);
        assert_eq!((end.number("unmet"), end.number("not_reached")), (0, 0));
        assert_eq!((end.number("cases"), end.number("passed")), (CASES as i64, CASES as i64));
    }
}

/// What the model answered: what is printed beside it is the command's.
fn value_of(answer: &Value) -> Vec<(&'static str, Value)> {
    let names: &[&str] = match answer.text("type") {
        "step" => &[
            "answer", "byte", "erased", "maskable", "tlip", "source", "level", "vector", "ended",
            "refusal",
        ],
        "wait" => &["result", "arbitrations", "refusal", "step"],
        "bound" | "handler bound" => {
            let names = ["result", "outranking", "triggers", "bound", "refusal", "step"];
            let mut value = names.map(|name| (name, answer.get(name).clone())).to_vec();
            value.push(("premise", premise_of(answer)));
            return value;
        }
        "run" => &["result", "steps", "last", "refusal", "step"],
        _ => &["result", "bytes", "refusal"],
    };
    names.iter().map(|name| (*name, answer.get(name).clone())).collect()
}

/// The premise that a bound tells; a step of another kind is one premise, whichever kinds the claim speaks of.
fn premise_of(answer: &Value) -> Value {
    match answer.get("premise") {
        Value::Text(words) if words.starts_with("a step that is no trigger") => {
            Value::Text("other step".to_string())
        }
        other => other.clone(),
    }
}

/// Another answer of the same case, of the same kind of statement, that differs in the model's value.
fn another(random: &mut Random, answers: &[Vec<Value>], index: usize) -> Option<String> {
    let here = &answers[index];
    let kind = |answer: &Value| answer.text("type").to_string();
    let differs = |other: &&Value| {
        let alike = |answer: &Value| {
            let refused = answer.has("refusal") && answer.get("refusal") == other.get("refusal");
            refused || value_of(answer) == value_of(other)
        };
        here.iter().any(|answer| kind(answer) == kind(other)) && !here.iter().any(alike)
    };
    let others: Vec<_> = answers.iter().flatten().filter(differs).collect();
    (!others.is_empty()).then(|| others[random.below(others.len())].text("words").to_string())
}

/// An answer that came elsewhere is not met where the model's answer differs, and each is told.
#[test]
fn answers_of_other_steps_are_not_met() {
    let mut random = Random(0x0915_0102);
    let mut tried = 0;
    for _ in 0..FILES {
        let cases = Cases::random(&mut random).answered();
        let mut wrong = vec![];
        for answers in &cases.answers {
            let row: Vec<_> =
                (0..answers.len()).map(|i| another(&mut random, answers, i)).collect();
            wrong.push(row);
        }
        let text = cases.text(|case, index| {
            cases.words(case, index).into_iter().chain(wrong[case][index].clone()).collect()
        });
        let ran = st9(&["test", "-", "--json"], &text).with_code(3);
        let end = objects(&ran.out).pop().expect("a result");
        let all = cases.answered_in_all();
        let others = wrong.iter().flatten().flatten().count();
        assert_eq!((end.number("met"), end.number("unmet")), (all as i64, others as i64));
        tried += others;
    }
    assert!(tried > FILES * CASES * 10, "{tried}");
}

/// The kinds of answers that the random cases have: a property over too few would say little.
#[test]
fn random_cases_have_every_kind_of_answer() {
    let mut random = Random(0x0915_0101);
    let mut seen = std::collections::BTreeMap::new();
    for _ in 0..2 * FILES {
        let answers = Cases::random(&mut random).answered().answers;
        for answer in answers.into_iter().flatten().flatten() {
            let kind = match answer.get("answer") {
                Value::Text(kind) => kind.clone(),
                _ => format!("{} {}", answer.text("type"), answer.text("result")),
            };
            *seen.entry(kind).or_insert(0) += 1;
            if let Value::Number(refusal) = answer.get("refusal") {
                *seen.entry(format!("refused {refusal}")).or_insert(0) += 1;
            }
            if let Value::Number(_) = answer.get("memory") {
                *seen.entry("transferred in memory".to_string()).or_insert(0) += 1;
            }
            if let Value::Text(changed) = answer.get("changed") {
                *seen.entry(format!("changed {changed}")).or_insert(0) += 1;
            }
        }
    }
    let kinds = "byte, written, triggered, none, top level, interrupt, transferred, \
                 transferred in memory, returned, reset, \
                 wait acknowledged, wait ended, wait refused, bound within, bound fails, bound refused, \
                 handler bound within, handler bound fails, handler bound refused, \
                 changed pending, changed mode, changed current level, changed top level, changed mask, changed level, \
                 run done, run refused, view refused, refused 3, refused 4, refused 5, refused 6, refused 7";
    for kind in kinds.split(", ") {
        assert!(seen.get(kind).is_some_and(|count| *count > 4), "{kind}: {seen:?}");
    }
}

/// What came of an expectation that is never met: the bytes that each statement changed, in words.
fn changes(cases: &Cases) -> Vec<String> {
    let text = cases.text(|case, index| {
        cases.words(case, index).into_iter().chain(["changed R238 1 -> 2".to_string()]).collect()
    });
    let ran = st9(&["test", "-", "--json"], &text).with_code(3);
    let unmet = objects(&ran.out).into_iter().filter(|object| object.text("type") == "expectation");
    unmet.map(|object| object.text("came").to_string()).collect()
}

/// The bytes that changed, pasted, are met; those of another statement are not, where they differ.
#[test]
fn changes_that_came_are_met() {
    let mut random = Random(0x0915_0104);
    for _ in 0..FILES / 2 {
        let cases = Cases::random(&mut random).answered();
        let changes = changes(&cases);
        let counts: Vec<_> = cases.statements.iter().map(Vec::len).collect();
        let all: usize = counts.iter().sum();
        assert_eq!(changes.len(), all);
        let at = |case: usize, index: usize| counts[..case].iter().sum::<usize>() + index;
        let other: Vec<_> = (0..all).map(|_| random.below(all)).collect();
        let text = cases.text(|case, index| {
            let here = at(case, index);
            let both = [changes[here].clone(), changes[other[here]].clone()];
            cases.words(case, index).into_iter().chain(both).collect()
        });
        let ran = st9(&["test", "-", "--json"], &text).with_code(3);
        let end = objects(&ran.out).pop().expect("a result");
        let alike = (0..all).filter(|here| changes[*here] == changes[other[*here]]).count();
        assert!(alike > 0 && alike < all);
        let counts = (end.number("met"), end.number("unmet"));
        let met = cases.answered_in_all() + all + alike;
        assert_eq!(counts, (met as i64, (all - alike) as i64));
    }
}

/// A bound's line, which tells what both claims say, is met as it stands, without the explanation that may stand below.
#[test]
fn printed_lines_of_bounds_are_met() {
    let mut random = Random(0x0915_0105);
    let mut both = 0;
    for _ in 0..200 {
        let (start, mut statements) = scenarios::handler(&mut random);
        statements.retain(|statement| !statement.contains("bound"));
        let source = format!("INT{}", random.pick(&["A0", "A1", "B0", "B1", "C0", "C1", "D0"]));
        let at = random.below(statements.len());
        statements.insert(at, format!("{} {source}", random.pick(&["bound", "handler bound"])));
        let with =
            |statements: &[String]| format!("{}\n{}\n", start.join("\n"), statements.join("\n"));
        let ran = st9(&["run", "-"], &with(&statements)).with_code(0);
        let line = ran.out.lines().find(|line| line.contains("bound INT")).expect("its line");
        let (_, words) = line.split_once(&source).expect("its words");
        both += usize::from(ran.out.contains("(the handlers' claim; demand 3"));
        statements.insert(at + 1, format!("expect {words}"));
        st9(&["run", "-"], &with(&statements)).with_code(0);
    }
    assert!(both > 4, "{both}");
}
