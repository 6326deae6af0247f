//! `again`: another case from where the case before it started.

#[path = "support/objects.rs"]
mod objects;
mod support;

use objects::of_type;
use scenario::Scenario;
use support::{run, st9};

const CHANNEL: &str = "channel page=9 idcr=240 ivr=241 dcpr=242 dapr=243 data=244 in\n";

fn passes(scenario: &str) {
    run(scenario).with_code(0);
    st9(&["test", "-"], scenario).with_code(0);
}

fn titles(scenario: &str) -> Vec<(usize, String)> {
    let scenario = Scenario::parse(scenario.as_bytes()).expect("a scenario");
    scenario.cases.into_iter().map(|case| (case.line, case.title.expect("a title"))).collect()
}

/// What the case and the common part have before their steps; no step is done.
#[test]
fn back_to_the_start_of_the_case() {
    passes(
        "image fill 3\nset R1 5\nname FAN INTC0\n\
         case a\nset R2 6\nname PUMP INTB0\nset EITR 0\nset EIPR 0\n\
         write R1 9\nwrite R2 9\nexpect changed R2 6 -> 9\n\
         again\nedge FAN falling\nexpect raised FAN\nexpect EIPR 10h\nexpect R1 5\nexpect R2 6\nexpect R3 3\n\
         again and its calls\nrun\nexpect done 1 step last raised PUMP\nedge PUMP falling\nexpect EIPR 04h\n\
         case b\nread R2\nexpect byte 3\nexpect R1 5\n\
         again\nread R2\nexpect byte 3\n",
    );
}

/// An `again` may add what a case may, and the next one does not have it.
#[test]
fn what_an_again_adds() {
    passes(&format!(
        "image zero\ncase a\nset R1 1\nreturn\n\
         again its own image, and the case's sets in it\nimage fill A5h\nset R2 2\nread R1\nexpect byte 1\n\
         expect R2 2\nexpect R3 A5h\n\
         again a record and a name\n{CHANNEL}name UART CH0\nset R240.p9 PRL=2\nrequest UART\nexpect raised UART\n\
         again without them\nname FAN CH0\nrequest 0\nexpect refused 4\nexpect R1 1\nexpect R2 0\nexpect R3 0\n"
    ));
    let bad =
        "image zero\ncase a\nreturn\nagain\nname FAN INTC0\nreturn\nagain\nedge FAN falling\n";
    assert!(run(bad).with_code(2).err.starts_with("-:8: 'FAN': expected a pin"));
}

#[test]
fn titles_and_lines() {
    let scenario =
        "image zero\ncase a, b\nreturn\nagain\nreturn\nagain c # d\nagain\nreturn\ncase e\nagain\n";
    let expected =
        [(2, "a, b"), (4, "a, b (2)"), (6, "a, b: c"), (7, "a, b (4)"), (9, "e"), (10, "e (2)")];
    assert_eq!(titles(scenario), expected.map(|(line, title)| (line, title.to_string())));
}

/// A case of no steps is one, too, wherever it stands.
#[test]
fn cases_without_steps() {
    let scenario = "image zero\ncase a\nset R1 1\nagain\nagain b\nread R1\nexpect byte 1\nagain\n";
    assert_eq!(titles(scenario).len(), 4);
    passes(scenario);
    let ran = st9(&["test", "-"], scenario).with_code(0);
    let counts = "4 cases: 4 passed, 0 failed; 1 expectation: 1 met, 0 unmet; 3 passed without an expectation\n";
    assert_eq!(ran.out, counts);
}

/// What several cases have is doubted once.
#[test]
fn warnings_are_told_once() {
    let start = format!("image zero\n{CHANNEL}set CICR 97\ncase a\nset EIMR 25\nset R240.p9 26\n");
    let ran =
        run(&format!("{start}return\nagain\nreturn\nagain\nset EIPR 44\nreturn\n")).with_code(0);
    let lines: Vec<_> = ran.err.lines().map(|line| line.split(": ").next().unwrap_or("")).collect();
    assert_eq!(lines, ["-:3", "-:5", "-:6", "-:11"], "{}", ran.err);
    // The list that makes a byte an IDCR may be that of the `again`.
    let list = format!("image zero\ncase a\nset R240.p9 26\nreturn\nagain\n{CHANNEL}return\n");
    let ran = run(&format!("{list}again\n{CHANNEL}return\n")).with_code(0);
    assert_eq!(ran.err.matches("warning").count(), 1, "{}", ran.err);
}

const FAILING: &str = "\
image zero
set EIMR FFh
set CICR 97h
case the fan
set EIPR 10h
arbitrate
expect acknowledged INTC0
again
read R1
expect byte 1
again is masked
set EIMR 00h
read R256
";

#[test]
fn runs_and_tests() {
    let ran = run(FAILING).with_code(1);
    let cases: Vec<_> = ran.out.lines().filter(|line| line.starts_with("case ")).collect();
    assert_eq!(cases, ["case the fan", "case the fan (2)", "case the fan: is masked"]);
    let ran = st9(&["test", "-"], FAILING).with_code(3);
    let failed: Vec<_> = ran.out.lines().filter(|line| line.ends_with(": failed")).collect();
    let expected = ["-:8: case the fan (2): failed", "-:11: case the fan: is masked: failed"];
    assert_eq!(failed, expected);
    assert!(ran
        .out
        .contains("  -:10: after read R1 (step 0, line 9): expected byte 1; came byte 00h\n"));
    assert!(ran.out.ends_with("3 cases: 1 passed, 2 failed; 2 expectations: 1 met, 1 unmet\n"));
}

#[test]
fn objects_and_waits() {
    let expected = [(4, "the fan"), (8, "the fan (2)"), (11, "the fan: is masked")];
    for (command, code) in [("run", 1), ("test", 3), ("wait", 1)] {
        let ran = st9(&[command, "-", "--json"], FAILING).with_code(code);
        let cases = of_type(&ran.out, "case");
        let told: Vec<_> =
            cases.iter().map(|case| (case.number("line"), case.text("case"))).collect();
        assert_eq!(told, expected, "{command}");
    }
    let ran = st9(&["wait", "-", "--source", "INTC0"], FAILING).with_code(1);
    let waits: Vec<_> = ran.out.lines().filter(|line| line.starts_with("wait for ")).collect();
    let words = [
        "acknowledged by arbitration 1 at step 0 (line 6)",
        "not acknowledged",
        "refused with 3 at step 0",
    ];
    assert_eq!(waits.len(), words.len(), "{}", ran.out);
    assert!(waits.iter().zip(words).all(|(line, words)| line.contains(words)), "{}", ran.out);
}

/// An image is that of one case.
#[test]
fn saves() {
    let scenario = "image zero\ncase a\nreturn\nagain\nreturn\n";
    let ran = st9(&["run", "-", "--save", "none/end.bin"], scenario).with_code(2);
    assert!(ran.err.contains("with 2 cases: expected a file of one case"), "{}", ran.err);
}

/// A title is printed as it can be read, and an image that is not there is told at its own line.
#[test]
fn words_and_images_of_its_own() {
    let ran = run("image zero\ncase a\nreturn\nagain \u{7}bell\nreturn\n").with_code(0);
    assert!(!ran.out.contains('\u{7}') && ran.out.contains("bell"), "{}", ran.out);
    let ran = run("image zero\ncase a\nreturn\nagain\nimage nowhere.bin\nreturn\n").with_code(2);
    assert!(ran.err.contains(":5: image nowhere.bin: "), "{}", ran.err);
}
