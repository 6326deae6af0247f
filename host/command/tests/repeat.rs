//! `repeat`: a step several times from one line.

#[path = "support/blocks.rs"]
mod blocks;
#[path = "support/objects.rs"]
mod objects;
#[path = "support/scenarios.rs"]
mod scenarios;
mod support;

use blocks::{assert_table, START};
use objects::{of_type, Value};
use scenario::Scenario;
use support::{run, st9, Random};

#[test]
fn steps_and_their_lines() {
    let text = "image zero\nreturn\nrepeat 3 arbitrate\nrepeat 1 reset\nreturn\n";
    let case = Scenario::parse(text.as_bytes()).expect("a scenario").cases.remove(0);
    let lines: Vec<_> = (0..case.steps.len()).map(|index| case.line_of(index)).collect();
    assert_eq!(lines, [2, 3, 3, 3, 4, 5]);
    let steps: Vec<_> = case.steps.iter().map(|step| step.operation.to_string()).collect();
    assert_eq!(steps, ["return", "arbitrate", "arbitrate", "arbitrate", "reset", "return"]);
}

/// Of the last step, and of the image after it; calls are over all of them.
#[test]
fn expectations() {
    let table = "
repeat 1 edge INTB0 falling
+ raised INTB0 | changed EIPR 00h -> 04h
- merged INTB0

repeat 2 edge INTB0 falling
+ merged INTB0 | changed nothing | EIPR 04h
- raised INTB0 | changed EIPR 04h

run
+ done 300 steps last none
- done 1 step | done 299 steps
repeat 300 arbitrate

edge INTB0 falling
edge INTC0 falling
wait INTC0
+ acknowledged by arbitration 7 at step 9
- acknowledged by arbitration 2 | acknowledged by arbitration 7 at step 8
repeat 6 arbitrate
return
repeat 2 arbitrate

edge INTC0 falling
bound INTC0
+ none: interrupts disabled at step 2
- none: interrupts disabled at step 1
repeat 2 arbitrate

repeat 2 return
repeat 1 read R256
+ refused 3 | changed nothing
- refused 4
arbitrate";
    assert_table(START, table);
}

/// With the line's `expect refused N` the case goes on after each; another number ends it at the first.
#[test]
fn refusals() {
    let repeated =
        |number| format!("image zero\nrepeat 3 read R256\nexpect refused {number}\nreturn\n");
    let ran = run(&repeated(3)).with_code(0);
    let end = "done: 1 step, 3 refused as expected\nexpectations: 1 met\n";
    assert!(ran.out.ends_with(end), "{}", ran.out);
    let ran = run(&repeated(4)).with_code(1);
    let end = "ended by the refusal at step 0 (line 2): 0 steps done, 3 not done\nexpectations: 0 met, 1 not reached\n";
    assert!(ran.out.ends_with(end), "{}", ran.out);
    let ran = st9(&["test", "-", "--json"], &repeated(4)).with_code(3);
    let case = of_type(&ran.out, "case").pop().expect("a case");
    assert_eq!((case.number("refusal"), case.number("at")), (3, 2));
    let short = "image zero 1264\nrepeat 2 return\n";
    run(&format!("{short}expect refused 1\n")).with_code(0);
    assert!(run(short).with_code(1).out.contains("before any step"));
    // The expectation of one line is not that of another.
    run("image zero\nread R256\nread R256\nexpect refused 3\n").with_code(1);
    run("image zero\nrepeat 2 read R256\nrepeat 2 read R256\nexpect refused 3\n").with_code(1);
}

#[test]
fn names_of_ones_own() {
    run("image zero\nname FAN INTC0\nrepeat 2 edge FAN falling\nexpect merged FAN\n").with_code(0);
}

/// A short file may not fill the memory; cases count together.
#[test]
fn steps_of_a_file() {
    let text = |repeats: usize| {
        let lines = "repeat 1000000 return\nagain\n".repeat(repeats);
        format!("image zero\ncase a\n{lines}")
    };
    assert!(Scenario::parse(text(10).as_bytes()).is_ok());
    let error = Scenario::parse(text(11).as_bytes()).expect_err("too many");
    assert_eq!(error.to_string(), "23: too many steps: expected at most 10000000 by repeat");
}

#[test]
fn lines_of_the_account() {
    let scenario = format!(
        "{START}repeat 3 edge INTB0 falling\nrepeat 4 write EIPR 00h\nrepeat 2 edge INTC0 rising\n"
    );
    let ran = run(&scenario).with_code(0);
    for words in [
        "account  INTB0  raised 1, merged 2, erased 1 (line 7: write EIPR 00h)\n",
        "account  INTC0  not selected 2\n",
        "done: 9 steps\n",
    ] {
        assert!(ran.out.contains(words), "{words}{}", ran.out);
    }
    let ran = st9(&["run", "-", "--json"], &scenario).with_code(0);
    let row = of_type(&ran.out, "account").remove(0);
    assert_eq!((row.number("erased"), row.list("lines")), (1, &[Value::Number(7)][..]));
    let steps = of_type(&ran.out, "step");
    let told: Vec<_> =
        steps.iter().map(|step| (step.number("step"), step.number("line"))).collect();
    assert_eq!(told, [(0, 6), (1, 6), (2, 6), (3, 7), (4, 7), (5, 7), (6, 7), (7, 8), (8, 8)]);
    assert_eq!(steps[4].text("statement"), "write EIPR 00h");
    let ran = st9(&["test", "-"], &scenario).with_code(0);
    let told = "-:7: write EIPR 00h erased 1 alarm, and no expectation tells it\n";
    assert!(ran.out.starts_with(told), "{}", ran.out);
}

/// A step several times from one line, or a line for each: the same but for the lines.
#[test]
fn one_line_and_many() {
    let mut random = Random(0x0915_0021);
    for _ in 0..40 {
        let start = scenarios::start(&mut random).join("\n");
        let (mut short, mut long) = (format!("{start}\n"), format!("{start}\n"));
        for _ in 0..8 {
            let (step, count) = (scenarios::step(&mut random), 1 + random.below(4));
            short += &format!("repeat {count} {step}\n");
            long += &format!("{step}\n").repeat(count);
        }
        for command in
            ["run -", "run - --verbose", "run - --json", "test - --json", "wait -", "wait - --json"]
        {
            let words: Vec<_> = command.split(' ').collect();
            let (one, many) = (st9(&words, &short), st9(&words, &long));
            assert_eq!(one.code, many.code, "{short}");
            assert_eq!(without_lines(&one.out), without_lines(&many.out), "{command}\n{short}");
        }
    }
}

/// A text without the numbers of lines, and without the lists of them, in words or members.
fn without_lines(text: &str) -> String {
    let starts = ["line ", "lines ", "\"line\":", "\"lines\":[", "\"at\":", "-:"];
    let mut text = text.to_string();
    for start in starts {
        let parts = text.split(start).enumerate().map(|(position, part)| match position {
            0 => part,
            _ => part.trim_start_matches(|next: char| next.is_ascii_digit() || ", ".contains(next)),
        });
        text = parts.collect::<Vec<_>>().join(start);
    }
    text
}

/// The warning is that of the write alone.
#[test]
fn decimal_bytes() {
    for (step, told) in [
        ("write EIPR 10", true),
        ("write EIPR 10h", false),
        ("write R16 10", false),
        ("edge 10 falling", false),
    ] {
        let ran = run(&format!("image zero\nrepeat 20 {step}\n"));
        assert_eq!(
            ran.err.starts_with("-:2: warning: 10 is read as decimal"),
            told,
            "{step}: {}",
            ran.err
        );
        assert_eq!(ran.err.is_empty(), !told);
    }
}

#[test]
fn the_most_of_them() {
    let scenario = format!(
        "{START}edge INTB0 falling\nrepeat 1000000 return\narbitrate\nexpect acknowledged INTB0\n"
    );
    let ran = st9(&["run", "-", "--quiet"], &scenario).with_code(0);
    assert!(ran.out.ends_with("done: 1000002 steps\nexpectations: 1 met\n"), "{}", ran.out);
    let ran = st9(&["wait", "-", "--source", "INTB0"], &scenario).with_code(0);
    let waited =
        "wait for INTB0 (source 2): acknowledged by arbitration 1 at step 1000001 (line 8)\n";
    assert!(ran.out.starts_with(waited), "{}", ran.out);
}
