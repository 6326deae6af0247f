//! Several cases in a file, the order of the exit codes, and `st9 test` of files and folders.

#[path = "support/objects.rs"]
mod objects;
mod support;

use objects::{objects, of_type, Value};
use std::fs;
use std::path::Path;
use support::{folder, root, run, st9, st9_in, Ran};

const CHANNEL: &str = "channel page=9 idcr=240 ivr=241 dcpr=242 dapr=243 data=244 in\n";

fn passes(scenario: &str) {
    run(scenario).with_code(0);
    st9(&["test", "-"], scenario).with_code(0);
}

fn write(folder: &Path, name: &str, text: &str) {
    let file = folder.join(name);
    fs::create_dir_all(file.parent().expect("a folder")).expect("the folder is made");
    fs::write(file, text).expect("a file");
}

/// The last line of what is printed.
fn last(ran: &Ran) -> &str {
    ran.out.lines().last().unwrap_or("")
}

/// The cases of `cases/`: all met, no warning, no alarm erased that no expectation tells.
#[test]
fn the_cases_of_the_project_pass() {
    let ran = st9_in(&root(), &["test", "cases"], b"").with_code(0);
    assert_eq!(ran.err, "");
    assert_eq!(ran.out.lines().count(), 1, "{}", ran.out);
    let counts = last(&ran);
    assert!(counts.contains(" passed, 0 failed; ") && counts.contains(" met, 0 unmet"), "{counts}");
    let weak = ["not reached", "without an expectation", "unexpected"];
    assert!(!weak.iter().any(|weak| counts.contains(weak)), "{counts}");
}

#[test]
fn each_case_starts_afresh() {
    passes(
        "image zero\nset CICR 97h\nset R1 5\n\
         case writes\nread R1\nexpect byte 5\nwrite R1 9\nexpect changed R1 5 -> 9\nread R1\nexpect byte 9\n\
         case has the bytes of the start\nread R1\nexpect byte 5\nexpect changed nothing\nread R2\n\
         run\nexpect done 1 step\nwait INTA0\nexpect never\nread R3\nexpect byte 0\n\
         case counts its steps from 0\nset EIPR 01h\nset EIMR 01h\nwait INTA0\n\
         expect acknowledged by arbitration 1 at step 1\nreturn\narbitrate\nexpect acknowledged INTA0\n",
    );
}

/// A call goes to the end of its case, not of the file.
#[test]
fn calls_end_with_their_case() {
    passes(
        "image zero\n\
         case a\nrun\nexpect done 2 steps last reset\nreturn\nreset\n\
         case b\nrun\nexpect done 1 step last returned\nreturn\n\
         case c\nrun\nexpect done 0 steps\n\
         case d\narbitrate\n",
    );
}

#[test]
fn what_a_case_adds() {
    let common = format!("image zero\nset R1 1\nset R2 2\n{CHANNEL}name FAN INTC0\n");
    let second = CHANNEL.replace("page=9", "page=10");
    passes(&format!(
        "{common}\
         case its own image and sets, after the common ones\nimage fill A5h\nset R2 7\n\
         read R1\nexpect byte 1\nexpect R2 7\nexpect R3 A5h\nexpect MARK A5h\n\
         case a record and a name more\n{second}name UART CH1\nset R3 3\n\
         request CH1\nexpect raised UART\nrequest CH0\nexpect raised CH0\nedge FAN falling\nexpect raised FAN\n\
         expect R3 3\nrequest CH2\nexpect refused 4\n\
         case the common ones alone\nrequest CH1\nexpect refused 4\nrequest CH0\nexpect raised\n\
         expect R1 1\nexpect R2 2\nexpect R3 0\nexpect MARK 0\n\
         case an image of another length\nimage zero 1264\narbitrate\nexpect refused 1\n\
         case a list that breaks a rule\n{CHANNEL}arbitrate\nexpect refused 2\n\
         case and again the common ones\narbitrate\nexpect none\n"
    ));
}

/// The common part may have no image where each case has one.
#[test]
fn no_common_image() {
    passes(
        "set R1 1\ncase a\nimage zero\nread R1\nexpect byte 1\nexpect R2 0\n\
         case b\nimage fill 3\nread R1\nexpect byte 1\nexpect R2 3\n",
    );
    let ran = run("case a\nimage zero\nread R1\ncase b\nread R1\n").with_code(2);
    assert_eq!(ran.out, "");
    assert!(ran.err.starts_with("-:") && ran.err.contains("image"), "{}", ran.err);
}

#[test]
fn bad_files_with_cases() {
    let rows = [
        ("image zero\nread R1\ncase a\nread R1\n", 3),
        ("image zero\nrun\ncase a\nread R1\n", 3),
        ("image zero\nread R1\nexpect byte 0\ncase a\n", 4),
        ("image zero\ncase a\nread R1\ncase\nread R1\n", 4),
        ("image zero\ncase a\nread R1\ncase b\nexpect byte 0\n", 5),
        ("image zero\ncase a\nread R1\nset R1 1\n", 4),
        ("image zero\ncase a\nread R1\nname FAN INTC0\n", 4),
        ("image zero\ncase a\nname FAN INTC0\nedge FAN 0\ncase b\nedge FAN 0\n", 6),
        ("image zero\ncase a\nimage zero\nimage zero\nread R1\n", 4),
        ("image zero\nname FAN INTC0\ncase a\nname FAN INTB0\nread R1\n", 4),
        ("image zero\nname FAN INTC0\ncase a\nread R1\nexpect acknowledged PUMP\n", 5),
    ];
    for (scenario, line) in rows {
        for command in [&["run", "-"][..], &["test", "-"], &["wait", "-"]] {
            let ran = st9(command, scenario).with_code(2);
            let start = format!("-:{line}: ");
            assert!(ran.err.starts_with(&start), "{scenario}{}", ran.err);
            assert!(ran.err.contains("expected"), "{}", ran.err);
        }
        assert_eq!(run(scenario).out, "");
    }
}

const REFUSALS: &str = "\
image zero
case goes on
read R256
expect refused 3
write R1 1
wait 99
expect refused 4
read R1
expect byte 1
case ends
write R1 1
read R256
read R1
expect byte 7
run
expect R1 7
case ends at a call
wait 99
read R1
expect byte 7
case is run all the same
read R1
expect byte 0
";

/// With its `expect refused N` a refused statement is passed over; another one ends the case, not the file.
#[test]
fn refusals_in_cases() {
    let results = of_type(&st9(&["run", "-", "--json"], REFUSALS).with_code(1).out, "result");
    let rows: Vec<_> = results.iter().map(row).collect();
    let expected = [
        ("done", 2, 3, 0, 0),
        ("refused", 1, 0, 0, 2),
        ("refused", 0, 0, 0, 1),
        ("done", 1, 1, 0, 0),
    ];
    assert_eq!(rows, expected);
    assert_eq!((results[1].number("step"), results[1].number("line")), (1, 12));
    assert_eq!((results[2].get("step"), results[2].number("line")), (&Value::Null, 18));
    // The refused step is one; a call is none.
    assert_eq!(results[0].number("refused_as_expected"), 1);
    let ran = run(REFUSALS).with_code(1);
    for words in [
        "done: 2 steps, 1 refused as expected\nexpectations: 3 met\n",
        "expectations: 0 met, 2 not reached\n",
        "expectations: 0 met, 1 not reached\n",
        "done: 1 step\nexpectations: 1 met\n",
    ] {
        assert!(ran.out.contains(words), "{words}: {}", ran.out);
    }
}

#[test]
fn refusals_in_tests() {
    let ran = st9(&["test", "-"], REFUSALS).with_code(3);
    let counts = "4 cases: 2 passed, 2 failed; 7 expectations: 4 met, 0 unmet, 3 not reached";
    assert_eq!(last(&ran), counts);
    for words in ["-:10: case ends: failed", "-:17: case ends at a call: failed", "refused with 3"]
    {
        assert!(ran.out.contains(words), "{words}: {}", ran.out);
    }
    let passed = ["case goes on", "case is run all the same"];
    assert!(passed.iter().all(|title| !ran.out.contains(title)), "{}", ran.out);
}

fn row(result: &Value) -> (&str, i64, i64, i64, i64) {
    let [steps, met, unmet, rest] =
        ["steps", "met", "unmet", "not_reached"].map(|name| result.number(name));
    (result.text("result"), steps, met, unmet, rest)
}

/// `expect refused N` may stand after other expectations of the step.
#[test]
fn the_refusal_may_be_expected_last() {
    passes(
        "image zero\nread R256\nexpect changed nothing\nexpect refused 3\nread R1\nexpect byte 0\n",
    );
    let scenario =
        "image zero\nread R256\nexpect byte 0\nexpect refused 3\nread R1\nexpect byte 0\n";
    assert!(run(scenario).with_code(3).out.contains("expectations: 2 met, 1 unmet"));
}

/// 2 for a bad file, else 1 for a refusal without its `expect`, else 3, else 0; with `test` a refusal is a failure.
#[test]
fn order_of_the_exit_codes() {
    let good = "case good\nedge INTB0 falling\nexpect raised\n";
    let unmet = "case unmet\nread R1\nexpect byte 1\n";
    let refused = "case refused\nread R256\n";
    let erased = "case erased\nedge INTB0 falling\nwrite EIPR 0\n";
    let bad = "case bad\nnonsense\n";
    let rows: [(&[&str], i32, i32); 12] = [
        (&[good], 0, 0),
        (&[good, unmet], 3, 3),
        (&[unmet, good], 3, 3),
        (&[refused, good], 1, 3),
        (&[good, refused], 1, 3),
        (&[unmet, refused], 1, 3),
        (&[refused, unmet], 1, 3),
        (&[erased, good], 3, 3),
        (&[good, erased, refused], 1, 3),
        (&[refused, bad], 2, 2),
        (&[bad, unmet], 2, 2),
        (&[good, bad], 2, 2),
    ];
    for (cases, ran, tested) in rows {
        let scenario = format!("image zero\n{}", cases.concat());
        for more in [&[][..], &["--json"]] {
            st9(&[&["run", "-", "--fail-on", "erased"], more].concat(), &scenario).with_code(ran);
            st9(&[&["test", "-", "--fail-on", "erased"], more].concat(), &scenario)
                .with_code(tested);
        }
        let quiet = st9(&["run", "-", "--fail-on=erased", "--quiet"], &scenario).with_code(ran);
        assert_eq!(ran == 2, quiet.out.is_empty());
    }
    // What is not forbidden does not count.
    st9(&["run", "-"], &format!("image zero\n{erased}")).with_code(0);
    st9(&["test", "-"], &format!("image zero\n{erased}")).with_code(0);
}

/// The run goes on to its end after an expectation that is not met.
#[test]
fn an_unmet_expectation_does_not_end_the_case() {
    let scenario = "image zero\nread R1\nexpect byte 1\nwrite R1 4\nexpect erased INTB0\nread R1\nexpect byte 4\n";
    let ran = run(scenario).with_code(3);
    assert!(ran.out.contains("changed  R1  00h -> 04h"), "{}", ran.out);
    assert!(ran.out.contains("done: 3 steps"), "{}", ran.out);
    assert!(ran.out.ends_with("expectations: 1 met, 2 unmet\n"), "{}", ran.out);
    let wrong: Vec<_> = ran.out.lines().filter(|line| line.contains(": expected ")).collect();
    assert_eq!(
        wrong,
        ["-:3: expected byte 1; came byte 00h", "-:5: expected erased INTB0; came written"]
    );
}

const GOOD: &str =
    "image zero\ncase one\nread R1\nexpect byte 0\ncase two\nread R1\nexpect byte 0\nexpect R2 0\n";
const ALONE: &str = "image zero\nread R1\nexpect byte 0\n";
const UNMET: &str =
    "image zero\ncase the first\nread R1\nexpect byte 1\ncase the second\nread R1\n";

/// `good` has four cases in three folders; `other` has files that are none of the language.
fn tree(name: &str) -> std::path::PathBuf {
    let folder = folder(name);
    write(&folder, "good/a.st9", GOOD);
    write(&folder, "good/sub/b.st9", ALONE);
    write(&folder, "good/sub/deep er/c.st9", ALONE);
    for none in ["good/notes.txt", "good/sub/x.st9.bak", "good/st9", "other/readme.md"] {
        write(&folder, none, "nonsense\n");
    }
    write(&folder, "unmet.st9", UNMET);
    write(&folder, "bad.st9", "image zero\nnonsense\n");
    write(&folder, "scenario.txt", ALONE);
    fs::create_dir(folder.join("empty")).expect("a folder");
    folder
}

#[test]
fn tests_of_files_and_folders() {
    let folder = tree("tests");
    let four = "4 cases: 4 passed, 0 failed; 5 expectations: 5 met, 0 unmet";
    let rows: [(&[&str], i32, &str); 7] = [
        (&["good"], 0, four),
        (&["good/"], 0, four),
        (&["good/a.st9", "good/sub"], 0, four),
        (&["good/sub/b.st9"], 0, "1 case: 1 passed, 0 failed; 1 expectation: 1 met, 0 unmet"),
        // A file that is named is followed whatever its name.
        (&["scenario.txt"], 0, "1 case: 1 passed, 0 failed; 1 expectation: 1 met, 0 unmet"),
        (
            &["unmet.st9"],
            3,
            "2 cases: 1 passed, 1 failed; 1 expectation: 0 met, 1 unmet; 1 passed without an expectation",
        ),
        (
            &["good", "unmet.st9"],
            3,
            "6 cases: 5 passed, 1 failed; 6 expectations: 5 met, 1 unmet; 1 passed without an expectation",
        ),
    ];
    for (files, code, counts) in rows {
        let ran = st9_in(&folder, &[&["test"], files].concat(), b"").with_code(code);
        assert_eq!(last(&ran), counts, "{files:?}");
        assert_eq!(ran.err, "");
        assert_eq!(ran.out.lines().count() == 1, code == 0, "{}", ran.out);
    }
    let ran = st9_in(&folder, &["test", "unmet.st9"], b"");
    let failed = "unmet.st9:2: case the first: failed\n  \
                  unmet.st9:4: after read R1 (step 0, line 3): expected byte 1; came byte 00h\n";
    assert!(ran.out.starts_with(failed), "{}", ran.out);
}

/// A bad file is told on standard error, the others are followed, and the exit code is 2.
#[test]
fn a_bad_file_among_good_ones() {
    let folder = tree("tests-bad");
    let counts = "4 cases: 4 passed, 0 failed; 5 expectations: 5 met, 0 unmet";
    for (files, start) in [
        (["good", "bad.st9"], "bad.st9:2: 'nonsense': expected "),
        (["bad.st9", "good"], "bad.st9:2: 'nonsense': expected "),
        (["good", "missing.st9"], "st9: missing.st9: "),
    ] {
        let ran = st9_in(&folder, &[&["test"], &files[..]].concat(), b"").with_code(2);
        assert!(ran.err.starts_with(start), "{}", ran.err);
        assert!(last(&ran).starts_with(&format!("{counts}; 1 bad file")), "{}", ran.out);
        let ran = st9_in(&folder, &[&["test", "--json"], &files[..]].concat(), b"").with_code(2);
        let end = objects(&ran.out).pop().expect("a result");
        assert_eq!((end.text("result"), end.number("bad_files")), ("bad file", 1));
        assert_eq!((end.number("cases"), end.number("passed")), (4, 4));
    }
    let ran = st9_in(&folder, &["test", "."], b"").with_code(2);
    assert!(ran.err.contains("bad.st9:2: 'nonsense': expected "), "{}", ran.err);
    assert!(ran.out.contains("unmet.st9:4: "), "{}", ran.out);
}

/// One is one, in the counts as everywhere.
#[test]
fn counts_of_bad_files() {
    let folder = tree("tests-counts");
    for (files, words) in
        [(&["bad.st9"][..], "; 1 bad file"), (&["bad.st9", "none"], "; 2 bad files")]
    {
        let ran = st9_in(&folder, &[&["test"], files].concat(), b"").with_code(2);
        assert!(last(&ran).ends_with(words), "{}", ran.out);
    }
}

/// A test of nothing is no success.
#[test]
fn nothing_to_test() {
    let folder = tree("tests-none");
    for files in [&["empty"][..], &["other"], &["good", "empty"], &["empty", "good"]] {
        let ran = st9_in(&folder, &[&["test"], files].concat(), b"").with_code(2);
        let name = files.iter().find(|file| **file != "good").expect("a folder");
        assert!(ran.err.contains(&format!("'{name}'")) && ran.err.contains(".st9"), "{}", ran.err);
    }
    let ran = st9_in(&folder, &["test"], b"").with_code(2);
    assert!(ran.err.contains("expected"), "{}", ran.err);
}

/// Two good files, one that is not met, and one with a case that is refused and one that erases an alarm.
fn tested(name: &str) -> Ran {
    let folder = tree(name);
    let refused = "image zero\ncase refused\nread R1\nread R256\nread R1\nexpect byte 0\n";
    let erased = "case erased\nset EIPR 14h\nwrite EIPR 4\nexpect erased 10h\n";
    write(&folder, "good/sub/d.st9", &format!("{refused}{erased}"));
    let arguments = ["test", "good", "unmet.st9", "--json", "--fail-on", "erased"];
    st9_in(&folder, &arguments, b"").with_code(3)
}

#[test]
fn objects_of_tested_cases() {
    let cases = of_type(&tested("tests-json-cases").out, "case");
    let names = cases.iter().map(|case| (case.text("file"), case.number("line")));
    let expected = [
        ("good/a.st9", 2),
        ("good/a.st9", 5),
        ("good/sub/b.st9", 1),
        ("good/sub/d.st9", 2),
        ("good/sub/d.st9", 7),
        ("good/sub/deep er/c.st9", 1),
        ("unmet.st9", 2),
        ("unmet.st9", 5),
    ];
    assert_eq!(sorted(names.collect()), expected);
    let case = |title: &str| {
        cases.iter().find(|case| case.text("case") == title).expect("the case").clone()
    };
    let refused = case("refused");
    assert_eq!((refused.number("refusal"), refused.number("at")), (3, 4));
    assert!(refused.has("meaning"));
    let erased = case("erased");
    assert_eq!(erased.list("failed_on"), [Value::Text("erased".to_string())]);
    let counts = |case: &Value| {
        let numbers = ["steps", "met", "unmet", "not_reached"].map(|name| case.number(name));
        (case.text("result").to_string(), numbers)
    };
    assert_eq!(counts(&refused), ("failed".to_string(), [1, 0, 0, 1]));
    assert_eq!(counts(&erased), ("failed".to_string(), [1, 1, 0, 0]));
    assert_eq!(counts(&case("two")), ("passed".to_string(), [1, 2, 0, 0]));
    assert_eq!(counts(&case("the first")), ("failed".to_string(), [1, 0, 1, 0]));
}

#[test]
fn objects_of_tests() {
    let ran = tested("tests-json");
    let unmet = of_type(&ran.out, "expectation");
    assert_eq!(unmet.len(), 1);
    assert_eq!((unmet[0].text("file"), unmet[0].number("line")), ("unmet.st9", 4));
    assert_eq!((unmet[0].text("came"), unmet[0].truth("met")), ("byte 00h", false));
    let end = objects(&ran.out).pop().expect("a result");
    assert_eq!((end.text("type"), end.text("result")), ("result", "failed"));
    let counts = [
        ("cases", 8),
        ("passed", 5),
        ("failed", 3),
        ("without", 1),
        ("met", 6),
        ("unmet", 1),
        ("not_reached", 1),
        ("erased", 1),
        ("bad_files", 0),
    ];
    for (name, count) in counts {
        assert_eq!(end.number(name), count, "{name}");
    }
}

fn sorted<T: Ord>(mut rows: Vec<T>) -> Vec<T> {
    rows.sort();
    rows
}

/// What the objects of a test count the words do, too: an alarm that a passed case erased among it.
#[test]
fn tests_tell_of_erased_alarms() {
    let ran = st9_in(&root(), &["test", "examples/march.st9", "--json"], b"").with_code(0);
    assert_eq!(objects(&ran.out).pop().expect("a result").number("erased"), 2);
    let ran = st9_in(&root(), &["test", "examples/march.st9"], b"").with_code(0);
    assert!(last(&ran).contains("erased"), "{}", ran.out);
}

/// The examples check themselves; the reviewer's first question is one of them.
#[test]
fn examples_pass() {
    let ran = st9_in(&root(), &["test", "examples"], b"").with_code(0);
    assert!(last(&ran).contains(" 0 failed"), "{}", ran.out);
    let ran = st9_in(&root(), &["test", "examples/reviewer.st9"], b"").with_code(0);
    assert!(!last(&ran).contains("without"), "{}", ran.out);
    let text = fs::read_to_string(root().join("examples/reviewer.st9")).expect("the example");
    for asked in ["wait FAN", "bound FAN", "expect acknowledged by arbitration"] {
        assert!(text.contains(asked), "{asked}");
    }
}

const TITLED: &str =
    "image zero\nset EIMR FFh\ncase one, of two\nedge INTB0 falling\nexpect raised\n\
                      case the other \"two\"\nread R1\nexpect byte 1\n";

/// Each case has its title, its steps and its end; quiet the same without steps.
#[test]
fn runs_with_cases() {
    let whole = run(TITLED).with_code(3).out;
    let expected = "case one, of two\n0  edge INTB0 falling    raised INTB0\n\
        changed  EIPR R243 page 0  00h -> 04h  INTB0 0 -> 1\n\
        account  INTB0  raised 1, still pending\ndone: 1 step\nexpectations: 1 met\n\n\
        case the other \"two\"\n0  read R1               byte 00h\n-:8: expected byte 1; came byte 00h\n\
        no register changed\n";
    assert!(whole.starts_with(expected), "{whole}");
    let end = "done: 1 step\nexpectations: 0 met, 1 unmet\n\n\
        2 cases: 1 passed, 1 failed; 2 expectations: 1 met, 1 unmet\n";
    assert!(whole.ends_with(end), "{whole}");
    let quiet = st9(&["run", "-", "--quiet"], TITLED).with_code(3).out;
    let steps = |line: &&str| !line.starts_with("0  ");
    let without: Vec<_> = whole.lines().filter(steps).collect();
    assert_eq!(quiet.lines().collect::<Vec<_>>(), without);
}

#[test]
fn objects_of_runs_with_cases() {
    let kinds = |more: &[&str]| -> Vec<String> {
        let out = st9(&[&["run", "-", "--json"], more].concat(), TITLED).with_code(3).out;
        objects(&out).iter().map(|object| object.text("type").to_string()).collect()
    };
    let whole = [
        "case",
        "step",
        "expectation",
        "change",
        "account",
        "result",
        "case",
        "step",
        "expectation",
        "result",
        "total",
    ];
    assert_eq!(kinds(&[]), whole);
    let quiet = ["case", "change", "account", "result", "case", "expectation", "result", "total"];
    assert_eq!(kinds(&["--quiet"]), quiet);
    let out = st9(&["run", "-", "--json"], TITLED).out;
    let cases = of_type(&out, "case");
    assert_eq!((cases[0].number("line"), cases[0].text("case")), (3, "one, of two"));
    assert_eq!((cases[1].number("line"), cases[1].text("case")), (6, "the other \"two\""));
    // A file without cases has no such object.
    assert!(of_type(&st9(&["run", "-", "--json"], ALONE).with_code(0).out, "case").is_empty());
}

/// An image is that of one case.
#[test]
fn saves_of_several_cases() {
    let folder = folder("save-cases");
    write(&folder, "a.st9", GOOD);
    let ran = st9_in(&folder, &["run", "a.st9", "--save", "end.bin"], b"").with_code(2);
    assert!(ran.err.contains("--save"), "{}", ran.err);
    assert_eq!(ran.out, "");
    assert!(!folder.join("end.bin").exists());
    write(&folder, "b.st9", "image zero\ncase one\nwrite R1 1\n");
    st9_in(&folder, &["run", "b.st9", "--save", "end.bin"], b"").with_code(0);
    assert_eq!(fs::read(folder.join("end.bin")).expect("the end")[1], 1);
}
