//! Slips that a user would be hurt by and that no other test sees: each test was seen to fail with its slip.

#[path = "support/blocks.rs"]
mod blocks;
#[path = "support/objects.rs"]
mod objects;
mod support;

use blocks::{assert_table, RECORDS, START};
use objects::{of_type, Value};
use support::{folder, st9, st9_in};

/// `acknowledged` alone is met by an interrupt and by the top level (01, Arbitration 2), never by a DMA service.
#[test]
fn acknowledged_alone() {
    let table = "
edge INTB0 falling
arbitrate
+ acknowledged
- none

set CICR C7h
set NICR 80h
arbitrate
+ acknowledged | acknowledged top level vector 04h
- none | acknowledged INTA0";
    assert_table(START, table);
    let table = "
request 0
arbitrate
+ DMA of channel 0
- acknowledged | acknowledged CH0 | acknowledged top level";
    assert_table(RECORDS, table);
}

/// A wait is of one source: another's name is not met by its acknowledgement.
#[test]
fn a_wait_acknowledges_its_own_source() {
    let table = "
wait INTB0
+ acknowledged | acknowledged INTB0
- acknowledged INTC0 | acknowledged INTA0 | acknowledged CH0
edge INTB0 falling
edge INTC0 falling
arbitrate
return
arbitrate";
    assert_table(START, table);
}

/// 01: the answer of the last step, none for an empty list.
#[test]
fn a_run_of_no_steps_has_no_other_last_answer() {
    let table = "
arbitrate
run
+ done 0 steps | done 0 last none
- done 0 last returned | done 0 last reset | done 0 last acknowledged | done 0 last written | done 0 last byte 00h";
    assert_table(START, table);
}

/// C09's record with IEN = 0, so that nothing is acknowledged.
fn c09(idcr: &str, counter: u8) -> String {
    format!(
        "image zero\nset CICR 87h\nset R240.p9 {idcr}\nset R242.p9 11h\nset R16 20\nset R17 {counter}\n\
         channel page=9 idcr=240 ivr=241 dcpr=242 dapr=243 data=244 in\narbitrate\n"
    )
}

/// The end of a block is an alarm of its own: with IM = 1 it leaves IP set (01, DMA won), and that is never acknowledged.
#[test]
fn an_end_of_block_that_is_never_acknowledged() {
    let rows = [("3Ah", 1, 3), ("3Ah", 2, 0), ("32h", 1, 0), ("32h", 2, 0)];
    for (idcr, counter, code) in rows {
        for option in [&["--fail-on", "never"], &["--within", "1"]] {
            let arguments = [&["wait", "-"], &option[..]].concat();
            let ran = st9(&arguments, &c09(idcr, counter)).with_code(code);
            let told = ran.out.lines().any(|line| line.starts_with("failed on"));
            assert_eq!(told, code == 3, "{idcr} {counter}: {}", ran.out);
        }
    }
}

/// The worst of the cases of a file decides about a wait, wherever it stands.
#[test]
fn waits_of_several_cases() {
    let kinds = [
        ("edge INTB0 falling\narbitrate\n", 0),
        ("edge INTB0 falling\n", 3),
        ("edge INTB0 falling\nread R256\n", 1),
    ];
    for (first, one) in kinds {
        for (second, other) in kinds {
            let scenario = format!("{START}case a\n{first}case b\n{second}");
            let code = if one == 1 || other == 1 { 1 } else { one.max(other) };
            st9(&["wait", "-", "--fail-on", "never"], &scenario).with_code(code);
            st9(&["wait", "-", "--within", "1", "--json"], &scenario).with_code(code);
        }
    }
}

/// With both options a source that is never acknowledged is told once, one that comes late beside it.
#[test]
fn never_and_late() {
    let steps = "edge INTB0 falling\nedge INTC0 falling\nedge INTD1 falling\narbitrate\nreturn\narbitrate\n";
    let arguments = ["wait", "-", "--fail-on", "never", "--within", "1"];
    let ran = st9(&arguments, &format!("{START}{steps}")).with_code(3);
    let told: Vec<_> = ran.out.lines().filter(|line| line.starts_with("failed on")).collect();
    // INTD1 is at level 7, not above CPL 7.
    assert_eq!(told, ["failed on never: INTD1", "failed on not within 1: INTC0"]);
}

/// A refused call that ends the case is told with its number, whatever the option.
#[test]
fn quiet_tells_the_call_that_is_refused() {
    for (call, number) in
        [("view 64", 3), ("wait CH0", 4), ("bound CH0", 4), ("handler bound CH0", 4)]
    {
        for option in ["--quiet", "--verbose"] {
            let scenario = format!("{START}{call}\narbitrate\n");
            let ran = st9(&["run", "-", option], &scenario).with_code(1);
            assert!(ran.out.contains(&format!("refused with {number} ")), "{option}: {}", ran.out);
        }
    }
}

/// The steps that are refused as expected, in words and as a member of the result.
#[test]
fn steps_refused_as_expected_are_counted() {
    let refused = "read R256\nexpect refused 3\n";
    for count in 0..3 {
        let scenario = format!("{START}{}arbitrate\n", refused.repeat(count));
        let ran = st9(&["run", "-", "--json"], &scenario).with_code(0);
        let result = of_type(&ran.out, "result").pop().expect("a result");
        assert_eq!(result.number("refused_as_expected"), count as i64);
        assert_eq!(result.number("steps"), 1);
        let ran = st9(&["run", "-"], &scenario).with_code(0);
        let told = format!(", {count} refused as expected\n");
        assert_eq!(ran.out.contains(&told), count != 0, "{}", ran.out);
    }
}

/// Steps, the alarms that they erase, those that no expectation tells with the line, and the exit code.
type Erasing = (&'static str, i64, &'static [(usize, i64)], i32);

/// Three alarms are pending, and line 7 erases some of them: what `test` says of it, in cases that pass and that fail.
#[test]
fn erased_alarms_that_no_expectation_tells() {
    let rows: [Erasing; 9] = [
        ("write EIPR 00h", 3, &[(7, 3)], 0),
        ("write EIPR 04h", 2, &[(7, 2)], 0),
        ("write EIPR 00h; expect EIPR 00h", 3, &[(7, 3)], 0),
        ("write EIPR 00h; expect erased INTB0 INTC0 INTD0", 3, &[], 0),
        ("write EIPR 00h; expect changed EIPR 00h", 3, &[], 0),
        ("write EIPR 10h; expect erased INTB0 INTD0; write EIPR 00h", 3, &[(9, 1)], 0),
        ("write EIPR 00h; expect written", 3, &[(7, 3)], 3),
        ("reset; expect reset", 3, &[(7, 3)], 0),
        ("write EIPR 54h", 0, &[], 0),
    ];
    for (steps, erased, lines, code) in rows {
        let scenario = format!("{START}set EIPR 54h\n{}\n", steps.replace("; ", "\n"));
        let unexpected = lines.iter().map(|(_, alarms)| alarms).sum();
        let ran = st9(&["test", "-", "--json"], &scenario).with_code(code);
        for kind in ["case", "result"] {
            let object = of_type(&ran.out, kind).pop().expect(kind);
            let counts = (object.number("erased"), object.number("erased_unexpected"));
            assert_eq!(counts, (erased, unexpected), "{kind}: {steps}");
        }
        let ran = st9(&["test", "-"], &scenario).with_code(code);
        let told = ran.out.lines().filter(|words| words.ends_with("no expectation tells it"));
        let told: Vec<_> = told.collect();
        assert_eq!(told.len(), lines.len(), "{steps}: {}", ran.out);
        for ((line, alarms), words) in lines.iter().zip(told) {
            let alarms = format!(" erased {alarms} alarm");
            assert!(
                words.starts_with(&format!("-:{line}: ")) && words.contains(&alarms),
                "{words}"
            );
        }
    }
}

/// Only cases that passed are counted as such that expect nothing.
#[test]
fn a_refused_case_has_not_passed_without_an_expectation() {
    let rows = [("arbitrate\n", 0, 1), ("read R256\n", 3, 0), ("arbitrate\nexpect none\n", 0, 0)];
    for (steps, code, without) in rows {
        let ran = st9(&["test", "-", "--json"], &format!("{START}{steps}")).with_code(code);
        let result = of_type(&ran.out, "result").pop().expect("a result");
        assert_eq!(result.number("without"), without, "{steps}");
        let ran = st9(&["test", "-"], &format!("{START}{steps}")).with_code(code);
        assert_eq!(ran.out.contains("without an expectation"), without != 0, "{}", ran.out);
    }
}

/// 01, Arbitration 3: IP = 1 requests DMA if DM = 1, an interrupt if DM = 0 and IM = 1, nothing otherwise.
#[test]
fn what_a_pending_record_waits_for() {
    let rows = [
        ("27h", "channel 0 masked"),
        ("2Fh", "channel 0 at level 7"),
        ("37h", "channel 0 for DMA at level 7"),
        ("3Fh", "channel 0 for DMA at level 7"),
    ];
    for (idcr, words) in rows {
        let ran = st9(&["run", "-"], &c09(idcr, 1)).with_code(0);
        let told = format!("none (pending: {words}; IEN 0, CPL 7)");
        assert!(ran.out.contains(&told), "{told}\n{}", ran.out);
    }
}

/// The object of a write names every pending bit that it erased (01: those that it took from 1 to 0).
#[test]
fn objects_of_writes_name_all_that_is_erased() {
    let rows: [(&str, i64, &[&str]); 4] = [
        ("00h", 0x54, &["INTB0", "INTC0", "INTD0"]),
        ("04h", 0x50, &["INTC0", "INTD0"]),
        ("10h", 0x44, &["INTB0", "INTD0"]),
        ("FFh", 0, &[]),
    ];
    for (byte, erased, names) in rows {
        let scenario = format!("{START}set EIPR 54h\nwrite EIPR {byte}\n");
        let ran = st9(&["run", "-", "--json"], &scenario).with_code(0);
        let step = of_type(&ran.out, "step").pop().expect("a step");
        assert_eq!(step.number("erased"), erased);
        let pending: Vec<_> = names.iter().map(|name| Value::Text(name.to_string())).collect();
        assert_eq!(step.list("pending"), pending, "{byte}");
    }
}

/// Of many steps that erase alarms ten are named, and the others counted.
#[test]
fn many_steps_that_erase_alarms() {
    for (steps, more) in [
        (10, None),
        (12, Some("-: and 2 more such steps")),
        (30, Some("-: and 20 more such steps")),
    ] {
        let scenario = format!("{START}{}", "write EIPR 10h\nwrite EIPR 00h\n".repeat(steps));
        let ran = st9(&["test", "-"], &scenario).with_code(0);
        let named = ran.out.lines().filter(|line| line.ends_with("no expectation tells it"));
        assert_eq!(named.count(), 10);
        assert_eq!(ran.out.lines().find(|line| line.contains(" more ")), more, "{}", ran.out);
        let erased = format!("; {steps} alarms erased, {steps} of them unexpected\n");
        assert!(ran.out.ends_with(&erased), "{}", ran.out);
    }
}

/// A case that a refusal ended tells how many expectations it did not reach.
#[test]
fn expectations_that_are_not_reached() {
    let expects = ["", "expect none\n", "expect none\nexpect EIPR 00h\narbitrate\nexpect none\n"];
    let rows = [None, Some("  1 expectation not reached"), Some("  3 expectations not reached")];
    for (expects, told) in expects.iter().zip(rows) {
        let scenario = format!("{START}read R256\narbitrate\n{expects}");
        let ran = st9(&["test", "-"], &scenario).with_code(3);
        let found =
            ran.out.lines().find(|line| line.ends_with(" not reached") && line.starts_with(' '));
        assert_eq!(found, told, "{}", ran.out);
    }
}

/// Where the refusal of the image is expected of the first step, each step is asked: the next one is refused at its place.
#[test]
fn an_image_that_is_refused_at_every_step() {
    let rows = [
        ("arbitrate\n", "before any step"),
        ("arbitrate\nexpect refused 2\n", "before any step"),
        ("arbitrate\nexpect refused 1\narbitrate\n", "refusal at step 1 (line 4)"),
        ("run\nexpect refused 1\narbitrate\n", "refusal at step 0 (line 4)"),
        ("view 9\nexpect refused 1\narbitrate\n", "before any step"),
    ];
    for (steps, place) in rows {
        let ran = st9(&["run", "-"], &format!("image zero 1264\n{steps}")).with_code(1);
        assert!(ran.out.contains(place), "{steps}{}", ran.out);
    }
}

/// The files of a folder in the order of their names, whatever the order in which they were made.
#[test]
fn files_in_the_order_of_their_names() {
    let folder = folder("files_in_the_order_of_their_names");
    for name in ["b.st9", "c.st9", "a.st9"] {
        std::fs::write(folder.join(name), format!("{START}read R256\n")).expect("a file");
    }
    let ran = st9_in(&folder, &["test", "."], b"").with_code(3);
    let failed = ran.out.lines().filter_map(|line| line.strip_suffix(":1: failed"));
    assert_eq!(failed.collect::<Vec<_>>(), ["./a.st9", "./b.st9", "./c.st9"]);
}

/// A wait of several cases has each case's title before its reports.
#[test]
fn waits_have_the_titles_of_their_cases() {
    let scenario =
        format!("{START}case first\nedge INTB0 falling\narbitrate\ncase second\narbitrate\n");
    let ran = st9(&["wait", "-", "--source", "INTB0"], &scenario).with_code(0);
    let starts = [
        "case first",
        "wait for INTB0",
        "bound  ",
        "       (`bound INTB0`",
        "",
        "case second",
        "wait for INTB0",
        "bound  ",
    ];
    assert_eq!(ran.out.lines().count(), starts.len(), "{}", ran.out);
    assert!(
        ran.out.lines().zip(starts).all(|(line, start)| line.starts_with(start)),
        "{}",
        ran.out
    );
    let ran = st9(&["wait", "-", "--source", "INTB0", "--json"], &scenario).with_code(0);
    let titles = of_type(&ran.out, "case");
    let titles: Vec<_> =
        titles.iter().map(|case| (case.number("line"), case.text("case"))).collect();
    assert_eq!(titles, [(6, "first"), (9, "second")]);
}

/// What a wait failed on names every source, in words and as an object.
#[test]
fn all_sources_that_a_wait_failed_on() {
    let scenario =
        format!("{START}edge INTA1 falling\nedge INTB0 falling\nedge INTC0 falling\narbitrate\n");
    let ran = st9(&["wait", "-", "--fail-on", "never"], &scenario).with_code(3);
    assert!(ran.out.ends_with("failed on never: INTB0, INTC0\n"), "{}", ran.out);
    let ran = st9(&["wait", "-", "--fail-on", "never", "--json"], &scenario).with_code(3);
    let failed = of_type(&ran.out, "failed").pop().expect("what it failed on");
    let names = ["INTB0", "INTC0"].map(|name| Value::Text(name.to_string()));
    assert_eq!((failed.text("on"), failed.list("sources")), ("never", &names[..]));
}

/// A pin has the name of an external source, a request that of a record: another's name is a bad file.
#[test]
fn names_of_the_other_kind_of_source() {
    let names = "name FAN INTC0\nname RX CH0\n";
    let rows = [
        ("edge FAN falling", 0),
        ("edge RX falling", 2),
        ("request RX", 0),
        ("request FAN", 2),
        ("edge CH0 falling", 2),
        ("request INTC0", 2),
    ];
    for (step, code) in rows {
        let scenario = format!("{RECORDS}{names}{step}\n");
        let ran = st9(&["run", "-"], &scenario).with_code(code);
        assert_eq!(ran.err.starts_with("-:21: "), code == 2, "{step}: {}", ran.err);
    }
}

/// A wait report is over the steps alone: a call that is refused before them hides no alarm.
#[test]
fn waits_pass_over_calls() {
    for call in ["view 64", "bound 9", "handler bound 9", "wait CH0", "read R1\nexpect byte 1"] {
        let scenario = format!("{START}{call}\nedge INTB0 falling\n");
        for option in [&["--fail-on", "never"], &["--within", "1"]] {
            let ran = st9(&[&["wait", "-"], &option[..]].concat(), &scenario).with_code(3);
            assert!(ran.out.contains("\nINTB0 "), "{call}: {}", ran.out);
            assert!(ran.out.lines().last().is_some_and(|line| line.ends_with(": INTB0")));
        }
    }
}

/// An expectation that is not met tells nothing of what was erased.
#[test]
fn an_unmet_expectation_tells_no_erased_alarm() {
    let rows = [
        ("erased INTB0", "2 alarms erased, 2 of them unexpected"),
        ("changed nothing", "2 alarms erased, 2 of them unexpected"),
        ("EIPR 00h", "2 alarms erased, 2 of them unexpected"),
        ("erased INTB0, INTC0", "2 alarms erased, all as expected"),
        ("changed EIPR 00h", "2 alarms erased, all as expected"),
    ];
    for (expectation, told) in rows {
        let scenario = format!("{START}set EIPR 14h\nwrite EIPR 00h\nexpect {expectation}\n");
        let out = st9(&["test", "-"], &scenario).out;
        assert!(out.trim_end().ends_with(told), "{expectation}: {out}");
    }
}

/// The last answer of a run is that of a step: no other expectation, and none nested without end.
#[test]
fn last_answers() {
    let nested = format!("done 1 {} none", "last done 1 ".repeat(50_000));
    let rows =
        ["done 1 last done 1", "done 1 last EIPR 00h", "done 1 last changed nothing", &nested];
    for expectation in rows {
        let scenario = format!("{START}run\nexpect {expectation}\narbitrate\n");
        let ran = st9(&["run", "-"], &scenario).with_code(2);
        assert!(ran.err.ends_with(": expected the answer of a step\n"), "{}", ran.err);
    }
}

/// A comment may follow a number without a blank.
#[test]
fn decimal_bytes_before_a_comment() {
    for line in ["set CICR 97# note", "write EIPR 10#x", "write EIPR 10 # x"] {
        let ran = st9(&["run", "-"], &format!("{START}{line}\n")).with_code(0);
        assert!(ran.err.contains(" warning: "), "{line}: {}", ran.err);
    }
}

/// Where a bad list was needed by nothing, the command tells of it all the same.
#[test]
fn a_bad_list_beside_a_view() {
    let scenario =
        format!("{START}channel page=0 idcr=240 ivr=241 dcpr=242 dapr=243 data=244 in\nview 9\n");
    let ran = st9(&["run", "-"], &scenario).with_code(0);
    assert!(ran.out.contains("\nnote: channel 0 (line 6): page 0, where 1 to 63 are allowed\n"));
}
