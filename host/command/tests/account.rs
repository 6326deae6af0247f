//! What became of the alarms: the account at the end of `run`, `--fail-on`, and `wait` with its options.

#[path = "support/objects.rs"]
mod objects;
#[path = "support/scenarios.rs"]
mod scenarios;
mod support;

use objects::{object, objects, of_type, Value};
use std::fs;
use support::{folder, root, run, st9, st9_in, Random};

/// Interrupts enabled, everything unmasked at the level of its number, NMI for TLIP, the pin for INTA0.
const START: &str = "image zero\nset CICR 97h\nset EIMR FFh\nset EIPLR E4h\nset EIVR 46h\n";

/// A record with a block of two bytes at level 2, unmasked; PPR selects its page.
const RECORD: &str = "\
set PPR 24h
set R16 20
set R17 2
set R240.p9 1Ah
set R241.p9 34h
set R242.p9 11h
channel page=9 idcr=240 ivr=241 dcpr=242 dapr=243 data=244 in
";

fn account_of(out: &str) -> Vec<String> {
    out.lines().filter(|line| line.starts_with("account")).map(squeezed).collect()
}

/// Without the blanks that align.
fn squeezed(line: &str) -> String {
    line.split_whitespace().collect::<Vec<_>>().join(" ")
}

/// Steps, with `;` for the end of a line, and the lines of the account after them. Lines count from 6 with START.
const ACCOUNTS: &str = "\
edge INTB0 falling => INTB0 raised 1, still pending
edge INTB0 falling; edge INTB0 falling; edge INTB0 falling => INTB0 raised 1, merged 2, still pending
edge INTB0 falling; arbitrate => INTB0 raised 1, acknowledged 1
edge INTB0 falling; edge INTB0 falling; arbitrate; edge INTB0 falling => INTB0 raised 2, merged 1, acknowledged 1, still pending
read EIPR; return => nothing was pending or triggered
edge INTB0 rising; nmi rising; watchdog => INTA0 not selected 1 | INTB0 not selected 1 | TLIP not selected 1
set EIVR 44h; watchdog; edge INTA0 falling => INTA0 raised 1, not selected 1, still pending
set EIPR 04h; read EIPR => INTB0 pending at the start, still pending
set EIPR 04h; arbitrate => INTB0 pending at the start, acknowledged 1
set EIPR 04h; edge INTB0 falling; arbitrate => INTB0 pending at the start, merged 1, acknowledged 1
set EIPR 14h; write EIPR 04h => INTB0 pending at the start, still pending | INTC0 pending at the start, erased 1 (line 7: write EIPR 04h)
set EIPR 04h; write EIPR 00h; edge INTB0 falling; write R243 00h => INTB0 pending at the start, raised 1, erased 2 (lines 7, 9)
set EIPR 04h; write EIPR 04h => INTB0 pending at the start, still pending
set EIPR 04h; write EIPR 10h => INTB0 pending at the start, erased 1 (line 7: write EIPR 10h) | INTC0 raised 1 (1 by writes), still pending
edge INTC0 falling; write EIPR 00h; write EIPR 10h => INTC0 raised 2 (1 by writes), erased 1 (line 7: write EIPR 00h), still pending
set EIPR 81h; edge INTB0 falling; reset => INTA0 pending at the start, erased 1 (line 8: reset) | INTB0 raised 1, erased 1 (line 8: reset) | INTD1 pending at the start, erased 1 (line 8: reset)
nmi falling => TLIP raised 1, still pending
nmi falling; nmi falling; write CICR 17h => TLIP raised 1, merged 1, erased 1 (line 8: write CICR 17h)
nmi falling; write CICR 77h; arbitrate => TLIP raised 1, acknowledged 1
set CICR D7h; write CICR 97h; write CICR 40h => TLIP pending at the start, raised 1 (1 by writes), erased 1 (line 7: write CICR 97h), still pending
set CICR D7h; reset => TLIP pending at the start, erased 1 (line 7: reset)
set EIVR 40h; watchdog; watchdog => INTA0 raised 1, merged 1, still pending | TLIP raised 1, merged 1, still pending
set EIPR 04h; step 0x000100000000F300 => INTB0 pending at the start, erased 1 (line 7: step 0x000100000000F300)
set EIPR 04h; read R256; expect refused 3; write EIPR 00h => INTB0 pending at the start, erased 1 (line 9: write EIPR 00h)
name FAN INTC0; edge FAN falling; arbitrate => INTC0 (FAN) raised 1, acknowledged 1";

/// The same after RECORD: lines count from 13.
const ACCOUNTS_OF_RECORDS: &str = "\
request 0; arbitrate => channel 0 raised 1, served by DMA 1
request 0; request 0; arbitrate => channel 0 raised 1, merged 1, served by DMA 1
set R17 1; request 0; arbitrate => channel 0 raised 1, end of block 1, served by DMA 1, still pending
set R17 1; request 0; arbitrate; arbitrate => channel 0 raised 1, end of block 1, acknowledged 1, served by DMA 1
set R17 1; set R240.p9 12h; request 0; arbitrate => channel 0 raised 1, served by DMA 1
set R17 1; request 0; arbitrate; write R240 0Ah => channel 0 raised 1, end of block 1, served by DMA 1, erased 1 (line 16: write R240 0Ah)
set R240.p9 2Ah; arbitrate => channel 0 pending at the start, acknowledged 1
set R240.p9 2Ah; reset => channel 0 pending at the start, still pending
set R240.p9 2Ah; write R240 0Ah; write R240 2Ah => channel 0 pending at the start, raised 1 (1 by writes), erased 1 (line 14: write R240 0Ah), still pending
set EIPR 10h; write R243 00h => INTC0 pending at the start, still pending
name UART CH0; request UART; arbitrate => channel 0 (UART) raised 1, served by DMA 1";

fn assert_accounts(head: &str, table: &str) {
    for row in table.lines() {
        let (steps, expected) = row.split_once(" => ").expect("steps and an account");
        let expected: Vec<_> =
            expected.split(" | ").map(|line| format!("account {line}")).collect();
        let scenario = format!("{head}{}\n", steps.replace("; ", "\n"));
        for quiet in [&[][..], &["--quiet"], &["--verbose"]] {
            let ran = st9(&[&["run", "-"], quiet].concat(), &scenario).with_code(0);
            assert_eq!(account_of(&ran.out), expected, "{scenario}");
        }
        let out = st9(&["run", "-", "--json"], &scenario).with_code(0).out;
        let told = of_type(&out, "account");
        let words: Vec<_> = told.iter().map(in_words).collect();
        let expected: Vec<_> = expected.iter().map(|line| without_statement(line)).collect();
        match &expected[..] {
            [only] if only.contains("nothing was") => assert!(words.is_empty()),
            _ => assert_eq!(words, expected, "{out}"),
        }
    }
}

/// `(line 7: write EIPR 00h)` as `(lines 7)`: an object has the lines alone.
fn without_statement(line: &str) -> String {
    match (line.find("(line "), line.find(": ")) {
        (Some(start), Some(colon)) => {
            let end = colon + line[colon..].find(')').expect("a parenthesis");
            format!("{}(lines {}{}", &line[..start], &line[start + 6..colon], &line[end..])
        }
        _ => line.to_string(),
    }
}

/// An object of the account in the words of the line.
fn in_words(object: &Value) -> String {
    let mut parts = vec![];
    if object.truth("at_start") {
        parts.push("pending at the start".to_string());
    }
    let names = [
        ("raised", "raised"),
        ("merged", "merged"),
        ("unselected", "not selected"),
        ("blocks", "end of block"),
        ("acknowledged", "acknowledged"),
        ("served", "served by DMA"),
        ("erased", "erased"),
    ];
    for (name, words) in names.iter().filter(|(name, _)| object.number(name) > 0) {
        let mut part = format!("{words} {}", object.number(name));
        if *name == "raised" && object.number("by_writes") > 0 {
            part.push_str(&format!(" ({} by writes)", object.number("by_writes")));
        }
        if *name == "erased" {
            let line = |line: &Value| match line {
                Value::Number(line) => line.to_string(),
                other => panic!("{other:?}"),
            };
            let lines: Vec<_> = object.list("lines").iter().map(line).collect();
            part.push_str(&format!(" (lines {})", lines.join(", ")));
        }
        parts.push(part);
    }
    if object.truth("pending") {
        parts.push("still pending".to_string());
    }
    let called = match object.get("called") {
        Value::Text(name) => format!(" ({name})"),
        _ => String::new(),
    };
    format!("account {}{called} {}", object.text("name"), parts.join(", "))
}

#[test]
fn accounts() {
    assert_accounts(START, ACCOUNTS);
}

#[test]
fn accounts_of_records() {
    assert_accounts(&format!("{START}{RECORD}"), ACCOUNTS_OF_RECORDS);
}

/// Calls work on a copy: what they do there became of nothing.
#[test]
fn calls_are_not_counted() {
    let steps = "edge INTB0 falling\nCALL\nedge INTC0 falling\nwrite EIPR 10h\narbitrate\n";
    let plain = run(&format!("{START}{}", steps.replace("CALL\n", ""))).with_code(0).out;
    for call in ["run", "wait INTC0", "bound INTB0", "handler bound INTB0", "view 0"] {
        let out = run(&format!("{START}{}", steps.replace("CALL", call))).with_code(0).out;
        let without_lines =
            |line: String| line.split(" (line").next().expect("a start").to_string();
        let both = [&plain, &out].map(|out| account_of(out).into_iter().map(without_lines));
        let [expected, came] = both.map(|lines| lines.collect::<Vec<_>>());
        assert_eq!(came, expected, "{call}");
    }
}

const PENDING: &str = "account INTB0 pending at the start, still pending";

/// INTB0 is pending and masked: a run of these statements tells so.
fn assert_pending(statements: &str, code: i32) {
    let scenario = format!("{START}set EIPR 04h\nset EIMR 00h\n{statements}");
    for quiet in [&[][..], &["--quiet"]] {
        let out = st9(&[&["run", "-"], quiet].concat(), &scenario).with_code(code).out;
        assert_eq!(account_of(&out), [PENDING], "{scenario}\n{out}");
    }
}

/// Every run ends with an account, after a refusal too, and each case has its own.
#[test]
fn every_run_has_an_account() {
    assert_pending("", 0);
    assert_pending("read R256\n", 1);
    assert_pending("return\nread R256\narbitrate\n", 1);
    assert_pending("wait 99\n", 1);
    let cases = format!("{START}case a\nset EIPR 04h\nread R1\ncase b\nedge INTC0 falling\n");
    let expected = [PENDING, "account INTC0 raised 1, still pending"];
    assert_eq!(account_of(&run(&cases).with_code(0).out), expected);
}

/// Also a run that is refused before any step: what is pending at the start is still pending.
#[test]
fn a_run_refused_before_any_step_has_an_account() {
    let bad = "channel page=0 idcr=240 ivr=241 dcpr=242 dapr=243 data=244 in\n";
    assert_pending(&format!("{bad}arbitrate\n"), 1);
    assert_pending(bad, 1);
}

/// The March incident does not hide: its account stands under `--quiet`, and `--fail-on erased` exits with 3.
#[test]
fn the_march_incident() {
    let expected = "every register as at the start\n\
        account  INTB0  raised 2, acknowledged 1, erased 1 (line 18: write EIPR 00h)\n\
        account  INTC0  raised 1, erased 1 (line 18: write EIPR 00h)\n\
        done: 7 steps\n";
    let march = ["run", "examples/march.st9"];
    let quiet = st9_in(&root(), &[&march[..], &["--quiet"]].concat(), b"").with_code(0).out;
    assert_eq!(quiet, expected);
    let whole = st9_in(&root(), &march, b"").with_code(0).out;
    assert!(whole.ends_with(expected), "{whole}");
    for more in [&[][..], &["--quiet"], &["--verbose"]] {
        let arguments = [&march[..], &["--fail-on", "erased"], more].concat();
        let out = st9_in(&root(), &arguments, b"").with_code(3).out;
        assert!(out.ends_with(&format!("{expected}failed on erased: INTB0, INTC0\n")), "{out}");
    }
    let arguments = [&march[..], &["--fail-on", "erased", "--quiet", "--json"]].concat();
    let out = st9_in(&root(), &arguments, b"").with_code(3).out;
    assert_eq!(of_type(&out, "account").len(), 2);
    let result = object(out.lines().last().expect("a result"));
    assert_eq!(result.list("failed_on"), [Value::Text("erased".to_string())]);
    st9_in(&root(), &["test", "examples/march.st9", "--fail-on", "erased"], b"").with_code(3);
    st9_in(&root(), &["test", "examples/march.st9"], b"").with_code(0);
}

/// What each run has: erased (e), merged (m), still pending (p).
#[test]
fn what_a_run_fails_on() {
    let rows = [
        ("read R1", ""),
        ("edge INTB0 falling; arbitrate", ""),
        ("edge INTB0 rising", ""),
        ("edge INTB0 falling", "p"),
        ("edge INTB0 falling; edge INTB0 falling; arbitrate", "m"),
        ("edge INTB0 falling; edge INTB0 falling", "mp"),
        ("edge INTB0 falling; write EIPR 00h", "e"),
        ("edge INTB0 falling; reset", "e"),
        ("set EIPR 04h; write EIPR 00h", "e"),
        ("set EIPR 04h; read R1", "p"),
        ("set EIPR 04h; write EIPR 10h", "ep"),
        ("set EIPR 04h; edge INTB0 falling; write EIPR 00h", "em"),
        ("set EIPR 04h; edge INTB0 falling; write EIPR 10h", "emp"),
        ("nmi falling; write CICR 17h", "e"),
        ("nmi falling; nmi falling; write CICR 37h; write CICR 77h; arbitrate", "em"),
        ("nmi falling", "p"),
        ("write EIPR 01h", "p"),
        ("run; edge INTB0 falling; write EIPR 00h; write R1 1", "e"),
    ];
    let letters = [("erased", 'e'), ("merged", 'm'), ("pending", 'p')];
    for (steps, has) in rows {
        let scenario = format!("{START}{}\n", steps.replace("; ", "\n"));
        for wanted in 1..8 {
            let chosen =
                || (0..3).filter(|index| wanted >> index & 1 == 1).map(|index| letters[index]);
            let list: Vec<_> = chosen().map(|(word, _)| word).collect();
            let found: Vec<_> = chosen().filter(|(_, letter)| has.contains(*letter)).collect();
            let code = if found.is_empty() { 0 } else { 3 };
            let option = format!("--fail-on={}", list.join(","));
            let ran = st9(&["run", "-", "--quiet", &option], &scenario).with_code(code);
            let told = ran.out.lines().filter(|line| line.starts_with("failed on ")).count();
            assert_eq!(told, found.len(), "{option}\n{scenario}{}", ran.out);
            for (word, _) in found {
                assert!(ran.out.contains(&format!("failed on {word}: ")), "{}", ran.out);
            }
        }
    }
}

#[test]
fn what_a_run_can_fail_on_for_records() {
    let head = format!("{START}{RECORD}");
    for (steps, on, code) in [
        ("request 0; arbitrate", "erased,merged,pending", 0),
        ("request 0; request 0; arbitrate", "erased,pending", 0),
        ("request 0; request 0; arbitrate", "merged", 3),
        ("request 0; write R240 1Ah", "erased", 3),
        ("request 0; write R240 1Ah", "merged,pending", 0),
        ("set R17 1; request 0; arbitrate", "pending", 3),
        ("set R17 1; request 0; arbitrate; arbitrate", "erased,merged,pending", 0),
    ] {
        let scenario = format!("{head}name UART CH0\n{}\n", steps.replace("; ", "\n"));
        let ran = st9(&["run", "-", "--fail-on", on], &scenario).with_code(code);
        assert_eq!(ran.out.contains(": channel 0 (UART)\n"), code == 3, "{}", ran.out);
    }
}

/// A list is words with commas; the order of the words does not matter, their case neither.
#[test]
fn lists_of_fail_on() {
    let scenario = format!("{START}set EIPR 04h\nwrite EIPR 00h\n");
    for list in ["erased", "ERASED", "pending,erased", "merged,pending,erased"] {
        st9(&["run", "-", "--fail-on", list], &scenario).with_code(3);
    }
    let bad =
        ["never", "erase", "erased;merged", "erased merged", "", ",", "erased,", ",erased", "all"];
    for list in bad {
        for command in ["run", "test"] {
            let ran = st9(&[command, "-", "--fail-on", list], &scenario).with_code(2);
            assert_eq!(ran.out, "", "{list}");
            assert!(ran.err.contains("expected erased, merged, pending"), "{list}: {}", ran.err);
        }
    }
    for list in ["erased", "never,erased", "", "nevers"] {
        let ran =
            st9(&["wait", "-", "--source", "INTB0", "--fail-on", list], &scenario).with_code(2);
        assert!(ran.out.is_empty() && ran.err.contains("expected never"), "{list}: {}", ran.err);
    }
    for more in [&["--fail-on"][..], &["--fail-on", "erased", "--fail-on", "merged"]] {
        st9(&[&["run", "-"], more].concat(), &scenario).with_code(2);
    }
}

/// INTB0 and INTC0 pending: the second waits for the first.
const BOTH: &str =
    "set EIPR 14h\nname FAN INTC0\nreturn\narbitrate\nread R1\nreturn\narbitrate\nreset\n";

#[test]
fn waits_name_step_and_line() {
    let scenario = format!("{START}{BOTH}");
    for source in ["FAN", "fan", "INTC0", "4"] {
        let ran = st9(&["wait", "-", "--source", source], &scenario).with_code(0);
        let first = ran.out.lines().next().expect("a line");
        let words =
            "wait for INTC0 (FAN) (source 4): acknowledged by arbitration 2 at step 4 (line 12)";
        assert_eq!(first, words);
        let out = st9(&["wait", "-", "--json", "--source", source], &scenario).with_code(0).out;
        let wait = &of_type(&out, "wait")[0];
        assert_eq!(
            (wait.number("source"), wait.text("name"), wait.text("called")),
            (4, "INTC0", "FAN")
        );
        assert_eq!((wait.text("result"), wait.number("arbitrations")), ("acknowledged", 2));
        assert_eq!((wait.number("step"), wait.number("line")), (4, 12));
    }
    let ran = st9(&["wait", "-", "--source", "PUMP"], &scenario).with_code(2);
    assert!(ran.err.contains("'PUMP'") && ran.out.is_empty(), "{}", ran.err);
}

/// Without a source: a row for each of them, the records too.
#[test]
fn a_table_of_all_sources() {
    let scenario = format!("{START}{RECORD}{BOTH}");
    let ran = st9(&["wait", "-"], &scenario).with_code(0);
    let rows: Vec<_> = ran.out.lines().collect();
    assert_eq!(rows.len(), 4, "{}", ran.out);
    for (row, name) in rows.iter().zip(["source", "INTB0", "INTC0 (FAN)"]) {
        assert!(row.starts_with(&format!("{name} ")), "{row}");
    }
    assert!(rows[1].contains(" acknowledged by arbitration 1 at step 1 (line 16) "), "{}", rows[1]);
    assert!(rows[2].contains(" acknowledged by arbitration 2 at step 4 (line 19) "), "{}", rows[2]);
    let idle = "nothing came for INTA0, INTA1, INTB1, INTC1, INTD0, INTD1, channel 0";
    assert_eq!(rows[3], idle);
    let out = st9(&["wait", "-", "--json"], &scenario).with_code(0).out;
    let sources = |kind: &str| -> Vec<i64> {
        of_type(&out, kind).iter().map(|object| object.number("source")).collect()
    };
    assert_eq!(sources("wait"), (0..9).collect::<Vec<_>>());
    assert_eq!(sources("bound"), (0..9).collect::<Vec<_>>());
}

/// A wait report ends at the first acknowledgement; what a source lost anywhere in the list stands beside it.
#[test]
fn waits_tell_what_was_lost() {
    let rows = [
        (
            "edge INTB0 falling; write EIPR 00h; arbitrate",
            "raised 1, erased 1 (line 7: write EIPR 00h)",
        ),
        (
            "edge INTB0 falling; arbitrate; edge INTB0 falling; reset",
            "raised 2, acknowledged 1, erased 1 (line 9: reset)",
        ),
        ("edge INTB0 falling; edge INTB0 falling; arbitrate", "raised 1, merged 1, acknowledged 1"),
        ("edge INTB0 rising; arbitrate", "not selected 1"),
        ("edge INTB0 falling; arbitrate", ""),
        ("edge INTB0 falling", ""),
        ("edge INTC0 falling; write EIPR 00h", ""),
    ];
    for (steps, told) in rows {
        let scenario = format!("{START}{}\n", steps.replace("; ", "\n"));
        let out = st9(&["wait", "-", "--source", "INTB0"], &scenario).with_code(0).out;
        let account: Vec<_> = out.lines().filter(|line| line.starts_with("account")).collect();
        let expected = format!("account  INTB0  {told}");
        assert_eq!(
            account,
            if told.is_empty() { vec![] } else { vec![expected.as_str()] },
            "{steps}"
        );
        let table = st9(&["wait", "-"], &scenario).with_code(0).out;
        assert_eq!(table.contains(&format!("{expected}\n")), !told.is_empty(), "{steps}: {table}");
    }
}

/// By which arbitration, and which limit it keeps.
#[test]
fn waits_within_a_number_of_arbitrations() {
    let scenario = format!("{START}{BOTH}");
    let rows = [
        (Some("INTB0"), 1, true),
        (Some("INTB0"), 0, false),
        (Some("INTB0"), 2, true),
        (Some("FAN"), 1, false),
        (Some("FAN"), 2, true),
        (Some("FAN"), 3, true),
        (Some("INTA0"), 4_294_967_295_u32, false),
        (None, 1, false),
        (None, 2, true),
        (None, 3, true),
    ];
    for (source, within, kept) in rows {
        let within = within.to_string();
        let mut arguments = vec!["wait", "-", "--within", &within];
        arguments.extend(source.into_iter().flat_map(|source| ["--source", source]));
        let ran = st9(&arguments, &scenario).with_code(if kept { 0 } else { 3 });
        assert_eq!(ran.out.contains("failed on"), !kept, "{}", ran.out);
        arguments.push("--json");
        let ran = st9(&arguments, &scenario).with_code(if kept { 0 } else { 3 });
        let failed = of_type(&ran.out, "failed");
        assert_eq!(failed.len(), usize::from(!kept));
        // INTB0 keeps every limit from 1 on.
        let is_fan = |name: &Value| matches!(name, Value::Text(name) if name.starts_with("INTC0"));
        let fan = |failed: &Value| failed.list("sources").iter().all(is_fan);
        assert!(failed.iter().all(|failed| source.is_some() || fan(failed)), "{}", ran.out);
    }
    for bad in ["x", "", "-1", "1.5"] {
        let ran = st9(&["wait", "-", "--source", "FAN", "--within", bad], &scenario).with_code(2);
        assert!(ran.out.is_empty() && ran.err.contains("--within"), "{}", ran.err);
    }
}

/// `--fail-on never`: of one source as it is; of all, those that something came for.
#[test]
fn waits_that_fail_on_never() {
    let rows: [(&str, &str, &[&str], i32); 12] = [
        ("", "arbitrate", &["--source", "INTB0"], 3),
        ("", "arbitrate", &[], 0),
        ("", "edge INTC0 rising; arbitrate", &[], 3),
        ("", "edge INTB0 falling; arbitrate", &["--source", "INTB0"], 0),
        ("", "edge INTB0 falling; arbitrate", &["--source", "INTC0"], 3),
        ("", "edge INTB0 falling; arbitrate", &[], 0),
        ("", "edge INTB0 falling; edge INTC0 falling; arbitrate", &[], 3),
        ("", "edge INTC0 falling; write EIPR 00h; arbitrate", &[], 3),
        ("set EIPR 10h", "read R1", &[], 3),
        ("set EIPR 10h\nset EIMR EFh", "arbitrate", &[], 3),
        ("", "write EIPR 10h; write EIMR 00h; arbitrate", &[], 3),
        ("set CICR C7h\nset NICR 80h", "arbitrate", &[], 0),
    ];
    for (set, steps, more, code) in rows {
        let scenario = format!("{START}name FAN INTC0\n{set}\n{}\n", steps.replace("; ", "\n"));
        let arguments = [&["wait", "-", "--fail-on", "never"], more].concat();
        let ran = st9(&arguments, &scenario).with_code(code);
        let told = ran.out.lines().last().is_some_and(|line| line.starts_with("failed on never: "));
        assert_eq!(told, code == 3, "{scenario}{}", ran.out);
        assert!(
            code == 0 || more.contains(&"INTB0") || ran.out.ends_with(": INTC0 (FAN)\n"),
            "{}",
            ran.out
        );
    }
    // A refusal goes before it.
    let refused = format!("{START}edge INTC0 falling\nread R256\n");
    st9(&["wait", "-", "--source", "INTC0", "--fail-on", "never"], &refused).with_code(1);
}

/// The image that the wait report leaves: after the acknowledgement, the end of the list, or the steps before a refused
/// one.
#[test]
fn images_of_waits() {
    let folder = folder("wait-save");
    let rows = [
        ("edge INTB0 falling\narbitrate\nwrite R1 9\n", 0, 0, 0x87),
        ("write R1 7\nedge INTB0 rising\narbitrate\n", 0, 7, 0x97),
        ("write R1 5\nread R256\nwrite R1 6\n", 1, 5, 0x97),
    ];
    for (steps, code, byte, cicr) in rows {
        fs::write(folder.join("a.st9"), format!("{START}{steps}")).expect("a scenario");
        let arguments = ["wait", "a.st9", "--source", "INTB0", "--save", "end.bin"];
        st9_in(&folder, &arguments, b"").with_code(code);
        let end = fs::read(folder.join("end.bin")).expect("the image");
        assert_eq!((end.len(), end[1], end[230]), (1265, byte, cicr), "{steps}");
        fs::remove_file(folder.join("end.bin")).expect("the file is removed");
    }
    // One image is of one source and of one case.
    let ran = st9_in(&folder, &["wait", "a.st9", "--save", "end.bin"], b"").with_code(2);
    assert!(ran.err.contains("--save") && ran.out.is_empty(), "{}", ran.err);
    assert!(!folder.join("end.bin").exists());
}

/// A name that only one of the cases gives is found before anything is printed.
#[test]
fn sources_that_a_case_does_not_name() {
    let scenario = format!("{START}case a\nname FAN INTC0\narbitrate\ncase b\narbitrate\n");
    let ran = st9(&["wait", "-", "--source", "FAN"], &scenario).with_code(2);
    assert!(ran.err.contains("'FAN'"), "{}", ran.err);
    assert_eq!(ran.out, "");
}

const SCENARIOS: usize = 250;

/// Pending at the start, raised and ends of block are what was acknowledged, served, erased or is still pending, for
/// each source. The parts are those of the answers, and the image at the end has the bits that are still pending.
#[test]
fn the_account_balances() {
    let folder = folder("balance");
    let mut random = Random(0x0915_0103);
    let mut erased = 0;
    for _ in 0..SCENARIOS {
        let start = scenarios::start(&mut random);
        let steps = (0..24).map(|_| scenarios::step(&mut random));
        let (text, out) = to_its_end(&folder, start.into_iter().chain(steps).collect());
        let end = fs::read(folder.join("end.bin")).expect("the end");
        let quiet = st9_in(&folder, &["run", "a.st9", "--json", "--quiet"], b"").with_code(0);
        assert_eq!(of_type(&quiet.out, "account"), of_type(&out, "account"));
        for source in 0..10 {
            let account = Account::of(&out, source);
            account.assert_balances(&text);
            account.assert_answers(&out, &text);
            assert_eq!(account.pending, pending(&end, source), "{source} in\n{text}");
            erased += account.erased;
        }
    }
    assert!(erased as usize > SCENARIOS / 2, "{erased}");
}

/// Runs a scenario, with `expect refused N` after each step that is refused: text and output.
fn to_its_end(folder: &std::path::Path, mut lines: Vec<String>) -> (String, String) {
    loop {
        let text = lines.join("\n");
        fs::write(folder.join("a.st9"), &text).expect("a scenario");
        let ran = st9_in(folder, &["run", "a.st9", "--json", "--save", "end.bin"], b"");
        if ran.code == Some(0) {
            return (text, ran.out);
        }
        assert_eq!(ran.code, Some(1), "{}{text}", ran.err);
        let result = object(ran.out.lines().last().expect("a result"));
        let line = result.number("line") as usize;
        lines.insert(line, format!("expect refused {}", result.number("refusal")));
    }
}

/// The pending bit of source 0 to 8, or TLIP as 9.
fn pending(image: &[u8], source: usize) -> i64 {
    let set = |byte: u8, bit: usize| i64::from(byte >> bit & 1);
    match source {
        0..=7 => set(image[243], source),
        8 => set(image[st9::place(9, 240)], 5),
        _ => set(image[230], 6),
    }
}

struct Account {
    source: usize,
    at_start: i64,
    raised: i64,
    by_writes: i64,
    blocks: i64,
    merged: i64,
    acknowledged: i64,
    served: i64,
    erased: i64,
    lines: i64,
    pending: i64,
}

impl Account {
    /// A source without an object has nothing to tell.
    fn of(out: &str, source: usize) -> Account {
        let wanted = if source == 9 { Value::Null } else { Value::Number(source as i64) };
        let found =
            of_type(out, "account").into_iter().find(|object| *object.get("source") == wanted);
        let number = |name: &str| found.as_ref().map_or(0, |object| object.number(name));
        let truth = |name: &str| found.as_ref().map_or(0, |object| i64::from(object.truth(name)));
        Account {
            source,
            at_start: truth("at_start"),
            raised: number("raised"),
            by_writes: number("by_writes"),
            blocks: number("blocks"),
            merged: number("merged"),
            acknowledged: number("acknowledged"),
            served: number("served"),
            erased: number("erased"),
            lines: found.as_ref().map_or(0, |object| object.list("lines").len() as i64),
            pending: truth("pending"),
        }
    }

    fn assert_balances(&self, text: &str) {
        let came = self.at_start + self.raised + self.blocks;
        let went = self.acknowledged + self.served + self.erased + self.pending;
        assert_eq!(came, went, "source {} in\n{text}", self.source);
        assert!(self.by_writes <= self.raised && self.lines == self.erased, "{text}");
    }

    /// The same counts from the answers of the steps; resets tell nothing there.
    fn assert_answers(&self, out: &str, text: &str) {
        let mut tally = Tally::default();
        of_type(out, "step").iter().for_each(|step| tally.add(step, self.source));
        let told = (self.raised - self.by_writes, self.merged, self.acknowledged, self.served);
        let expected = (tally.raised, tally.merged, tally.acknowledged, tally.served);
        assert_eq!(told, expected, "source {} in\n{text}", self.source);
        let more = self.erased - tally.erased;
        assert!((0..=tally.resets).contains(&more), "source {}: {more} in\n{text}", self.source);
    }
}

#[derive(Default)]
struct Tally {
    raised: i64,
    merged: i64,
    acknowledged: i64,
    served: i64,
    erased: i64,
    resets: i64,
}

impl Tally {
    fn add(&mut self, step: &Value, source: usize) {
        let is = |truth: bool| i64::from(truth);
        match step.text("answer") {
            "triggered" => {
                let member = if source == 9 { "tlip" } else { "maskable" };
                if source == 9 || triggered(step.text("statement")) == Some(source) {
                    self.raised += is(step.text(member) == "raised");
                    self.merged += is(step.text(member) == "merged");
                }
            }
            "interrupt" => self.acknowledged += is(step.number("source") == source as i64),
            "top level" => self.acknowledged += is(source == 9),
            "transferred" => self.served += is(step.number("source") == source as i64),
            "written" => {
                let eipr = source < 8 && step.number("erased") >> source & 1 == 1;
                let names = |name: &str| {
                    step.list("pending").iter().any(|text| *text == Value::Text(name.to_string()))
                };
                self.erased += is(eipr);
                self.erased += is(source == 8 && step.list("pending").iter().any(is_of_channel));
                self.erased += is(source == 9 && names("TLIP"));
            }
            "reset" => self.resets += 1,
            _ => {}
        }
    }
}

fn is_of_channel(name: &Value) -> bool {
    matches!(name, Value::Text(name) if name.contains("channel 0"))
}

/// The source of the maskable bit that a trigger selects, where it does.
fn triggered(statement: &str) -> Option<usize> {
    let words: Vec<_> = statement.split(' ').collect();
    let pins = ["INTA0", "INTA1", "INTB0", "INTB1", "INTC0", "INTC1", "INTD0", "INTD1"];
    match words[0] {
        "edge" => pins.iter().position(|pin| *pin == words[1]),
        "watchdog" => Some(0),
        "request" => Some(8),
        "step" => {
            let word = u64::from_str_radix(words[1].trim_start_matches("0x"), 16).expect("a word");
            match word >> 32 & 0xFFFF {
                0 => Some((word >> 8 & 0xFF_FFFF) as usize),
                1 => Some(0),
                3 => Some(8),
                _ => None,
            }
        }
        _ => None,
    }
}

/// Every object has its type first and each member once.
#[test]
fn objects_have_each_member_once() {
    let scenario = format!(
        "{START}{RECORD}name FAN INTC0\nset EIPR 10h\nwait FAN\nexpect acknowledged\nbound FAN\nhandler bound FAN\nrun\nview 0\n\
         wait 99\nexpect refused 4\nrequest 0\narbitrate\nwrite EIPR 00h\nread R256\n"
    );
    for arguments in [
        &["run", "-", "--json", "--verbose"][..],
        &["run", "-", "--json", "--fail-on", "erased"],
        &["wait", "-", "--json"],
        &["wait", "-", "--json", "--source", "FAN", "--within", "0"],
        &["test", "-", "--json"],
    ] {
        let out = st9(arguments, &scenario).out;
        assert!(!out.is_empty());
        for (line, object) in out.lines().zip(objects(&out)) {
            let Value::Object(members) = object else { panic!("{line}") };
            assert_eq!(members[0].0, "type", "{line}");
            for (name, _) in &members {
                let times = members.iter().filter(|(other, _)| other == name).count();
                assert_eq!(times, 1, "{name} in {line}");
            }
        }
    }
}
