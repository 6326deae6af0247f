//! `--json`: one object a line, each well formed.

mod support;

use support::{examples, is_json, st9, st9_in};

fn assert_lines(out: &str) {
    assert!(!out.is_empty());
    for line in out.lines() {
        assert!(line.starts_with("{\"type\":\"") && is_json(line), "{line}");
    }
}

#[test]
fn the_checker_itself() {
    for good in ["{}", "[]", "{\"a\":[1,null,true],\"b\":\"\\u000A\"}", "-10", "0", "\"\\\"\""] {
        assert!(is_json(good), "{good}");
    }
    for bad in ["", "{", "{\"a\"}", "[1,]", "01", "\"\n\"", "\"\\x\"", "{}{}", "nul", "{a:1}"] {
        assert!(!is_json(bad), "{bad}");
    }
}

#[test]
fn examples_are_well_formed() {
    for file in examples() {
        let text = std::fs::read_to_string(file).expect("a scenario");
        assert_lines(&st9(&["run", "-", "--json"], &text).with_code(0).out);
        assert_lines(&st9(&["wait", "-", "--json", "--source", "INTC0"], &text).with_code(0).out);
    }
}

#[test]
fn objects_of_a_run() {
    let scenario = "image zero\nset EIPR 06h\nname FAN INTA1\nwrite EIPR 02h\nexpect erased FAN\nread R16\nrequest 3\n";
    let expected = r#"{"type":"step","step":0,"line":4,"statement":"write EIPR 02h","answer":"written","erased":4,"pending":["INTB0"],"register":243,"page":0,"words":"erased 04h: INTB0"}
{"type":"expectation","file":"-","line":5,"statement":"write EIPR 02h (step 0, line 4)","expected":"erased FAN","met":false,"came":"erased 04h: INTB0"}
{"type":"step","step":1,"line":6,"statement":"read R16","answer":"byte","byte":0,"register":16,"page":null,"words":"byte 00h"}
{"type":"step","step":2,"line":7,"statement":"request 3","answer":"refused","refusal":4,"meaning":"pin over 7, direction over 1, record or source number that isn't there","words":"refused with 4 (pin over 7, direction over 1, record or source number that isn't there)"}
{"type":"change","name":"EIPR","register":243,"page":0,"before":6,"after":2,"fields":[{"name":"INTB0","before":1,"after":0}]}
{"type":"account","source":1,"name":"INTA1","called":"FAN","at_start":true,"raised":0,"by_writes":0,"blocks":0,"merged":0,"unselected":0,"acknowledged":0,"served":0,"erased":0,"lines":[],"pending":true}
{"type":"account","source":2,"name":"INTB0","at_start":true,"raised":0,"by_writes":0,"blocks":0,"merged":0,"unselected":0,"acknowledged":0,"served":0,"erased":1,"lines":[4],"pending":false}
{"type":"result","result":"refused","refusal":4,"meaning":"pin over 7, direction over 1, record or source number that isn't there","step":2,"line":7,"steps":2,"refused_as_expected":0,"met":0,"unmet":1,"not_reached":0,"failed_on":[]}
"#;
    assert_eq!(st9(&["run", "--json", "-"], scenario).with_code(1).out, expected);
    let quiet = st9(&["run", "--json", "--quiet", "-"], scenario).with_code(1).out;
    let told = expected
        .lines()
        .filter(|line| !line.contains("R16") && !line.contains("\"step\":0,\"line\""));
    assert_eq!(quiet, told.map(|line| format!("{line}\n")).collect::<String>());
}

#[test]
fn objects_of_waits() {
    let report = |scenario: &str, code| {
        st9(&["wait", "-", "--source", "3", "--json"], scenario).with_code(code).out
    };
    let expected = r#"{"type":"wait","source":3,"name":"INTB1","result":"ended","arbitrations":1}
{"type":"bound","source":3,"name":"INTB1","claim":"demand 3","result":"fails","premise":"the source is not pending","step":null,"line":null}
"#;
    assert_eq!(report("image zero\narbitrate\n", 0), expected);
    let refused = report("image zero\narbitrate\nread R256\n", 1);
    assert!(refused.contains(r#","step":1,"line":3,"arbitrations":1}"#), "{refused}");
    let other = "image zero\nset CICR 97h\nset EIPR 8\nset EIMR 8\nreset\n";
    // The reset erases the source, and the account of the list says so.
    let erased = report(other, 0);
    let lines: Vec<_> = erased.lines().collect();
    for (line, start) in
        [(lines[1], "{\"type\":\"bound\""), (lines[2], "{\"type\":\"handler bound\"")]
    {
        assert!(line.starts_with(start) && line.ends_with(",\"step\":0,\"line\":5}"), "{erased}");
    }
    assert!(lines[3].starts_with("{\"type\":\"account\",\"source\":3,") && lines.len() == 4);
    assert!(lines[3].contains("\"erased\":1,\"lines\":[5],"), "{erased}");
    let acknowledged = report(&other.replace("reset", "return\n# x\narbitrate"), 0);
    let wait = r#"{"type":"wait","source":3,"name":"INTB1","result":"acknowledged","arbitrations":1,"step":1,"line":7}"#;
    assert!(acknowledged.starts_with(wait), "{acknowledged}");
}

/// A bound that both claims were asked for has two objects, each with its own answer and words.
#[test]
fn objects_of_bounds() {
    let head = "image zero\nset CICR 97h\nset EIPR 18h\nset EIMR 18h\nset EIPLR E4h\nreturn\n";
    let steps = "read EIPR\nwrite EIPR 10h\nexpect erased INTB1\narbitrate\n";
    let objects = |asked: &str| -> Vec<String> {
        let ran = st9(&["run", "--json", "-"], &format!("{head}{asked}\n{steps}")).with_code(0);
        assert_lines(&ran.out);
        let bounds = ran.out.lines().filter(|line| line.contains("bound\",\"at\":7"));
        bounds.map(String::from).collect()
    };
    let start = |kind: &str, claim: &str, source: &str| {
        format!(r#"{{"type":"{kind}","at":7,"from":1,{source},"claim":"{claim}","result":"#)
    };
    let (ours, other) = (r#""source":4,"name":"INTC0""#, r#""source":3,"name":"INTB1""#);
    let premise = "a step that is no trigger, arbitration or return";
    let demand3 = format!(
        r#""fails","premise":"{premise}","step":1,"line":8,"words":"none: {premise} at step 1 (line 8: read EIPR)"}}"#
    );
    let within = r#""within","outranking":1,"triggers":0,"bound":2,"arbitrations":1,"words":"by arbitration 2 at the latest, H 1, E 0 (the handlers' claim; the list has only 1 arbitration)"}"#;
    let erased = r#""fails","premise":"a write that erases the source's pending bit","changed":"pending","step":2,"line":9,"words":"none: the write at step 2 (line 9: write EIPR 10h) erases the source's pending bit"}"#;
    let handlers = |source| start("handler bound", "handlers", source);
    let bound = |source| format!("{}{demand3}", start("bound", "demand 3", source));
    assert_eq!(objects("bound INTC0"), [bound(ours), format!("{}{within}", handlers(ours))]);
    assert_eq!(objects("bound INTB1"), [bound(other), format!("{}{erased}", handlers(other))]);
    assert_eq!(objects("handler bound INTC0"), [format!("{}{within}", handlers(ours))]);
}

/// What a write changed that the handlers' claim rests on.
#[test]
fn objects_of_changes() {
    let record = "channel page=9 idcr=240 ivr=241 dcpr=242 dapr=243 data=244 in\n";
    let head = format!("image zero\n{record}set CICR 97h\nset EIPR 10h\nset EIMR 10h\n");
    let rows = [
        ("write EIPR 00h", "pending"),
        ("write CICR 9Fh", "mode"),
        ("write CICR 96h", "current level"),
        ("write NICR 80h", "top level"),
        ("write EIMR 00h", "mask"),
        ("write PPR 24h\nwrite R240 10h", "DMA enable"),
        ("write EIPLR E4h", "level"),
    ];
    for (steps, changed) in rows {
        let scenario = format!("{head}handler bound INTC0\n{steps}\n");
        let ran = st9(&["run", "--json", "-"], &scenario).with_code(0);
        let object = ran.out.lines().next().expect("an object");
        assert!(object.contains(&format!("\"changed\":\"{changed}\"")), "{object}");
        let ran = st9(&["wait", "--json", "-", "--source", "INTC0"], &scenario).with_code(0);
        let object = ran.out.lines().nth(2).expect("an object");
        assert!(object.contains(&format!("\"changed\":\"{changed}\"")), "{object}");
    }
}

#[test]
fn objects_of_show() {
    let mut image = vec![0; st9::IMAGE_LENGTH];
    image[243] = 0x14;
    let out =
        st9_in(&support::root(), &["show", "-", "--json", "--page", "0"], &image).with_code(0).out;
    assert_lines(&out);
    assert_eq!(out.lines().count(), 10 + 16 + 1);
    assert!(out.ends_with("{\"type\":\"result\",\"result\":\"done\"}\n"));
    let refused = st9_in(&support::root(), &["show", "-", "--json"], &image[1..]).with_code(1).out;
    assert_eq!(
        refused,
        "{\"type\":\"note\",\"note\":\"- has 1264 bytes\"}\n\
         {\"type\":\"result\",\"result\":\"refused\",\"refusal\":1,\"meaning\":\"image length is not 1,265\"}\n"
    );
}
