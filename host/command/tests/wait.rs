//! The wait report beside the bound: each premise that fails, and the bound, of demand 3 and of the handlers' claim.

mod support;

use support::st9;

/// INTB0 pending, unmasked, at level 2 under CPL 7.
const START: &str =
    "image zero\nset CICR 97h\nset EIPR 04h\nset EIMR 04h\nset EIPLR E7h\nset EIVR 46h\n";

const RECORD: &str = "channel page=9 idcr=240 ivr=241 dcpr=242 dapr=243 data=244 in\n";

fn assert_report(scenario: &str, waited: &str, bound: &str) {
    let ran = st9(&["wait", "-", "--source", "INTB0"], scenario).with_code(0);
    let first = scenario.lines().position(|line| line == "arbitrate").unwrap_or_default() + 1;
    let waited = waited.replace("line N", &format!("line {first}"));
    let has = scenario.lines().filter(|line| *line == "arbitrate").count();
    let bound = bound.replace("has N", &length(has, bound));
    let expected = format!("wait for INTB0 (source 2): {waited}\nbound  {bound}\n");
    assert_eq!(unfolded(&ran.out), expected, "{scenario}");
    assert_eq!(ran.err, "");
}

/// How many arbitrations a list has, and whether these are fewer than the bound.
fn length(has: usize, bound: &str) -> String {
    if has == 0 {
        return "has no arbitration".to_string();
    }
    let by = bound.strip_prefix("by arbitration ").and_then(|rest| rest.split(' ').next());
    let only = if by.is_some_and(|by| has < by.parse().expect("a number")) { "only " } else { "" };
    format!("has {only}{has} arbitration{}", if has == 1 { "" } else { "s" })
}

/// What stands below the line of a bound, in that line.
fn unfolded(out: &str) -> String {
    out.replace("\n       ", " ")
}

const FIRST: &str = "acknowledged by arbitration 1 at step 0 (line N)";
const NEVER: &str = "not acknowledged, the list ended after 1 arbitration";

#[test]
fn premises_of_the_start() {
    let dma = format!("set R240.p9 10h\n{RECORD}");
    let cases = [
        ("set CICR 9Fh\n", FIRST, "nested mode (IAM = 1)"),
        (dma.as_str(), FIRST, "a channel has DMA enabled (DM = 1)"),
        ("set CICR B7h\n", FIRST, "top level enabled (TLNM or TLI is 1)"),
        ("set NICR 80h\n", FIRST, "top level enabled (TLNM or TLI is 1)"),
        ("set MARK 2\n", NEVER, "top level in service (the mark is set)"),
        ("set EIPR FBh\n", NEVER, "the source is not pending"),
        ("set EIMR FBh\n", NEVER, "the source is masked"),
        ("set CICR 92h\n", NEVER, "the source's level is not above the current one"),
    ];
    for (set, waited, premise) in cases {
        let scenario = format!("{START}{set}arbitrate\n");
        assert_report(&scenario, waited, &format!("none: {premise}"));
    }
}

/// Steps that neither claim speaks of.
#[test]
fn premises_of_the_steps() {
    let beside = |step: &str| format!("(the handlers' claim; demand 3 does not speak of {step})");
    let cases = [
        ("read CICR\nreset\narbitrate\n", "a reset at step 1 (line 8: reset)", &*beside("step 0")),
        (
            "reset\narbitrate\n",
            "a step that is no trigger, arbitration or return at step 0 (line 7: reset)",
            "",
        ),
        (
            "write EIMR 00h\narbitrate\n",
            "the write at step 0 (line 7: write EIMR 00h) changes a source's mask",
            &beside("step 0"),
        ),
        (
            "read CICR\nwrite EIMR 00h\narbitrate\n",
            "the write at step 1 (line 8: write EIMR 00h) changes a source's mask",
            &beside("step 0"),
        ),
        (
            "write CICR 87h\narbitrate\n",
            "an arbitration with interrupts disabled (IEN = 0) at step 1 (line 8: arbitrate)",
            &beside("step 0"),
        ),
    ];
    for (steps, premise, beside) in cases {
        let scenario = format!("{START}{steps}");
        let bound = format!("none: {premise} {beside}");
        let ran = st9(&["wait", "-", "--source", "INTB0"], &scenario).with_code(0);
        let out = unfolded(&ran.out);
        let line = out.lines().nth(1);
        assert_eq!(line, Some(&*format!("bound  {}", bound.trim_end())), "{scenario}");
    }
    let disabled = format!("{}arbitrate\n", START.replace("97h", "87h"));
    let premise = "an arbitration with interrupts disabled (IEN = 0) at step 0 (line 7: arbitrate)";
    assert_report(&disabled, NEVER, &format!("none: {premise}"));
}

fn within(outranking: u32, triggers: u32) -> String {
    format!(
        "by arbitration {} at the latest, H {outranking}, E {triggers} \
         (demand 3; the list has N) \
         H: unmasked outranking sources pending at the start E: triggers of such in the list",
        outranking + triggers + 1
    )
}

/// The same by the handlers' claim.
fn within_handlers(outranking: u32, triggers: u32, beside: &str) -> String {
    let counted =
        "E: triggers of such and bits of theirs that writes raise, up to the acknowledgement";
    let demand3 =
        format!("the handlers' claim; the list has N; demand 3 does not speak of {beside}");
    within(outranking, triggers)
        .replace("demand 3; the list has N", &demand3)
        .replace("E: triggers of such in the list", counted)
}

/// INTA0 and INTA1 at levels 0 and 1 outrank INTB0; pin 0 counts with IAOS = 1.
fn outranked() -> String {
    START.replace("E7h", "E4h").replace("EIPR 04h", "EIPR 07h").replace("EIMR 04h", "EIMR 07h")
}

#[test]
fn bounds() {
    assert_report(&format!("{START}arbitrate\n"), FIRST, &within(0, 0));
    assert_report(START, "not acknowledged, the list ended after 0 arbitrations", &within(0, 0));
    let steps = "arbitrate\nedge INTA0 falling\nedge INTA0 falling\nreturn\narbitrate\nreturn\narbitrate\nreturn\narbitrate\n";
    assert_report(
        &format!("{}{steps}", outranked()),
        "acknowledged by arbitration 4 at step 8 (line 15)",
        &within(2, 2),
    );
}

/// Steps that the handlers' claim speaks of and demand 3 does not.
#[test]
fn bounds_by_the_handlers_claim() {
    let cases = [
        ("arbitrate\nread CICR\n", "step 1"),
        ("arbitrate\nreset\n", "step 1"),
        ("arbitrate\narbitrate\n", "step 1 with interrupts disabled"),
        ("arbitrate\narbitrate\nwrite EIPR 00h\n", "step 2"),
    ];
    for (steps, beside) in cases {
        assert_report(&format!("{START}{steps}"), FIRST, &within_handlers(0, 0, beside));
    }
    let steps =
        "arbitrate\nwrite EIPR 07h\nreturn\narbitrate\nreturn\narbitrate\nreturn\narbitrate\n";
    assert_report(
        &format!("{}{steps}", outranked()),
        "acknowledged by arbitration 4 at step 7 (line 14)",
        &within_handlers(2, 1, "step 1"),
    );
}

/// The table of all sources has the claim of each bound.
#[test]
fn the_table_tells_the_claims() {
    let heads = "set EIPR 14h\nset EIMR 14h\n";
    let table = |steps: &str| {
        let ran = st9(&["wait", "-"], &format!("{START}{heads}{steps}")).with_code(0);
        let head = ran.out.lines().next().expect("a head").split_whitespace();
        let words = "source wait bound (if the list has so many arbitrations)";
        assert_eq!(head.collect::<Vec<_>>().join(" "), words);
        ran.out.lines().filter(|line| line.starts_with("INT")).map(String::from).collect::<Vec<_>>()
    };
    let ends = |rows: Vec<String>, ends: [&str; 2]| {
        assert_eq!(rows.len(), 2);
        for (row, end) in rows.iter().zip(ends) {
            assert!(row.ends_with(end), "{row}");
        }
    };
    ends(
        table("arbitrate\nreturn\narbitrate\n"),
        [
            "  by arbitration 1 at the latest, H 0, E 0 (demand 3)",
            "  by arbitration 2 at the latest, H 1, E 0 (demand 3)",
        ],
    );
    ends(
        table("arbitrate\nwrite EIPR 00h\n"),
        [
            "  by arbitration 1 at the latest, H 0, E 0 (the handlers' claim)",
            "  none: the write at step 1 (line 10: write EIPR 00h) erases the source's pending bit (the handlers' claim)",
        ],
    );
}

#[test]
fn sources_by_every_name() {
    let scenario = format!("{START}set R240.p9 29h\n{RECORD}set R241.p9 31h\narbitrate\n");
    let names: [&[&str]; 5] = [&["CH0"], &["ch0"], &["channel 0"], &["channel", "0"], &["8"]];
    for name in names {
        let ran = st9(&[&["wait", "-", "--source"], name].concat(), &scenario).with_code(0);
        let first = ran.out.lines().next();
        assert_eq!(
            first,
            Some(
                "wait for channel 0 (source 8): acknowledged by arbitration 1 at step 0 (line 10)"
            )
        );
    }
    let ran = st9(&["wait", "--source=0x2", "-"], &scenario).with_code(0);
    assert!(ran.out.starts_with("wait for INTB0 (source 2): not acknowledged"), "{}", ran.out);
}

/// A source that is raised in the list has no bound from its start: the answer says where to ask.
#[test]
fn a_source_that_is_raised_later() {
    let start = START.replace("EIPR 04h", "EIPR 00h");
    let bound = "none: the source is not pending";
    let later = "at the start (`bound INTB0` in the scenario, after it is raised, asks from there)";
    let waited = "acknowledged by arbitration 1 at step 1 (line N)";
    assert_report(
        &format!("{start}edge INTB0 falling\narbitrate\n"),
        waited,
        &format!("{bound} {later}"),
    );
    assert_report(&format!("{start}arbitrate\n"), NEVER, bound);
    let named = format!("{start}name OVERTEMP INTB0\nedge INTB0 falling\narbitrate\n");
    let ran = st9(&["wait", "-", "--source", "INTB0"], &named).with_code(0);
    assert!(ran.out.contains("(`bound OVERTEMP` in the scenario"), "{}", ran.out);
}
