//! `expect` after `wait`, `bound`, `handler bound`, `run` and `view`, and refusals before any step.

#[path = "support/blocks.rs"]
mod blocks;
mod support;

use blocks::{assert_table, RECORDS, START};

const WAITS: &str = "\
set EIPR 14h
wait INTC0
+ acknowledged by arbitration 2 at step 2 | acknowledged by arbitration 2 | acknowledged
- acknowledged by arbitration 1 | acknowledged by arbitration 3 | acknowledged by arbitration 2 at step 1
- acknowledged by arbitration 2 at step 3 | acknowledged by arbitration 1 at step 2
- not acknowledged after 2 arbitrations | not acknowledged after 1 arbitration | never | refused 4 | none
- by arbitration 2 at the latest | done 3 steps
arbitrate
return
arbitrate
return

edge INTC0 falling
read EIPR
wait INTC0
+ acknowledged by arbitration 1 at step 3
- acknowledged by arbitration 1 at step 1 | acknowledged by arbitration 1 at step 2
- acknowledged by arbitration 2 at step 3
return
arbitrate

set EIPR 04h
wait INTC0
+ not acknowledged after 2 arbitrations | never
- not acknowledged after 1 arbitration | not acknowledged after 3 arbitrations | acknowledged
- acknowledged by arbitration 2 | acknowledged by arbitration 1 at step 0 | refused 3
arbitrate
return
arbitrate

set EIPR 10h
wait INTC0
+ not acknowledged after 0 arbitrations | never
- not acknowledged after 1 arbitration | acknowledged

set EIPR 04h
wait INTC0
+ not acknowledged after 1 arbitration
- not acknowledged after 0 arbitrations | not acknowledged after 2 arbitrations
arbitrate
return

wait INTC0
+ refused 3 at step 2 after 1 arbitration | refused 3 at step 2 | refused 3
- refused 4 | refused 4 at step 2 | refused 3 at step 1 | refused 3 at step 3 | refused 3 before any step
- refused 3 at step 2 after 2 arbitrations | refused 3 at step 2 after 0 arbitrations | never
- not acknowledged after 1 arbitration | acknowledged
return
arbitrate
read R256
expect refused 3
arbitrate

set EIPR 10h
wait INTC0
+ acknowledged by arbitration 1 at step 0
- refused 3 | refused 3 at step 1
arbitrate
read R256
expect refused 3
";

#[test]
fn waits() {
    assert_table(START, WAITS);
}

/// Document 01: the source number comes after the list and before the steps.
#[test]
fn waits_and_bounds_for_sources_that_are_not_there() {
    for source in ["CH0", "channel 0", "8", "19", "4294967295"] {
        for call in ["wait", "bound", "handler bound"] {
            let block = format!(
                "{call} {source}\n+ refused 4\n+ refused 4 before any step\n- refused 3\n- refused 3 before any step\n- refused 2\n- refused 3 at step 0\n\
                 - never\n- none\n- none: not pending\n- acknowledged\nread R256\nexpect refused 3"
            );
            assert_table(START, &block);
        }
    }
    let wait = "wait CH2\n+ refused 4 | refused 4 before any step\n- refused 4 at step 0\n- refused 4 at step 1\narbitrate";
    assert_table(RECORDS, wait);
}

const BOUNDS: &str = "\
set EIPR 14h
bound INTC0
+ by arbitration 3 at the latest H 1 E 1 | by arbitration 3 at the latest, H 1, E 1
+ by arbitration 3 at the latest (H 1, E 1) | by arbitration 3 at the latest | by arbitration 3 at the latest H 1
+ by arbitration 3 at the latest E 1
- by arbitration 2 at the latest | by arbitration 4 at the latest | by arbitration 2 at the latest H 1 E 1
- by arbitration 3 at the latest H 0 E 1 | by arbitration 3 at the latest H 1 E 0
- by arbitration 3 at the latest H 1 E 2 | by arbitration 3 at the latest H 2 E 0
- by arbitration 3 at the latest H 2 | by arbitration 3 at the latest E 0 | none | none: not pending
- none: other step at step 2 | refused 4 | acknowledged by arbitration 3
arbitrate
edge INTB0 falling
return
arbitrate
return
arbitrate

set EIPR 10h
bound INTC0
+ by arbitration 1 at the latest H 0 E 0
- by arbitration 0 at the latest | by arbitration 1 at the latest H 1 E 0 | by arbitration 1 at the latest H 0 E 1
- none
";

#[test]
fn bounds() {
    assert_table(START, BOUNDS);
}

/// The premises that both claims have, in the order of the help. Each has what makes it the first that fails, for INTC0,
/// which the blocks have pending.
const PREMISES: [(&str, &str, &str); 9] = [
    ("nested mode", "set CICR 9Fh", "arbitrate"),
    ("DMA enabled", "set R240.p10 10h", "arbitrate"),
    ("top level enabled", "set CICR B7h", "arbitrate"),
    ("top level in service", "set MARK 1", "arbitrate"),
    ("not pending", "set EIPR EFh", "arbitrate"),
    ("masked", "set EIMR EFh", "arbitrate"),
    ("level not above", "set CICR 94h", "arbitrate"),
    ("other step at step 2", "set R1 1", "return\nreturn\nreset\nread EIPR"),
    (
        "interrupts disabled at step 2",
        "set CICR 87h",
        "edge INTB0 falling\nedge INTB0 falling\narbitrate\nreturn",
    ),
];

/// What a write may not change, each with such a write.
const CHANGES: [(&str, &str); 7] = [
    ("erased", "write EIPR 04h"),
    ("mode changed", "write CICR 9Fh"),
    ("current level changed", "write CICR 96h"),
    ("top level changed", "write CICR B7h"),
    ("mask changed", "write EIMR FEh"),
    ("DMA enable changed", "write R240 10h"),
    ("level changed", "write EIPLR E5h"),
];

/// INTC0 pending, two records without DMA.
fn without_dma() -> String {
    format!("{RECORDS}set R240.p9 00h\nset R240.p10 00h\nset EIPR 10h\n")
}

#[test]
fn premises_of_bounds() {
    let head = without_dma();
    for (premise, set, steps) in PREMISES {
        let expected = format!("+ none: {premise}\n+ none {premise}\n+ none\n");
        let mut block = format!("{set}\nbound INTC0\n{expected}");
        for (other, ..) in PREMISES {
            if other != premise {
                block.push_str(&format!("- none: {other}\n"));
            }
        }
        for (other, _) in CHANGES {
            block.push_str(&format!("- none: {other}\n- none: {other} at step 2\n"));
        }
        if let Some((kind, _)) = premise.split_once(" at step 2") {
            block.push_str(&format!("- none: {kind} at step 1\n- none: {kind} at step 3\n"));
            block.push_str(&format!("- none: {kind} at step 0\n"));
        }
        block.push_str(
            "- by arbitration 1 at the latest\n- by arbitration 1 at the latest H 0 E 0\n",
        );
        block.push_str(&format!("- refused 4\n- never\n{steps}"));
        assert_table(&head, &block);
        assert_table(&head, &block.replace("bound INTC0", "handler bound INTC0"));
    }
    // Step numbers are those of the case, not of the call.
    let later = "edge INTD0 falling\nread R0\nbound INTC0\n+ none: other step at step 3\n\
                 - none: other step at step 1\n- none: other step at step 2\narbitrate\nread R0";
    assert_table(&head, later);
}

/// After `bound` either claim's premise is met, after `handler bound` its own alone.
#[test]
fn changes_by_writes() {
    for (change, write) in CHANGES {
        let mut own =
            format!("+ none: {change} at step 3 | none: {change} | none {change} | none\n");
        own.push_str(&format!("- none: {change} at step 2 | none: {change} at step 0\n"));
        for (other, _) in CHANGES.iter().filter(|(other, _)| *other != change) {
            own.push_str(&format!("- none: {other} at step 3 | none: {other}\n"));
        }
        own.push_str("- none: other step at step 3 | none: interrupts disabled at step 3\n");
        own.push_str("- by arbitration 1 at the latest | none: masked | none: level not above\n");
        // The write of IDCR goes to page 9, all others to page 0.
        let page = if write.contains("R240") { "24h" } else { "00h" };
        let steps = format!("read CICR\nread CICR\n{write}\narbitrate");
        let block = |call| format!("set PPR {page}\nreturn\n{call} INTC0\n{own}");
        let handlers = format!("{}- none: other step at step 1\n{steps}", block("handler bound"));
        assert_table(&without_dma(), &handlers);
        let both = format!("{}+ none: other step at step 1\n{steps}", block("bound"));
        assert_table(&without_dma(), &both);
    }
}

/// Where demand 3 does not speak of a step and the handlers' claim gives a bound, `bound` has both answers.
const BOUNDS_OF_BOTH_CLAIMS: &str = "\
set EIPR 14h
bound INTC0
+ by arbitration 3 at the latest H 1 E 1 | by arbitration 3 at the latest | none: other step at step 1
+ none: other step
- none | none: other step at step 0 | none: other step at step 2 | by arbitration 2 at the latest
- by arbitration 3 at the latest H 0 E 1 | by arbitration 3 at the latest H 1 E 2 | none: erased at step 1
- none: interrupts disabled at step 1
arbitrate
write EIPR 14h
return
arbitrate
return
arbitrate

set EIPR 14h
handler bound INTC0
+ by arbitration 3 at the latest H 1 E 1 | by arbitration 3 at the latest
- none | none: other step at step 1 | none: other step | by arbitration 2 at the latest
- by arbitration 3 at the latest H 0 E 1 | by arbitration 3 at the latest H 1 E 2
arbitrate
write EIPR 14h
return
arbitrate
return
arbitrate

set EIPR 10h
bound INTC0
+ none: interrupts disabled at step 1 | by arbitration 1 at the latest H 0 E 0
- none | none: interrupts disabled at step 0 | none: other step at step 1
arbitrate
arbitrate

set EIPR 10h
bound INTC0
+ by arbitration 2 at the latest H 0 E 1
- by arbitration 1 at the latest H 0 E 0 | by arbitration 1 at the latest
arbitrate
edge INTB0 falling

set EIPR 10h
handler bound INTC0
+ by arbitration 1 at the latest H 0 E 0
- by arbitration 2 at the latest H 0 E 1 | by arbitration 2 at the latest
arbitrate
edge INTB0 falling
";

#[test]
fn bounds_of_both_claims() {
    assert_table(START, BOUNDS_OF_BOTH_CLAIMS);
}

/// A run has the answer of its last step: of every kind.
const RUNS: &str = "\
set EIPR 04h
run
+ done 3 steps last none | done 3 steps, last: none | done 3 steps
- done 2 steps | done 4 steps | done 2 steps last none | done 3 steps last acknowledged INTB0
- done 3 steps last returned | done 0 steps | refused 3 | refused 3 at step 3 | none | never
arbitrate
return
arbitrate

run
+ done 0 steps
- done 1 step

set EIPR 14h
read EIPR
run
+ done 1 step last byte 14h
- done 2 steps last byte 14h | done 1 step last byte 15h | done 1 step last written
read EIPR

set EIPR 14h
run
+ done 1 step last erased INTB0 | done 1 step last erased 04h
- done 1 step last erased INTC0 | done 1 step last erased INTB0 INTC0 | done 1 step last written
write EIPR 10h

run
+ done 1 step last written
- done 1 step last erased INTA0 | done 1 step last byte 01h
write R1 1

run
+ done 1 step last raised INTB0 | done 1 step last raised
- done 1 step last raised INTC0 | done 1 step last merged | done 1 step last not selected
edge INTB0 falling

set EIPR 10h
run
+ done 1 step last acknowledged INTC0 level 4 vector 48h | done 1 step last acknowledged INTC0
- done 1 step last acknowledged INTC1 | done 1 step last acknowledged INTC0 level 3
- done 1 step last acknowledged INTC0 vector 49h | done 1 step last acknowledged top level | done 1 step last none
arbitrate

set CICR C7h
set NICR 80h
run
+ done 1 step last acknowledged top level vector 04h
- done 1 step last acknowledged INTA0 | done 1 step last none
arbitrate

run
+ done 1 step last returned
- done 1 step last reset
return

run
+ done 1 step last reset
- done 1 step last returned
reset

run
+ refused 3 at step 2 | refused 3
- refused 4 at step 2 | refused 3 at step 1 | refused 3 at step 3 | refused 4 | done 2 steps
- refused 3 before any step | refused 3 at step 2 after 0 arbitrations | refused 3 after 0 arbitrations
- done 2 steps last none
return
arbitrate
read R256
expect refused 3
reset

arbitrate
run
+ refused 7 at step 2
- refused 7 at step 1 | refused 7 at step 0
return
step 0x0006000000000000
expect refused 7
";

const RUNS_OF_RECORDS: &str = "\
set R240.p9 3Ah
set R17 1
run
+ done 1 step last DMA of channel 0 block ended
- done 1 step last DMA of channel 0 | done 1 step last DMA of channel 1 block ended
- done 1 step last acknowledged channel 0
arbitrate
";

#[test]
fn runs() {
    assert_table(START, RUNS);
    assert_table(RECORDS, RUNS_OF_RECORDS);
}

#[test]
fn views() {
    let bytes = |changed: usize| {
        let value = |index: usize| if index == changed { 0xFF } else { index * 3 };
        (0..16).map(|index| format!(" {:02X}h", value(index))).collect::<String>()
    };
    let sets: String =
        (0..16).map(|index| format!("set R{}.p63 {:02X}h\n", 240 + index, index * 3)).collect();
    let head = format!("{START}{sets}");
    let mut block =
        format!("view 63\n+ bytes{}\n+ bytes{}\n", bytes(16), bytes(16).replace(" ", ", "));
    (0..16).for_each(|index| block.push_str(&format!("- bytes{}\n", bytes(index))));
    block.push_str("- refused 3\n- byte 00h\n- done 0 steps\n");
    assert_table(&head, &block);
    // As stored, absent bits too, and whatever PPR selects and the steps that follow do.
    let zero = " 00h".repeat(16);
    let rest = " 35h 11h 00h 5Ah".to_string() + &zero[20..];
    let stored =
        format!("set R240.p9 FFh\nset PPR 0\nview 9\n+ bytes FFh{rest}\n- bytes 3Fh{rest}");
    assert_table(RECORDS, &format!("{stored}\n- bytes{zero}\nwrite PPR 24h\nwrite R240 0\n"));
    for page in ["64", "255", "4294967295"] {
        let block = format!("view {page}\n+ refused 3\n+ refused 3 before any step\n- refused 3 at step 0\n- refused 4\n- refused 1\n- bytes{zero}");
        assert_table(START, &block);
    }
}

/// After `run` and `wait` the bytes are those of the copy; the steps themselves go on from the image.
const BYTES_OF_THE_COPY: &str = "\
set EIPR 14h
wait INTC0
+ EIPR 00h | CICR 87h | CICR IEN=0 | changed EIPR 14h -> 00h, CICR 97h -> 87h | changed CICR 87h EIPR 00h
- EIPR 14h | EIPR 10h | CICR 97h | CICR IEN=1 | changed nothing | changed CICR 87h | changed CICR 87h EIPR 00h R5 1
- R5 1
arbitrate
return
arbitrate
write R5 1

set EIPR 14h
run
+ EIPR 00h | CICR 97h | R5 1 | changed EIPR 14h -> 00h, R5 1
- EIPR 14h | R5 0 | CICR 87h | changed EIPR 00h | changed nothing
arbitrate
return
arbitrate
write R5 1
return

set EIPR 14h
run
+ done 2 steps | EIPR 10h | changed EIPR 10h CICR 87h NICR 80h
- EIPR 14h
write NICR 80h
arbitrate
expect changed EIPR 10h CICR 87h
expect EIPR 10h

run
+ refused 3 at step 1 | R5 1 | changed R5 0 -> 1
- R5 0 | changed nothing | R6 1
write R5 1
write R256 1
expect refused 3
write R6 1

wait INTC0
+ refused 3 at step 1 | R5 1 | changed R5 1
- R5 0 | changed nothing | changed R5 1 R6 1
write R5 1
write R256 1
expect refused 3
write R6 1

wait INTC0
+ never | changed EIPR 10h
- changed nothing | EIPR 00h
edge INTC0 falling

run
+ done 0 steps | changed nothing | CICR 97h
- changed CICR 97h | CICR 87h

set EIPR 10h
bound INTC0
+ by arbitration 1 at the latest | EIPR 10h | changed nothing
- EIPR 00h | changed EIPR 00h CICR 87h
arbitrate

view 0
+ EIPR 00h | changed nothing
- EIPR 10h | changed EIPR 10h
edge INTC0 falling
";

#[test]
fn bytes_of_the_copy() {
    assert_table(START, BYTES_OF_THE_COPY);
}

/// The image stays as it was for the step that follows a call.
const CALLS_DO_NOT_CHANGE_THE_IMAGE: &str = "\
set EIPR 10h
wait INTC0
expect EIPR 00h
run
expect EIPR 00h
read EIPR
+ byte 10h | EIPR 10h | changed nothing
- byte 00h | EIPR 00h | changed EIPR 00h
arbitrate
";

#[test]
fn calls_do_not_change_the_image() {
    assert_table(START, CALLS_DO_NOT_CHANGE_THE_IMAGE);
}

/// The images that need no file, by their bytes: counted ones start again after 250.
#[test]
fn images_by_their_bytes() {
    let bytes = |from: usize| -> String {
        (from..from + 16).map(|index| format!(" {:02X}h", index % 251)).collect()
    };
    let (first, last) = (bytes(240), bytes(1248));
    let marks = "R0 0 | R1 1 | R239 239 | MARK 9";
    for image in ["counted", "counted 1265"] {
        let table = format!(
            "view 0\n+ bytes{first} | {marks}\n- bytes{last} | MARK 0 | R239 238\n\n\
             view 63\n+ bytes{last}\n- bytes{first}"
        );
        assert_table(&format!("image {image}\n"), &table);
    }
    let filled = " A5h".repeat(16);
    for image in ["fill A5h", "fill 165 1265", "fill 0xA5"] {
        let table =
            format!("view 63\n+ bytes{filled} | R0 A5h | MARK A5h\n- bytes{first} | MARK 0");
        assert_table(&format!("image {image}\n"), &table);
    }
}

/// Steps and calls on an image of another length: refusal 1, whatever else is wrong.
#[test]
fn images_of_another_length() {
    let steps = "read R0 | write R0 1 | edge 9 9 | watchdog | nmi 2 | request 9 | arbitrate | return | reset \
                 | step FFFFFFFFFFFFFFFFh | run | wait INTA0 | wait 99 | bound INTA0 | bound 99 | handler bound INTA0 \
                 | handler bound 99 | view 0 | view 64";
    let bad = "channel page=0 idcr=1 ivr=1 dcpr=1 dapr=1 data=1 direction=7\n";
    for image in ["zero 1264", "zero 0", "zero 1266", "fill A5h 1264", "counted 4096", "zero 1"] {
        for list in ["", bad] {
            let block = |step: &str| {
                format!(
                    "{}\n+ refused 1\n- refused 2\n- refused 3\n- refused 1 at step 0\n- none\n- never\n\n",
                    step.trim()
                )
            };
            let table: String = steps.split('|').map(block).collect();
            assert_table(&format!("image {image}\n{list}"), &table);
        }
    }
}

/// Lists that just keep a rule, beside one that breaks it. 13 records and registers below 240 are tried in the test.
const LISTS: [(&str, &str); 7] = [
    ("page=1 .. in", "page=0 .. in"),
    ("page=63 .. in", "page=64 .. in"),
    ("page=1 .. direction=1", "page=1 .. direction=2"),
    ("page=1 .. direction=0", "page=1 .. direction=255"),
    // A pair of page and register twice: all five, the last of two records with the first, and in one record.
    ("page=9 .. in|page=10 .. in", "page=9 .. in|page=9 .. in"),
    ("page=9 .. in|page=9 second in", "page=9 .. in|page=9 third in"),
    ("page=9 .. in", "page=9 same in"),
];

fn list(rows: &str) -> String {
    let record = |row: &str| {
        let row = row.replace("..", "idcr=240 ivr=241 dcpr=242 dapr=243 data=244");
        let row = row.replace("second", "idcr=245 ivr=246 dcpr=247 dapr=248 data=255");
        let row = row.replace("third", "idcr=245 ivr=246 dcpr=247 dapr=248 data=240");
        let row = row.replace("same", "idcr=240 ivr=240 dcpr=242 dapr=243 data=244");
        format!("channel {row}\n")
    };
    rows.split('|').map(record).collect()
}

fn assert_list(good: &str, bad: &str) {
    let steps = "read R0 | write R0 1 | edge 9 9 | arbitrate | reset | step FFFFFFFFFFFFFFFFh | run | wait INTA0 \
                 | wait 99 | bound INTA0 | bound 99 | handler bound INTA0 | handler bound 99";
    let refused = |step: &str| {
        format!("{}\n+ refused 2\n- refused 1\n- refused 4\n- refused 3\n- refused 2 at step 0\n- none\n\n", step.trim())
    };
    let table: String = steps.split('|').map(refused).collect();
    assert_table(&format!("{START}{bad}"), &table);
    assert_table(&format!("{START}{good}"), "arbitrate\n+ none\n- refused 2\n- refused 1");
}

#[test]
fn lists_that_break_a_rule() {
    for (good, bad) in LISTS {
        assert_list(&list(good), &list(bad));
    }
    let pages =
        |to: usize| (1..=to).map(|page| list(&format!("page={page} .. in"))).collect::<String>();
    assert_list(&pages(12), &pages(13));
    let registers = ["idcr=240", "ivr=241", "dcpr=242", "dapr=243", "data=244"];
    for field in registers {
        let (name, _) = field.split_once('=').expect("a field");
        let good = list("page=9 .. in");
        assert_list(
            &good.replace(field, &format!("{name}=255")),
            &good.replace(field, &format!("{name}=239")),
        );
    }
}

/// A view has no list: document 01 refuses it with 1 and 3 alone, wherever it stands.
#[test]
fn views_have_no_list() {
    let bad = list("page=0 .. in");
    let bytes = format!("bytes{}", " 00h".repeat(16));
    let head = format!("{START}{bad}");
    assert_table(
        &head,
        &format!("arbitrate\nexpect refused 2\nview 9\n+ {bytes}\n- refused 2 | refused 3"),
    );
    assert_table(
        &head,
        &format!("view 9\n+ {bytes}\n- refused 2 | refused 3\narbitrate\nexpect refused 2"),
    );
    assert_table(&head, &format!("view 9\n+ {bytes}\n- refused 2 | refused 3"));
    assert_table(&head, "view 64\n+ refused 3\n- refused 2");
}

/// A refused step has its number, too: those of the calls after it go on from there.
#[test]
fn refused_steps_are_counted() {
    let head = format!("{START}set EIPR 10h\nread R256\nexpect refused 3\n");
    assert_table(
        &head,
        "\
wait INTC0
+ acknowledged by arbitration 1 at step 1
- acknowledged by arbitration 1 at step 0 | acknowledged by arbitration 1 at step 2
arbitrate

bound INTC0
+ none: other step at step 2
- none: other step at step 1 | none: other step at step 3
arbitrate
read R1

run
+ done 2 steps
- done 3 steps | refused 3 at step 0
arbitrate
read R1
",
    );
}
