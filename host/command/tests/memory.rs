//! Blocks into and out of the memory that a scenario lends: its statements, what is told, saved and expected.

#[path = "support/blocks.rs"]
mod blocks;
#[path = "support/objects.rs"]
mod objects;
mod support;

use blocks::assert_table;
use objects::{objects, of_type, Value};
use st9::Refusal;
use std::fs;
use support::{folder, run, st9, st9_in};

/// One record whose DMA is in a memory of sixteen bytes: the counter 2 in R16 and R17, the address 5 in R18 and R19, and
/// a request at level 2.
const START: &str = "\
image zero
memory 16
set CICR 87h
set R17 2
set R19 5
set R240.p9 32h
set R242.p9 10h
set R243.p9 12h
set R244.p9 5Ah
channel page=9 idcr=240 ivr=241 dcpr=242 dapr=243 data=244 in
";

fn out(scenario: &str) -> String {
    run(scenario).with_code(0).out
}

#[test]
fn a_transfer_in_words() {
    let scenario = format!("{START}arbitrate\n");
    let expected = "\
0  arbitrate             DMA of channel 0: one byte moved to memory 0005h
changed  R17  02h -> 01h
changed  R19  05h -> 06h
changed  IDCR of channel 0, R240 page 9  32h -> 12h  IP 1 -> 0
changed  memory 0005h  00h -> 5Ah
account  channel 0  pending at the start, served by DMA 1
done: 1 step
";
    assert_eq!(out(&scenario), expected);
    let last = scenario.replace("R17 2", "R17 1");
    assert!(out(&last).starts_with(
        "0  arbitrate             DMA of channel 0: one byte moved to memory 0005h, block ended\n"
    ));
    let from = scenario.replace("244 in", "244 out") + "expect R244.p9 C3h\n";
    let from = from.replace("memory 16\n", "memory 16\npoke 5 C3h\n");
    let told = out(&from);
    let words = "DMA of channel 0: one byte moved from memory 0005h\n";
    assert!(told.contains(words) && !told.contains("changed  memory"), "{told}");
    let named = scenario.replace("channel page", "name UART CH0\nchannel page");
    assert!(out(&named).contains("DMA of channel 0 (UART): one byte moved to memory 0005h\n"));
}

/// After each step, and what was stored before the first.
#[test]
fn verbose() {
    let scenario = format!("{START}poke 6 1 2\nread R1\narbitrate\nrequest 0\narbitrate\n");
    let told = st9(&["run", "-", "--verbose"], &scenario).with_code(0).out;
    let lines: Vec<_> = told.lines().filter(|line| line.contains("memory")).collect();
    let expected = [
        "poke  line 11: memory 0006h  01h 02h",
        "1  arbitrate             DMA of channel 0: one byte moved to memory 0005h",
        "    changed  memory 0005h  00h -> 5Ah",
        "3  arbitrate             DMA of channel 0: one byte moved to memory 0006h, block ended",
        "    changed  memory 0006h  01h -> 5Ah",
        "changed  memory 0005h to 0006h  00h 01h -> 5Ah 5Ah",
    ];
    assert_eq!(lines, expected);
}

fn bytes(value: &Value, name: &str) -> Vec<i64> {
    let number = |value: &Value| match value {
        Value::Number(number) => *number,
        other => panic!("{other:?}"),
    };
    value.list(name).iter().map(number).collect()
}

#[test]
fn as_objects() {
    let scenario = format!("{START}poke 6 1 2\nread R1\narbitrate\nrequest 0\narbitrate\n");
    let told = st9(&["run", "-", "--verbose", "--json"], &scenario).with_code(0).out;
    let [poke] = &of_type(&told, "poke")[..] else { panic!("{told}") };
    assert_eq!((poke.number("line"), poke.number("address")), (11, 6));
    assert_eq!(bytes(poke, "bytes"), [1, 2]);
    let memory = of_type(&told, "memory");
    let steps: Vec<_> = memory.iter().map(|object| object.get("step").clone()).collect();
    assert_eq!(steps, [Value::Number(1), Value::Number(3), Value::Null]);
    let parts = |object: &Value| {
        (object.number("address"), bytes(object, "before"), bytes(object, "after"))
    };
    let parts: Vec<_> = memory.iter().map(parts).collect();
    let whole = (5, vec![0, 1], vec![0x5A, 0x5A]);
    assert_eq!(parts, [(5, vec![0], vec![0x5A]), (6, vec![1], vec![0x5A]), whole]);
    let moved: Vec<_> =
        of_type(&told, "step").iter().map(|step| step.get("memory").clone()).collect();
    assert_eq!(moved, [Value::Null, Value::Number(5), Value::Null, Value::Number(6)]);
    // Beside the registers' changes, after them.
    let kinds: Vec<_> = objects(&told).iter().map(|one| one.text("type").to_string()).collect();
    assert_eq!(kinds[kinds.len() - 3..], ["memory", "account", "result"]);
    let quiet = st9(&["run", "-", "--quiet", "--json"], &scenario).with_code(0).out;
    assert_eq!(of_type(&quiet, "memory").len(), 1);
    assert!(of_type(&quiet, "poke").is_empty());
}

/// Of the register file the object has the member too, and no address.
#[test]
fn a_transfer_of_the_register_file() {
    let scenario = format!("{START}set R242.p9 11h\nset R16 20\narbitrate\n");
    assert!(out(&scenario).contains("DMA of channel 0: one byte moved\n"));
    let told = st9(&["run", "-", "--json"], &scenario).with_code(0).out;
    let step = &of_type(&told, "step")[0];
    assert!(step.has("memory") && *step.get("memory") == Value::Null, "{told}");
    assert!(of_type(&told, "memory").is_empty());
    // An address of the memory is none of it.
    let ran = run(&format!("{scenario}expect DMA of CH0 to memory 5\n")).with_code(3);
    assert!(ran.out.contains("; came DMA of channel 0: one byte moved\n"), "{}", ran.out);
}

const EXPECTATIONS: &str = "\
arbitrate
+ DMA of channel 0 | DMA of channel 0: one byte moved to memory 0005h | DMA CH0 to memory 5 | memory 5 5Ah
+ memory 0004h 00h 5Ah 00h | memory 15 0 | changed R17 1 R19 6 R240.p9 12h M0005h 5Ah
+ changed R17 02h -> 01h, R19 05h -> 06h, R240.p9 32h -> 12h, M0005h 00h -> 5Ah | changed m5 5Ah R17 1 R19 6 R240.p9 12h
- DMA of channel 0 block ended | DMA of channel 0: one byte moved to memory 0006h | DMA CH0 to memory 4
- memory 5 5Bh | memory 4 5Ah | memory 5 5Ah 5Ah | memory 15 0 0 | memory 16 0 | memory FFFFFFFFFFFFFFFFh 0
- changed nothing | changed R17 1 R19 6 R240.p9 12h | changed M0005h 5Ah | changed M5 5Ah 0 R17 1 R19 6 R240.p9 12h
- changed R17 1 R19 6 R240.p9 12h M0006h 5Ah | changed R17 1 R19 6 R240.p9 12h M0005h 5Bh
- changed R17 1 R19 6 R240.p9 12h M0005h 01h -> 5Ah | changed R17 1 R19 6 R240.p9 12h M5 5Ah M6 0

set R17 1
arbitrate
+ DMA of channel 0 block ended | DMA of channel 0: one byte moved to memory 0005h, block ended | DMA CH0 to memory 5 block
- DMA of channel 0 | DMA of channel 0: one byte moved to memory 0005h | DMA CH0 to memory 6 block ended

poke 5 5Ah
arbitrate
+ DMA of channel 0 to memory 5 | changed R17 1 R19 6 R240.p9 12h | memory 5 5Ah
- changed R17 1 R19 6 R240.p9 12h M5 5Ah | changed R17 1 R19 6 R240.p9 12h M5 5Ah -> 5Ah

set R19 16
arbitrate
+ refused 5 | changed nothing | memory 15 0
- refused 6 | refused 8 | changed M0010h 5Ah | DMA of channel 0

set R243.p9 E1h
set R19 16
arbitrate
+ refused 6 | changed nothing
- refused 5

set R18 1
arbitrate
+ refused 5
- refused 6

return
+ returned | memory 0 0 0 0 0 0 0 0 0 0 0 0 0 0 0 0 0
- memory 0 0 0 0 0 0 0 0 0 0 0 0 0 0 0 0 0 0 | memory 0 1

run
+ done 3 steps last DMA of channel 0 to memory 6 block ended | memory 5 5Ah 5Ah | done 3 | changed R17 0 R19 7 R240.p9 02h M0005h 5Ah 5Ah
+ changed R17 0, R19 7, R240.p9 02h, M0005h 00h 00h -> 5Ah 5Ah | changed R17 0 R19 7 R240.p9 2 M5 5Ah M6 0 -> 5Ah
- done 3 steps last DMA of channel 0 to memory 5 block ended | memory 5 0 0 | changed R17 0 R19 7 R240.p9 02h M0005h 5Ah
- changed R17 0 R19 7 R240.p9 02h | memory 5 5Ah 0
arbitrate
request 0
arbitrate

poke 7 C3h
run
+ memory 5 5Ah 00h C3h | changed R17 1 R19 6 R240.p9 12h M5 5Ah
- memory 7 0 | changed R17 1 R19 6 R240.p9 12h M5 5Ah M7 C3h -> 0
arbitrate

wait INTA0
+ not acknowledged after 2 arbitrations | memory 5 5Ah 5Ah
- memory 5 0 0 | memory 5 5Ah 0 | changed nothing
arbitrate
request 0
arbitrate

bound INTA0
+ none: DMA enabled | memory 5 0 0 | changed nothing
- memory 5 5Ah
arbitrate
";

#[test]
fn expectations() {
    assert_table(START, EXPECTATIONS);
}

/// What came stands in the words that can be expected; of a long block its start.
#[test]
fn what_came() {
    let came = |words: &str| {
        let ran = run(&format!("{START}arbitrate\nexpect {words}\n")).with_code(3);
        let line = ran.out.lines().find(|line| line.starts_with("-:12: expected"));
        line.and_then(|line| line.split_once("; came ")).expect("what came").1.to_string()
    };
    let changed = came("changed nothing");
    assert_eq!(
        changed,
        "changed R17 02h -> 01h, R19 05h -> 06h, R240.p9 32h -> 12h, M0005h 00h -> 5Ah"
    );
    run(&format!("{START}arbitrate\nexpect {changed}\n")).with_code(0);
    assert_eq!(came("memory 4 1 2"), "memory 0004h 00h 5Ah");
    assert_eq!(came("memory 15 1 2"), "a memory of 16 bytes");
    assert_eq!(came("DMA CH0 to memory 6"), "DMA of channel 0: one byte moved to memory 0005h");
}

/// A block of so many bytes from address 0 on, with the 16-bit counter.
fn block(count: usize) -> String {
    let start = START.replace("memory 16", "memory 65536").replace("set R19 5\n", "");
    let counter = format!("set R16 {}\nset R17 {}\n", count / 256 % 256, count % 256);
    let start = start.replace("set R17 2\n", &counter).replace("R240.p9 32h", "R240.p9 3Ah");
    let words = format!("arbitrate\n{}", "request 0\narbitrate\n".repeat(count - 1));
    format!("{start}{words}")
}

/// As many bytes as there are change, and few lines are told; an object has them all.
#[test]
fn long_blocks_are_folded() {
    let scenario = block(65_536);
    let told = st9(&["run", "-", "--quiet"], &scenario).with_code(0).out;
    let lines: Vec<_> = told.lines().filter(|line| line.starts_with("changed  memory")).collect();
    assert_eq!(lines.len(), 17, "{told}");
    let row = "changed  memory 0000h to 0007h  00h 00h 00h 00h 00h 00h 00h 00h -> 5Ah 5Ah 5Ah 5Ah 5Ah 5Ah 5Ah 5Ah";
    assert_eq!(lines[0], row);
    assert_eq!(
        lines[16],
        "changed  memory 0080h to FFFFh  65408 more bytes (all with --json or --save-memory)"
    );
    let told = st9(&["run", "-", "--quiet", "--json"], &scenario).with_code(0).out;
    let [memory] = &of_type(&told, "memory")[..] else { panic!("one stretch") };
    assert_eq!(bytes(memory, "after"), [0x5A; 65_536]);
    assert_eq!(bytes(memory, "before"), [0; 65_536]);
    // The address has gone round, the counter has come to 0: the block ended.
    assert!(told.contains("\"blocks\":1,"), "{told}");
    assert!(!told.contains("\"name\":\"R16\"") && !told.contains("\"name\":\"R18\""), "{told}");
    let asked = "in\nrun\nexpect changed nothing\nexpect memory 99 0\narbitrate";
    let unmet = block(100).replace("in\narbitrate", asked);
    let ran = st9(&["test", "-"], &unmet).with_code(3);
    let told = ran.out.lines().find(|line| line.contains("expected changed nothing"));
    assert!(
        told.is_some_and(|told| told.ends_with(" (and 36 more bytes of the memory)")),
        "{}",
        ran.out
    );
    assert!(ran.out.contains("expected memory 99 0; came memory 0063h 5Ah\n"), "{}", ran.out);
}

/// Calls are on a copy: the case goes on with the memory as it was.
#[test]
fn calls_leave_the_memory() {
    for call in ["run", "wait CH0", "bound CH0", "handler bound CH0", "view 9"] {
        let steps =
            "read R1\nexpect memory 5 0\nexpect changed nothing\narbitrate\nexpect memory 5 5Ah\n";
        run(&format!("{START}{call}\n{steps}")).with_code(0);
    }
}

/// The memory of a case is its own: a common one and its pokes are those of every case, and one of its own takes its place.
#[test]
fn cases_and_again() {
    let moved = "arbitrate\nexpect DMA of CH0 to memory 5\nexpect memory 5 5Ah\n";
    let scenario = format!(
        "{START}poke 3 AAh\n\
         case a\n{moved}expect memory 3 AAh 00h 5Ah\n\
         case afresh\nread R1\nexpect memory 3 AAh 00h 00h\n{moved}\
         case with bytes of its own\npoke 4 BBh\n{moved}expect memory 3 AAh BBh 5Ah\n\
         again\nread R1\nexpect memory 3 AAh BBh 00h\n\
         again with more\npoke 3 CCh\nread R1\nexpect memory 3 CCh BBh 00h\n\
         again with a memory of its own\nmemory 5\nread R1\nexpect memory 3 AAh BBh\narbitrate\nexpect refused 5\n\
         case with a short memory\nmemory 4\narbitrate\nexpect refused 5\nexpect memory 0 0 0 0 AAh\n\
         again and a long one\nmemory 20\n{moved}expect memory 3 AAh 00h 5Ah\n\
         again as the case\narbitrate\nexpect refused 5\n"
    );
    let ran = st9(&["test", "-"], &scenario).with_code(0);
    assert!(ran.out.starts_with("9 cases: 9 passed"), "{}", ran.out);
    let wrong = scenario.replace("expect memory 3 AAh BBh 5Ah", "expect memory 3 AAh 00h 5Ah");
    st9(&["test", "-"], &wrong).with_code(3);
}

/// Without a memory there is none.
#[test]
fn no_memory() {
    let scenario = format!("{}arbitrate\n", START.replace("memory 16\n", ""));
    let ran = run(&scenario).with_code(1);
    let hint = "(channel 0: address 0005h, and no memory is lent)";
    assert!(ran.out.lines().next().is_some_and(|line| line.ends_with(hint)), "{}", ran.out);
    run(&format!("{scenario}expect refused 5\n")).with_code(0);
    run("image zero\nmemory 0\nreturn\nexpect changed CICR 10h\n").with_code(0);
}

/// With 5 the address and the memory's length, with 6 which pointer: in the step's line, in a call's and of a test.
#[test]
fn refused_transfers() {
    let rows = [
        ("set R19 16\n", 5, "address 0010h, and the memory has 16 bytes"),
        ("set R18 1\nset R19 0\n", 5, "address 0100h, and the memory has 16 bytes"),
        ("set R18 FFh\nset R19 FFh\n", 5, "address FFFFh, and the memory has 16 bytes"),
        ("set R242.p9 E0h\n", 6, "DCPR E0h names R224 and R225"),
        ("set R242.p9 FEh\nset R243.p9 E1h\n", 6, "DCPR FEh names R254 and R255"),
        ("set R243.p9 E1h\n", 6, "DAPR E1h names R224 and R225"),
        ("set R243.p9 E0h\nset R19 16\n", 6, "DAPR E0h names R224 and R225"),
        ("set R242.p9 E1h\n", 6, "DCPR E1h names R224 and R225"),
        ("set R242.p9 11h\nset R16 224\n", 6, "address E0h in R16"),
    ];
    for (set, number, why) in rows {
        let refusal = Refusal::from_number(number).expect("a refusal");
        let scenario = format!("{START}name RX CH0\n{set}arbitrate\n");
        let ran = run(&scenario).with_code(1);
        let hint = format!("channel 0 (RX): {why}");
        let line = format!("0  arbitrate             refused with {number} ({refusal}) ({hint})");
        assert_eq!(ran.out.lines().next(), Some(line.as_str()));
        let tested = st9(&["test", "-"], &scenario).with_code(3).out;
        assert!(tested.contains(&format!("\n  note: {hint}\n")), "{tested}");
        let waited = st9(&["wait", "-", "--source", "CH0"], &scenario).with_code(1).out;
        assert!(waited.contains(&format!(": {refusal}) ({hint})\n")), "{waited}");
        let called = scenario.replace("arbitrate\n", "run\narbitrate\n");
        assert!(run(&called).with_code(1).out.contains(&format!("({hint})\n")), "{called}");
        // A call is refused on a copy, of which a test has no note.
        assert!(!st9(&["test", "-"], &called).with_code(3).out.contains("note: "), "{called}");
        run(&format!("{scenario}expect refused {number} ({refusal}) ({hint})\n")).with_code(0);
    }
}

/// The record that is told is the one that wins: by level, then by position; one without DMA is passed over.
#[test]
fn the_winner_is_told() {
    let other = "channel page=10 idcr=240 ivr=241 dcpr=242 dapr=243 data=244 in\n";
    let third = other.replace("page=10", "page=11");
    let start = format!("{START}{other}{third}set R19 16\n");
    for (idcrs, winner) in [
        ("", 0),
        ("set R240.p10 31h\n", 1),
        ("set R240.p10 32h\n", 0),
        ("set R240.p10 32h\nset R240.p11 31h\n", 2),
        ("set R240.p10 11h\nset R240.p11 29h\n", 0),
    ] {
        let set =
            "set R18 1\nset R242.p10 10h\nset R243.p10 12h\nset R242.p11 10h\nset R243.p11 12h\n";
        let ran = run(&format!("{start}{set}{idcrs}arbitrate\n")).with_code(1);
        assert!(ran.out.contains(&format!(" (channel {winner}: address 0110h")), "{}", ran.out);
    }
}

/// Over 65,536 bytes: refused before any step, with the length; every step and call that needs the memory is.
#[test]
fn too_much_memory() {
    let scenario = START.replace("memory 16", "memory 65537") + "arbitrate\n";
    let ran = run(&scenario).with_code(1);
    let end = "note: the memory (line 2) has 65537 bytes\n\
               refused with 8 (the memory is over 65,536 bytes), before any step\n";
    let account = "no register changed\naccount  channel 0  pending at the start, still pending\n";
    assert_eq!(ran.out, format!("{account}{end}"));
    let tested = st9(&["test", "-"], &scenario).with_code(3).out;
    assert!(tested.contains("\n  note: the memory (line 2) has 65537 bytes\n"), "{tested}");
    let waited = st9(&["wait", "-", "--source", "99"], &scenario).with_code(1).out;
    assert!(
        waited.contains("refused with 8 ") && waited.contains("note: the memory (line 2)"),
        "{waited}"
    );
    let steps = "return\nexpect refused 8\nread R256\nexpect refused 8\nbound CH0\nexpect none: DMA enabled\n\
                 view 9\nwait 99\nexpect refused 8 before any step\nrun\nexpect refused 8\nexpect changed nothing\n";
    run(&scenario.replace("arbitrate\n", steps)).with_code(0);
    let most =
        START.replace("memory 16", "memory 65536") + "arbitrate\nexpect DMA of CH0 to memory 5\n";
    run(&most).with_code(0);
    // Before it come the image and the list.
    let short = scenario.replace("image zero", "image zero 1264");
    run(&format!("{short}expect refused 1\n")).with_code(0);
    let twice =
        format!("channel page=9 idcr=240 ivr=241 dcpr=242 dapr=243 data=244 in\n{scenario}");
    run(&format!("{twice}expect refused 2\n")).with_code(0);
}

/// A bound and a view alone do not need the memory; at the end of the case it is told.
#[test]
fn too_much_memory_for_a_bound() {
    let scenario = "image zero\nmemory 65537\nset CICR 97h\nset EIMR 1\nset EIPR 1\nbound INTA0\n\
                    expect by arbitration 1 at the latest H 0 E 0\nhandler bound INTA0\nexpect by 1\n";
    let ran = run(scenario).with_code(0);
    assert!(ran.out.contains("note: the memory (line 2) has 65537 bytes\n"), "{}", ran.out);
}

#[test]
fn files() {
    let folder = folder("memory-files");
    let scenario = |name: &str, more: &str| {
        let text = START.replace("memory 16", &format!("memory {name}")) + more;
        fs::write(folder.join("a.st9"), text).expect("a scenario");
        st9_in(&folder, &["run", "a.st9", "--save", "i", "--save-memory", "m"], b"")
    };
    fs::write(folder.join("b c.bin"), [7; 6]).expect("a memory");
    fs::write(folder.join("16"), [9; 6]).expect("a memory");
    scenario("\"b c.bin\"", "arbitrate\nexpect memory 0 7 7 7 7 7 5Ah\n").with_code(0);
    assert_eq!(fs::read(folder.join("m")).expect("the memory"), [7, 7, 7, 7, 7, 0x5A]);
    let image = fs::read(folder.join("i")).expect("the image");
    assert_eq!((image.len(), image[19]), (st9::IMAGE_LENGTH, 6));
    scenario("\"16\"", "poke 0 1\narbitrate\nexpect memory 0 1 9 9 9 9 5Ah\n").with_code(0);
    // What a refused run leaves is saved, too; a memory that is a file again.
    let refused = "request 0\narbitrate\nrequest 0\narbitrate\n";
    scenario("./m", &format!("set R17 9\nset R19 4\n{refused}{refused}")).with_code(1);
    assert_eq!(fs::read(folder.join("m")).expect("the memory"), [1, 9, 9, 9, 0x5A, 0x5A]);
    fs::write(folder.join("long.bin"), vec![0; 65_537]).expect("a memory");
    let ran = scenario("long.bin", "arbitrate\n").with_code(1);
    assert!(
        ran.out.contains("note: the memory long.bin (line 2) has 65537 bytes\n"),
        "{}",
        ran.out
    );
    let ran = scenario("none.bin", "arbitrate\n").with_code(2);
    assert!(ran.err.starts_with("a.st9:2: memory none.bin: "), "{}", ran.err);
    assert!(
        ran.err.ends_with(
            ": expected a file of at most 65,536 bytes, or their number, as 512 or 200h\n"
        ),
        "{}",
        ran.err
    );
}

#[test]
fn saving() {
    let folder = folder("memory-save");
    let write = |text: &str| fs::write(folder.join("a.st9"), text).expect("a scenario");
    write(&format!("{START}arbitrate\nrequest 0\narbitrate\n"));
    let saved = |arguments: &[&str]| {
        let arguments = [arguments, &["--save-memory", "m"]].concat();
        st9_in(&folder, &arguments, b"").with_code(0);
        fs::read(folder.join("m")).expect("the memory")
    };
    let mut expected = [0; 16];
    expected[5..7].fill(0x5A);
    assert_eq!(saved(&["run", "a.st9"]), expected);
    assert_eq!(saved(&["wait", "a.st9", "--source", "INTA0"]), expected);
    // A wait saves what it left, not what the whole list leaves.
    let stop =
        "set CICR 97h\nset EIMR 1\nset EIPR 1\nset EIPLR FCh\narbitrate\nreturn\narbitrate\n";
    write(&format!("{START}{stop}"));
    assert_eq!(saved(&["wait", "a.st9", "--source", "INTA0"]), [0; 16]);
    write("image zero\n");
    assert_eq!(saved(&["run", "a.st9"]), [0; 0]);
    write("image zero\ncase a\ncase b\n");
    let ran = st9_in(&folder, &["run", "a.st9", "--save-memory", "x"], b"").with_code(2);
    assert_eq!(ran.err, "st9: --save-memory 'x' with 2 cases: expected a file of one case\n");
    write("image zero\n");
    let ran = st9_in(&folder, &["run", "a.st9", "--save-memory", "none/m"], b"").with_code(2);
    assert!(ran.err.starts_with("st9: --save-memory 'none/m': "), "{}", ran.err);
    assert_eq!(ran.out, "");
}

/// A poke that the memory has no byte for is an error of the file, wherever the memory comes from.
#[test]
fn pokes_beyond_the_end() {
    let rows = [
        ("poke 16 1", "poke 0010h: expected addresses of the memory of line 2, 0000h to 000Fh"),
        (
            "poke 15 1 2",
            "poke 000Fh to 0010h: expected addresses of the memory of line 2, 0000h to 000Fh",
        ),
        (
            "poke FFFFFFFFFFFFFFFFh 1",
            "poke FFFFFFFFFFFFFFFFh: expected addresses of the memory of line 2, 0000h to 000Fh",
        ),
    ];
    for (poke, problem) in rows {
        for command in [&["run", "-"][..], &["test", "-"], &["wait", "-"]] {
            let ran = st9(command, &format!("{START}{poke}\n")).with_code(2);
            assert_eq!(ran.err, format!("-:11: {problem}\n"), "{poke}");
        }
    }
    run(&format!("{START}poke 15 1\n")).with_code(0);
    // The lines stand in any order, and a case may have a longer memory.
    let scenario = "image zero\npoke 20 1\ncase a\nmemory 21\nread R1\nexpect memory 20 1\n";
    run(scenario).with_code(0);
    let ran = run(&format!("{scenario}case b\nmemory 20\n")).with_code(2);
    assert_eq!(
        ran.err,
        "-:2: poke 0014h: expected addresses of the memory of line 8, 0000h to 0013h\n"
    );
    let folder = folder("memory-poke");
    fs::write(folder.join("m.bin"), [0; 3]).expect("a memory");
    fs::write(folder.join("a.st9"), "image zero\nmemory m.bin\npoke 3 1\n").expect("a scenario");
    let ran = st9_in(&folder, &["run", "a.st9"], b"").with_code(2);
    assert_eq!(
        ran.err,
        "a.st9:3: poke 0003h: expected addresses of the memory of line 2, 0000h to 0002h\n"
    );
}

/// Where the pairs coincide the counter stands, and the words tell the address that was used.
#[test]
fn pairs_that_coincide() {
    let scenario = format!("{START}set R243.p9 11h\narbitrate\nrequest 0\narbitrate\n");
    let told = out(&scenario.replace("R17 2", "R17 5"));
    assert!(
        told.contains("moved to memory 0005h\n") && told.contains("moved to memory 0004h\n"),
        "{told}"
    );
    assert!(told.contains("changed  memory 0004h to 0005h  00h 00h -> 5Ah 5Ah\n"), "{told}");
    assert!(told.contains("changed  R17  05h -> 03h\n"), "{told}");
}

#[test]
fn a_refused_transfer_in_the_table_of_waits() {
    // Every source's wait ends at the step: why is told once, below the rows.
    let scenario = START.replace("memory 16\n", "") + "edge INTB0 falling\narbitrate\n";
    let ran = st9(&["wait", "-"], &scenario).with_code(1);
    let refused = "refused with 5 at step 1, after 0 arbitrations";
    let rows: Vec<_> = ran.out.lines().filter(|line| line.contains(refused)).collect();
    assert_eq!(rows.len(), 2, "{}", ran.out);
    assert!(rows.iter().all(|row| !row.contains("0005h")), "{}", ran.out);
    let note = "note: channel 0: address 0005h, and no memory is lent";
    assert_eq!(ran.out.lines().last(), Some(note));
    let one = st9(&["wait", "-", "--source", "INTB0"], &scenario).with_code(1);
    assert!(one.out.contains("(channel 0: address 0005h, and no memory is lent)"), "{}", one.out);
}
