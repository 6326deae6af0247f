//! Answers in words through the binary: what the examples do not have.

mod support;

use std::fs;
use std::process::{Command, Stdio};
use support::{folder, root, run, st9, st9_in};

/// A step of every kind. EIVR 44h: the pin of INTA0 is not selected (IAOS 0), the watchdog is; TLIP is that of NMI
/// (TLIS 1), falling.
const EVERY_KIND: &str = "\
image zero
set CICR 97h
set EIVR 44h
set NICR 80h
set R20 5
channel page=9 idcr=240 ivr=241 dcpr=242 dapr=243 data=244 in
edge INTA0 falling
edge INTB0 rising
edge intb0 falling
edge 2 falling
watchdog
nmi falling
nmi falling
arbitrate
arbitrate
return
read CICR
read R20
write PPR 24h
write EIPR 01h
read EIVR
request CH0
step 0x0002000300000000
write PPR 00h
read R243
write R243 04h
write EIPR 00h
reset
";

const UP_TO_THE_REFUSED: &str = " 0  edge INTA0 falling    INTA0 not selected (IAOS 0: the watchdog is the source of INTA0)
 1  edge INTB0 rising     INTB0 not selected (EITR bit 2 is 0: falling edges)
 2  edge INTB0 falling    raised INTB0
 3  edge INTB0 falling    merged INTB0 (already pending)
 4  watchdog              raised INTA0; TLIP not selected (TLIS 1: NMI is the source of TLIP)
 5  nmi falling           raised TLIP
 6  nmi falling           merged TLIP (already pending)
 7  arbitrate             acknowledged the top level, vector 04h
 8  arbitrate             none (the top level is in service; pending: INTA0 masked, INTB0 masked)
 9  return                returned (the top level's: the mark is cleared, nothing else)
10  read CICR             byte 97h (GCEN, IEN, CPL 7)
11  read R20              byte 05h
12  write PPR 24h         written
13  write EIPR 01h        written (DAPR of channel 0, R243 page 9: PPR selects it)
14  read EIVR             refused with 3 (register read or written not modelled or over 255; viewed page over 63) (R246 page 9: PPR selects it)
changed  PPR R234  00h -> 24h  page 0 -> 9
changed  EIPR R243 page 0  00h -> 05h  INTA0 0 -> 1, INTB0 0 -> 1
changed  DAPR of channel 0, R243 page 9  00h -> 01h
account  INTA0  raised 1, not selected 1, still pending
account  INTB0  raised 1, merged 1, not selected 1, still pending
account  TLIP   raised 1, merged 1, acknowledged 1
ended by the refusal at step 14 (line 21): 14 steps done, 7 not done
";

const WITHOUT_THE_REFUSED: &str = "\
14  request 0             raised channel 0
15  step 0x0002000300000000  merged channel 0 (already pending)
16  write PPR 00h         written
17  read R243             byte 05h (INTA0, INTB0) (EIPR R243 page 0)
18  write R243 04h        erased 01h: INTA0 (EIPR R243 page 0)
19  write EIPR 00h        erased 04h: INTB0
20  reset                 reset
changed  CICR R230  97h -> 87h  IEN 1 -> 0
changed  MODER R235  00h -> E0h
changed  EIPLR R245 page 0  00h -> FFh  group A 0 -> 3, group B 0 -> 3, group C 0 -> 3, group D 0 -> 3
changed  EIVR R246 page 0  44h -> 46h  IAOS 0 -> 1
changed  NICR R247 page 0  80h -> 00h  TLNM 1 -> 0
changed  IDCR of channel 0, R240 page 9  00h -> 20h  IP 0 -> 1
changed  DAPR of channel 0, R243 page 9  00h -> 01h
account  INTA0      raised 1, not selected 1, erased 1 (line 25: write R243 04h)
account  INTB0      raised 1, merged 1, not selected 1, erased 1 (line 26: write EIPR 00h)
account  channel 0  raised 1, merged 1, still pending
account  TLIP       raised 1, merged 1, acknowledged 1
done: 21 steps
";

#[test]
fn steps_of_every_kind() {
    assert_eq!(run(EVERY_KIND).with_code(1).out, UP_TO_THE_REFUSED);
    let out = run(&EVERY_KIND.replace("read EIVR\n", "")).with_code(0).out;
    assert!(out.ends_with(WITHOUT_THE_REFUSED), "{out}");
}

#[test]
fn the_mark_among_the_changes() {
    let scenario = "image zero\nset CICR C7h\nset NICR 80h\narbitrate\n";
    let expected = "\
0  arbitrate             acknowledged the top level, vector 04h
changed  CICR R230  C7h -> 87h  TLIP 1 -> 0
changed  MARK  00h -> 01h
account  TLIP  pending at the start, acknowledged 1
done: 1 step
";
    assert_eq!(run(scenario).with_code(0).out, expected);
}

#[test]
fn every_pending_bit_that_a_write_erases() {
    let scenario = "\
image zero
set CICR 50h
set EIPR 03h
set R240.p9 3Ah
channel page=9 idcr=240 ivr=241 dcpr=242 dapr=243 data=244 in
write EIPR 02h
write EIPR 03h
write CICR 40h
write CICR 17h
write PPR 24h
write R240 38h
write R240 18h
write R240 18h
";
    let expected = "\
0  write EIPR 02h        erased 01h: INTA0
1  write EIPR 03h        written (sets INTA0 pending)
2  write CICR 40h        written
3  write CICR 17h        erased TLIP
4  write PPR 24h         written
5  write R240 38h        written (IDCR of channel 0, R240 page 9: PPR selects it)
6  write R240 18h        erased IP of channel 0 (IDCR of channel 0, R240 page 9: PPR selects it)
7  write R240 18h        written (IDCR of channel 0, R240 page 9: PPR selects it)
";
    let out = run(scenario).with_code(0).out;
    assert!(out.starts_with(expected), "{out}");
}

#[test]
fn no_steps() {
    let expected =
        "no register changed\naccount  nothing was pending or triggered\ndone: 0 steps\n";
    assert_eq!(run("image zero\nset R1 1").with_code(0).out, expected);
}

#[test]
fn quiet_prints_the_end_alone() {
    let file = root().join("examples/dma-block.st9");
    let text = fs::read_to_string(&file).expect("the example");
    let whole = run(&text).with_code(0).out;
    let quiet = st9(&["run", "-", "--quiet"], &text).with_code(0).out;
    let end: String = whole.lines().skip(11).map(|line| format!("{line}\n")).collect();
    assert_eq!(quiet, end);
}

#[test]
fn saved_images() {
    let folder = folder("save");
    let start: Vec<u8> = (0..st9::IMAGE_LENGTH).map(|index| index as u8).collect();
    fs::write(folder.join("start image.bin"), &start).expect("an image");
    let scenario =
        "image \"start image.bin\"\nset MARK 0\nwrite R16 AAh\nread R256\nwrite R17 BBh\n";
    fs::create_dir(folder.join("below")).expect("a folder");
    fs::write(folder.join("a.st9"), scenario).expect("a scenario");
    for quiet in [&[][..], &["--quiet"]] {
        let arguments = [&["run", "../a.st9", "--save", "end.bin"], quiet].concat();
        st9_in(&folder.join("below"), &arguments, b"").with_code(1);
        let mut expected = start.clone();
        expected[st9::MARK] = 0;
        expected[16] = 0xAA;
        assert_eq!(fs::read(folder.join("below/end.bin")).expect("the end"), expected);
        fs::remove_file(folder.join("below/end.bin")).expect("the file is removed");
    }
    let done = scenario.replace("read R256\n", "");
    fs::write(folder.join("a.st9"), done).expect("a scenario");
    st9_in(&folder, &["run", "a.st9", "--save=end.bin"], b"").with_code(0);
    assert_eq!(fs::read(folder.join("end.bin")).expect("the end")[17], 0xBB);
}

const SHOWN: &str = "\
CICR R230          97h  GCEN 1, TLIP 0, TLI 0, IEN 1, IAM 0, CPL 7
PPR R234           27h  page 9, absent bits 1:0 3
MODER R235         00h
EITR R242 page 0   00h  INTA0 0, INTA1 0, INTB0 0, INTB1 0, INTC0 0, INTC1 0, INTD0 0, INTD1 0
EIPR R243 page 0   14h  INTA0 0, INTA1 0, INTB0 1, INTB1 0, INTC0 1, INTC1 0, INTD0 0, INTD1 0
EIMR R244 page 0   00h  INTA0 0, INTA1 0, INTB0 0, INTB1 0, INTC0 0, INTC1 0, INTD0 0, INTD1 0
EIPLR R245 page 0  E7h  group A 3 (levels 6 and 7), group B 1 (levels 2 and 3), group C 2 (levels 4 and 5), group D 3 (levels 6 and 7)
EIVR R246 page 0   46h  vector 40h, TLTEV 0, TLIS 1, IAOS 1, EWEN 0
NICR R247 page 0   81h  TLNM 1, HL6 0, HL5 0, HL4 0, HL3 0, HL2 0, HL1 0, HL0 1
MARK               05h  top level in service
";

#[test]
fn shown_images() {
    let mut image = vec![0; st9::IMAGE_LENGTH];
    for (index, byte) in [(230, 0x97), (234, 0x27), (243, 0x14), (245, 0xE7), (246, 0x46)] {
        image[index] = byte;
    }
    image[247] = 0x81;
    image[st9::MARK] = 5;
    image[st9::place(9, 255)] = 0xA5;
    let ran = st9_in(&root(), &["show", "-"], &image).with_code(0);
    assert_eq!(ran.out, SHOWN);
    let ran = st9_in(&root(), &["show", "-", "--page", "9"], &image).with_code(0);
    let page: String =
        (240..255).map(|register| format!("R{register} page 9        00h\n")).collect();
    assert_eq!(ran.out, format!("{SHOWN}\n{page}R255 page 9        A5h\n"));
    let folder = folder("show");
    fs::write(folder.join("image.bin"), &image).expect("an image");
    assert_eq!(st9_in(&folder, &["show", "image.bin"], b"").with_code(0).out, SHOWN);
}

fn long_scenario() -> String {
    format!("image zero\n{}read R256\n", "edge INTB0 falling\narbitrate\nreturn\n".repeat(50_000))
}

#[test]
fn a_closed_pipe_is_no_failure() {
    let folder = folder("pipe");
    let text = long_scenario().replace("read R256\n", "");
    fs::write(folder.join("long.st9"), text).expect("a scenario");
    let mut child = Command::new(env!("CARGO_BIN_EXE_st9"))
        .args(["run", "long.st9", "--save", "end.bin"])
        .current_dir(&folder)
        .stdout(Stdio::piped())
        .stderr(Stdio::piped())
        .spawn()
        .expect("the binary starts");
    drop(child.stdout.take());
    let output = child.wait_with_output().expect("the binary ends");
    assert_eq!(output.status.code(), Some(0));
    assert_eq!(output.stderr, b"");
    // The run itself went on to its end.
    assert_eq!(fs::read(folder.join("end.bin")).expect("the end")[230], 0x10);
}

#[test]
#[cfg(target_os = "linux")]
fn a_full_disk_is_a_failure() {
    let full = fs::OpenOptions::new().write(true).open("/dev/full").expect("/dev/full");
    let file = root().join("examples/march.st9");
    let output = Command::new(env!("CARGO_BIN_EXE_st9"))
        .arg("run")
        .arg(file)
        .stdout(full)
        .stderr(Stdio::piped())
        .output()
        .expect("the binary ends");
    assert_eq!(output.status.code(), Some(2));
    let message = String::from_utf8_lossy(&output.stderr);
    assert!(message.starts_with("st9: standard output: "), "{message}");
}

/// On a terminal, which `script` makes where it is installed, long traces show progress, which is taken away before the
/// answer; elsewhere they never do. The answer is the same.
#[test]
fn progress_of_long_traces() {
    let folder = folder("progress");
    let text = format!("image zero\n{}read R256\n", "arbitrate\n".repeat(1_100_000));
    fs::write(folder.join("long.st9"), text).expect("a scenario");
    // A fast machine may read the file before there is anything to tell; the bound is told in any case.
    let cases = [
        ("wait long.st9 --source INTB0", "\rst9: the bound over 1100001 steps"),
        ("run long.st9 --quiet", "\r"),
    ];
    for (arguments, progress) in cases {
        let words: Vec<_> = arguments.split(' ').collect();
        let ran = st9_in(&folder, &words, b"").with_code(1);
        assert_eq!(ran.err, "");
        assert!(ran.out.contains("at step 1100000"), "{}", ran.out);
        let command = format!("'{}' {arguments}", env!("CARGO_BIN_EXE_st9"));
        let mut terminal = Command::new("script");
        terminal.args(["-qec", &command, "/dev/null"]).current_dir(&folder).stdin(Stdio::null());
        let Ok(output) = terminal.output() else {
            eprintln!("script is not installed: progress on a terminal is not tried");
            return;
        };
        let shown = String::from_utf8_lossy(&output.stdout);
        assert!(shown.contains(progress), "{shown}");
        let end = format!("\r\x1B[K{}", ran.out.replace('\n', "\r\n"));
        assert!(shown.ends_with(&end), "{shown}");
    }
}

#[test]
fn long_traces_are_answered_alike() {
    let text = long_scenario();
    let whole = run(&text).with_code(1).out;
    let quiet = st9(&["run", "-", "--quiet"], &text).with_code(1).out;
    // The refused step itself is printed with --quiet too.
    assert_eq!(whole.lines().count(), 150_000 + quiet.lines().count());
    assert!(whole.ends_with(&quiet));
    assert!(
        quiet.ends_with("ended by the refusal at step 150000 (line 150002): 150000 steps done\n"),
        "{quiet}"
    );
}
