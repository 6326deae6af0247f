//! Refusals: exit code 1, with the number, document 01's words, the step and its line.

mod support;

use st9::Refusal;
use support::{folder, run, st9, st9_in};

fn words(number: u64) -> String {
    let refusal = Refusal::from_number(number).expect("a number of document 01");
    format!("refused with {number} ({refusal})")
}

const CHANNEL: &str = "channel page=9 idcr=240 ivr=241 dcpr=242 dapr=243 data=244 in\n";

#[test]
fn each_number_at_a_step() {
    let dma = format!("set CICR 87h\nset R240.p9 32h\n{CHANNEL}");
    let address = format!("{dma}return\narbitrate\n");
    let pointer = format!("set R242.p9 E1h\n{dma}return\narbitrate\n");
    // The line counts from the top, where `image zero` is line 1.
    let cases = [
        ("return\nread R256\n", 3, 3),
        ("return\nread R240\n", 3, 3),
        ("return\nwrite R9999999 0\n", 3, 3),
        ("return\nedge 9 falling\n", 4, 3),
        ("return\nedge 2 2\n", 4, 3),
        ("return\nnmi 2\n", 4, 3),
        ("return\nrequest 0\n", 4, 3),
        ("return\nrequest 40\n", 4, 3),
        (address.as_str(), 5, 6),
        (pointer.as_str(), 6, 7),
        ("return\nstep 0x0006000000000000\n", 7, 3),
        ("return\nstep 0x0002000400000000\n", 7, 3),
    ];
    for (statements, number, line) in cases {
        assert_refused_at_step_1(&format!("image zero\n{statements}return\n"), number, line);
    }
}

/// The step before it is done, those after it are not. The refusal is printed once, with `--quiet` too.
fn assert_refused_at_step_1(scenario: &str, number: u64, line: usize) {
    let out = run(scenario).with_code(1).out;
    let lines: Vec<_> = out.lines().collect();
    let words = words(number);
    assert_eq!(out.matches("refused with").count(), 1, "{out}");
    assert!(lines[1].starts_with("1  ") && lines[1].contains(&words), "{out}");
    assert!(lines[2].starts_with("changed  CICR R230  "), "{out}");
    assert!(lines[3].starts_with("account  "), "{out}");
    let end = format!("ended by the refusal at step 1 (line {line}): 1 step done, 1 not done");
    assert_eq!(lines[4..], [end.as_str()], "{out}");
    let quiet = st9(&["run", "-", "--quiet"], scenario).with_code(1).out;
    assert_eq!(quiet.lines().collect::<Vec<_>>(), lines[1..]);
    let tested = st9(&["test", "-"], scenario).with_code(3).out;
    let told = format!("-:1: failed\n  -:{line}: {words}, and that is not expected\n  ");
    assert!(tested.starts_with(&told) && tested.contains(&format!("\n  {end}\n")), "{tested}");
    let noted = matches!(number, 5 | 6);
    assert_eq!(tested.contains("\n  note: channel 0: "), noted, "{tested}");
}

const NO_ACCOUNT: &str = "account  none: the image is refused\n";
const NOTHING: &str = "account  nothing was pending or triggered\n";

/// Nothing is done; what the command can tell of the list stands in a line of its own.
#[test]
fn lists_before_any_step() {
    let twice = format!("{CHANNEL}{CHANNEL}");
    let within = CHANNEL.replace("dapr=243", "dapr=242");
    let page = format!("{}{}", CHANNEL, CHANNEL.replace("page=9", "page=64"));
    let register = CHANNEL.replace("244", "239");
    let direction = CHANNEL.replace(" in", " direction=2");
    let all: String =
        (1..14).map(|page| CHANNEL.replace("page=9", &format!("page={page}"))).collect();
    let cases = [
        (twice, "channel 1 (line 3): R240 of page 9 stands twice, first in channel 0 (line 2)"),
        (within, "channel 0 (line 2): R242 of page 9 stands twice"),
        (page, "channel 1 (line 3): page 64, where 1 to 63 are allowed"),
        (register, "channel 0 (line 2): data 239, where 240 to 255 are allowed"),
        (direction, "channel 0 (line 2): direction 2, where 0 and 1 are allowed"),
        (all, "channel 12 (line 14) is one record too many: a list has at most twelve"),
    ];
    for (list, note) in cases {
        let words = words(2);
        let expected =
            format!("no register changed\n{NOTHING}note: {note}\n{words}, before any step\n");
        for steps in ["", "arbitrate\n", "read R256\n"] {
            let scenario = format!("image zero\n{list}{steps}");
            assert_eq!(run(&scenario).with_code(1).out, expected);
            assert_eq!(st9(&["run", "-", "--quiet"], &scenario).with_code(1).out, expected);
        }
    }
}

/// The command's note on a list and the model's refusal agree: every list within the rules has none.
#[test]
fn notes_of_lists_agree_with_the_model() {
    let mut random = support::Random(0x0915_0015);
    let mut refused = 0;
    for _ in 0..300 {
        let mut list = String::new();
        for _ in 0..random.below(5) {
            let page = random.pick(&[1, 2, 3, 9, 63, 63, 0, 64]);
            let start = random.pick(&[240, 245, 250, 251, 239]);
            let [idcr, ivr, dcpr, dapr] = [start, start + 1, start + 2, start + 3];
            let data = start + random.pick(&[4, 4, 4, 4, 4, 0, 3]);
            let direction = random.pick(&["in", "out", "in", "out", "direction=2"]);
            list += &format!("channel page={page} idcr={idcr} ivr={ivr} dcpr={dcpr} dapr={dapr} data={data} {direction}\n");
        }
        let ran = run(&format!("image zero\n{list}"));
        assert_eq!(
            ran.out.contains("note: "),
            ran.out.contains("refused with 2"),
            "{list}{}",
            ran.out
        );
        refused += usize::from(ran.code == Some(1));
    }
    assert!((50..250).contains(&refused), "{refused}");
}

#[test]
fn images_of_another_length() {
    let folder = folder("lengths");
    for length in [0, 1264, 1266, 1268] {
        std::fs::write(folder.join("image.bin"), vec![0xA5; length]).expect("an image");
        let scenario = "image image.bin\nset MARK 1\narbitrate\n";
        std::fs::write(folder.join("a.st9"), scenario).expect("a scenario");
        let ran = st9_in(&folder, &["run", "a.st9"], b"").with_code(1);
        let note = format!("note: the image image.bin (line 1) has {length} bytes");
        let expected =
            format!("no register changed\n{NO_ACCOUNT}{note}\n{}, before any step\n", words(1));
        assert_eq!(ran.out, expected);
        let ran = st9_in(&folder, &["show", "image.bin", "--page", "64"], b"").with_code(1);
        assert_eq!(ran.out, format!("note: image.bin has {length} bytes\n{}\n", words(1)));
        let made =
            st9(&["run", "-"], &format!("image fill A5h {length}\narbitrate\n")).with_code(1);
        let note = format!("note: the image fill A5h {length} (line 1) has {length} bytes\n");
        assert!(made.out.contains(&note), "{}", made.out);
    }
}

#[test]
fn pages_that_are_not_there() {
    let image = vec![0; st9::IMAGE_LENGTH];
    for page in ["64", "255", "FFFFFFFFh"] {
        let arguments = ["show", "-", "--page", page];
        let ran = st9_in(&support::root(), &arguments, &image).with_code(1);
        assert_eq!(ran.out, format!("{}\n", words(3)));
    }
}

#[test]
fn waits() {
    let before = |source: &str, number| {
        let words = words(number);
        format!("wait for {source}: {words}, before any step\nbound  {words}\n")
    };
    let none = "image zero\narbitrate\n";
    let ran = st9(&["wait", "-", "--source", "CH0"], none).with_code(1);
    assert_eq!(ran.out, before("channel 0 (source 8)", 4));
    let ran = st9(&["wait", "-", "--source", "4294967295"], none).with_code(1);
    assert_eq!(ran.out, before("channel 4294967287 (source 4294967295)", 4));
    let bad = format!("image zero\n{CHANNEL}{CHANNEL}arbitrate\n");
    let ran = st9(&["wait", "-", "--source", "99"], &bad).with_code(1);
    let note =
        "note: channel 1 (line 3): R240 of page 9 stands twice, first in channel 0 (line 2)\n";
    assert_eq!(ran.out, before("channel 91 (source 99)", 2) + note);

    let midway = "image zero\narbitrate\nreturn\nread R256\narbitrate\n";
    let ran = st9(&["wait", "-", "--source", "INTB1"], midway).with_code(1);
    let refusal = Refusal::Register;
    let refused = format!("refused with 3 at step 2, after 1 arbitration (line 4: {refusal})");
    let bound = "none: the source is not pending";
    assert_eq!(ran.out, format!("wait for INTB1 (source 3): {refused}\nbound  {bound}\n"));
}
