//! Where a new user stumbled: what an answer says beside the model's, and what is found before a run.

#[path = "support/objects.rs"]
mod objects;
mod support;

use objects::of_type;
use std::fs;
use support::{folder, run, st9, st9_in};

const RECORD: &str = "channel page=9 idcr=240 ivr=241 dcpr=242 dapr=243 data=244 in\n";

/// What the step at an index printed, without its number and statement.
fn answer(scenario: &str, step: usize) -> String {
    let out = st9(&["run", "-", "--json"], scenario).out;
    let steps = of_type(&out, "step");
    let words =
        steps.get(step).unwrap_or_else(|| panic!("{scenario}{out}")).text("words").to_string();
    let told = run(scenario).out;
    assert!(told.lines().any(|line| line.ends_with(&format!(" {words}"))), "{words}\n{told}");
    words
}

/// The answer has all of these words, after the model's own word.
fn assert_says(scenario: &str, step: usize, model: &str, words: &[&str]) {
    let answer = answer(scenario, step);
    let (before, beside) = answer.split_once(" (").unwrap_or((&answer, ""));
    assert_eq!(before, model, "{scenario}");
    for word in words {
        assert!(beside.contains(word), "{word} in {answer:?} of\n{scenario}");
    }
}

/// What is pending, and what keeps each from being acknowledged: mask, level, IEN, the mark.
#[test]
fn none_names_what_is_pending() {
    let image = "image zero\nset EIPLR E4h\nname FAN INTC0\n";
    let rows: [(&str, &[&str]); 9] = [
        ("set CICR 97h\nset EIMR FFh\n", &["nothing is pending"]),
        ("set CICR 97h\nset EIPR 10h\n", &["INTC0 (FAN) masked", "IEN 1", "CPL 7"]),
        ("set CICR 87h\nset EIPR 10h\nset EIMR FFh\n", &["INTC0 (FAN) at level 4", "IEN 0"]),
        (
            "set CICR 94h\nset EIPR 10h\nset EIMR FFh\n",
            &["INTC0 (FAN) at level 4", "IEN 1", "CPL 4"],
        ),
        ("set CICR 97h\nset EIPR 14h\nset EIMR 0\n", &["INTB0 masked", "INTC0 (FAN) masked"]),
        ("set CICR D7h\n", &["TLIP", "TLNM 0", "TLI 0"]),
        (
            "set CICR 97h\nset EIPR 10h\nset EIMR FFh\nset MARK 1\n",
            &["top level is in service", "INTC0 (FAN)"],
        ),
        ("set CICR 97h\nset R240.p9 22h\n", &["channel 0 masked"]),
        ("set CICR 82h\nset R240.p9 32h\n", &["channel 0", "DMA", "level 2", "CPL 2"]),
    ];
    let mut seen = vec![];
    for (sets, words) in rows {
        let scenario = format!("{image}{RECORD}{sets}arbitrate\nexpect none\n");
        assert_says(&scenario, 0, "none", words);
        seen.push(answer(&scenario, 0));
    }
    // An idle part is told from one that has something pending, and these from each other.
    for (index, words) in seen.iter().enumerate() {
        assert!(!seen[..index].contains(words), "{words}");
        assert_eq!(words.contains("nothing is pending"), index == 0, "{words}");
    }
}

#[test]
fn changed_and_back_is_not_unchanged() {
    let back = "every register as at the start";
    let none = "no register changed";
    for (steps, expected) in [
        ("", none),
        ("read R1\n", none),
        ("write R1 0\n", none),
        ("write R1 1\nwrite R1 0\n", back),
        ("edge INTB0 falling\nwrite EIPR 00h\n", back),
        ("write R1 1\nwrite R1 0\nread R256\n", back),
        ("read R256\n", none),
        ("run\nread R1\n", none),
        // What a call changes is a copy.
        ("run\nread R1\nread R256\nexpect refused 3\nread R2\n", none),
    ] {
        for quiet in [&[][..], &["--quiet"]] {
            let out = st9(&[&["run", "-"], quiet].concat(), &format!("image zero\n{steps}")).out;
            let told: Vec<_> = out.lines().filter(|line| *line == back || *line == none).collect();
            assert_eq!(told, [expected], "{steps}{out}");
        }
    }
    let out = run("image zero\nrun\nexpect changed R1 1\nwrite R1 1\nwrite R1 1\n").out;
    assert!(out.contains("changed  R1  00h -> 01h"), "{out}");
}

/// A line of its own, marked, names the record, its line and the rule; the model's answer keeps the number alone.
#[test]
fn notes_of_lists() {
    let second = RECORD.replace("page=9", "page=10");
    let many: String =
        (1..=13).map(|page| RECORD.replace("page=9", &format!("page={page}"))).collect();
    let pair = "channel page=9 idcr=245 ivr=246 dcpr=247 dapr=248 data=242 in\n";
    let rows = [
        (RECORD.replace("page=9", "page=0"), vec!["channel 0", "line 2", "page 0"]),
        (
            format!("{RECORD}{}", RECORD.replace("page=9", "page=64")),
            vec!["channel 1", "line 3", "page 64"],
        ),
        (RECORD.replace("240", "239"), vec!["channel 0", "line 2", "239", "idcr"]),
        (
            format!("{second}{}", RECORD.replace("244", "7")),
            vec!["channel 1", "line 3", "data", "7"],
        ),
        (RECORD.replace(" in", " direction=2"), vec!["channel 0", "line 2", "direction 2"]),
        (
            format!("{RECORD}{RECORD}"),
            vec!["channel 1", "line 3", "channel 0", "line 2", "R240", "page 9"],
        ),
        (format!("{RECORD}{pair}"), vec!["channel 1", "line 3", "R242", "page 9", "twice"]),
        (RECORD.replace("241", "240"), vec!["channel 0", "line 2", "R240", "page 9", "twice"]),
        (many, vec!["channel 12", "line 14", "twelve"]),
    ];
    for (list, words) in rows {
        let scenario = format!("image zero\n{list}arbitrate\n");
        for command in [&["run", "-"][..], &["run", "-", "--quiet"], &["wait", "-"], &["test", "-"]]
        {
            assert_note(command, &scenario, "refused with 2 (channel list breaks a rule)", &words);
        }
        let out = st9(&["run", "-", "--json"], &scenario).with_code(1).out;
        let notes = of_type(&out, "note");
        assert_eq!(notes.len(), 1, "{out}");
        assert!(words.iter().all(|word| notes[0].text("note").contains(word)), "{out}");
    }
}

fn assert_note(command: &[&str], scenario: &str, refusal: &str, words: &[&str]) {
    let out = st9(command, scenario).out;
    let notes: Vec<_> = out.lines().filter(|line| line.trim().starts_with("note: ")).collect();
    assert_eq!(notes.len(), 1, "{command:?}\n{scenario}{out}");
    for word in words {
        assert!(notes[0].contains(word), "{word} in {}", notes[0]);
    }
    // The record and the lengths are the command's: the answer itself has none of them.
    let answers = || out.lines().filter(|line| line.contains(refusal));
    assert!(answers().count() > 0, "{out}");
    assert!(answers().all(|line| !line.contains("note") && !line.contains("(line")), "{out}");
}

#[test]
fn notes_of_images() {
    let folder = folder("notes");
    fs::write(folder.join("ten bytes.bin"), [0; 10]).expect("an image");
    fs::write(folder.join("a.st9"), "\nimage \"ten bytes.bin\"\narbitrate\n").expect("a scenario");
    fs::write(folder.join("b.st9"), "image zero 1264\narbitrate\n").expect("a scenario");
    for (file, words) in [
        ("a.st9", ["ten bytes.bin", "line 2", "10 bytes"]),
        ("b.st9", ["zero", "line 1", "1264 bytes"]),
    ] {
        for command in [&["run", file][..], &["wait", file, "--source", "INTA0"], &["test", file]] {
            let out = st9_in(&folder, command, b"").out;
            let note = out.lines().find(|line| line.trim().starts_with("note: ")).expect("a note");
            assert!(words.iter().all(|word| note.contains(word)), "{note}");
            assert!(out.contains("refused with 1 (image length is not 1,265)"), "{out}");
        }
    }
}

/// `show` has an image, too: its refusal 1 says of which file and length.
#[test]
fn notes_of_shown_images() {
    let folder = folder("notes-show");
    fs::write(folder.join("ten.bin"), [0; 10]).expect("an image");
    let out = st9_in(&folder, &["show", "ten.bin"], b"").with_code(1).out;
    assert!(out.contains("refused with 1 (image length is not 1,265)"), "{out}");
    assert!(out.contains("ten.bin") && out.contains("10 bytes"), "{out}");
}

/// A refusal without its `expect` stands once, with its step and line.
#[test]
fn a_refusal_is_printed_once() {
    for (steps, number, step, line) in [
        ("read R256\n", 3, 0, 2),
        ("return\nedge 8 0\nread R1\n", 4, 1, 3),
        ("return\nread R256\nexpect refused 3\nstep FFFFFFFFFFFFFFFFh\n", 7, 2, 5),
    ] {
        for quiet in [&[][..], &["--quiet"], &["--verbose"]] {
            let scenario = format!("image zero\n{steps}");
            let out = st9(&[&["run", "-"], quiet].concat(), &scenario).with_code(1).out;
            assert_eq!(out.matches(&format!("refused with {number}")).count(), 1, "{out}");
            assert!(out.contains(&format!("step {step} (line {line})")), "{out}");
        }
    }
}

/// A list or an image that is refused before any step, and by `st9 test`, is told once as well.
#[test]
fn a_refusal_before_any_step_is_printed_once() {
    let scenario = format!("image zero\n{RECORD}{RECORD}arbitrate\n");
    for command in [&["run", "-"][..], &["run", "-", "--quiet"], &["test", "-"]] {
        let out = st9(command, &scenario).out;
        assert_eq!(out.matches("refused with 2").count(), 1, "{command:?}\n{out}");
    }
    let out = st9(&["test", "-"], "image zero\nread R256\n").with_code(3).out;
    assert_eq!(out.matches("refused with 3").count(), 1, "{out}");
}

/// What a return restored: document 01 has three kinds.
#[test]
fn returns_say_what_they_restored() {
    let rows: [(&str, &[&str]); 9] = [
        ("set CICR 87h\nreturn", &["IEN 0 -> 1"]),
        ("set CICR 97h\nreturn", &["IEN 1"]),
        ("set CICR 8Ah\nset NICR 28h\nreturn", &["IEN 0 -> 1", "CPL 2 -> 3", "HL3"]),
        ("set CICR 8Ah\nset NICR 28h\nreturn\nreturn", &["CPL 3 -> 5", "HL5"]),
        ("set CICR 9Ah\nset NICR 80h\nreturn", &["CPL 2 -> 7", "no HL bit"]),
        ("set CICR 9Fh\nreturn", &["CPL 7", "no HL bit"]),
        ("set CICR 9Dh\nset NICR 20h\nreturn", &["CPL 5", "HL5"]),
        ("set CICR 8Ah\nset NICR 28h\nset MARK 1\nreturn", &["top level", "mark"]),
        ("set CICR 82h\nset NICR 28h\nreturn", &["IEN 0 -> 1"]),
    ];
    for (statements, words) in rows {
        let scenario = format!("image zero\n{statements}\nexpect returned\n");
        let last = statements.matches("\nreturn").count() - 1;
        assert_says(&scenario, last, "returned", words);
        let says_level = words.iter().any(|word| word.contains("CPL"));
        assert_eq!(answer(&scenario, last).contains("CPL"), says_level, "{scenario}");
    }
    let top = "image zero\nset CICR 8Ah\nset MARK 1\nreturn\n";
    assert!(!answer(top, 0).contains("IEN 0 -> 1"));
}

#[test]
fn writes_say_what_they_leave_and_raise() {
    let rows: [(&str, &str, &[&str]); 9] = [
        ("set NICR 80h\nwrite NICR 00h", "written", &["TLNM", "stays", "80h"]),
        ("set NICR 80h\nwrite NICR 05h", "written", &["TLNM", "stays", "85h"]),
        ("write EIPR 14h", "written", &["INTB0", "INTC0 (FAN)", "pending"]),
        ("set EIPR 14h\nwrite EIPR 18h", "erased 04h: INTB0", &["INTB1", "pending"]),
        ("write CICR 40h", "written", &["TLIP", "pending"]),
        (
            "set R240.p9 0Ah\nset PPR 24h\nwrite R240 2Ah",
            "written",
            &["IP of channel 0", "pending"],
        ),
        ("step 0x000100000000F304", "written", &["INTB0", "pending"]),
        ("set PPR 24h\nwrite EIPR 14h", "written", &["DAPR of channel 0", "PPR selects it"]),
        (
            "set PPR 24h\nset EIPR 14h\nwrite EIPR 00h",
            "written",
            &["DAPR of channel 0", "PPR selects it"],
        ),
    ];
    for (statements, model, words) in rows {
        let scenario = format!("image zero\nname FAN INTC0\n{RECORD}{statements}\n");
        assert_says(&scenario, 0, model, words);
    }
    // Nothing to say where nothing stays or is raised.
    for statements in [
        "set NICR 80h\nwrite NICR 80h",
        "write NICR 00h",
        "set EIPR 14h\nwrite EIPR 14h",
        "write R16 FFh",
        "set CICR 40h\nwrite CICR 57h",
    ] {
        let answer = answer(&format!("image zero\n{statements}\n"), 0);
        let silent = ["stays", "pending)", "sets"].iter().all(|word| !answer.contains(word));
        assert!(silent, "{statements}: {answer}");
    }
}

/// Why a trigger selects nothing: the source is another one, or the edge.
#[test]
fn not_selected_says_why() {
    let rows: [(&str, &str, &[&str]); 10] = [
        ("set EIVR 40h\nedge INTA0 falling", "INTA0 not selected", &["IAOS 0"]),
        ("set EIVR 44h\nset EITR 01h\nedge INTA0 rising", "INTA0 not selected", &["IAOS 0"]),
        ("set EIVR 46h\nedge INTA0 rising", "INTA0 not selected", &["EITR", "falling"]),
        ("edge INTB0 rising", "INTB0 not selected", &["EITR", "bit 2", "falling"]),
        ("set EITR 04h\nedge INTB0 falling", "INTB0 not selected", &["EITR", "bit 2", "rising"]),
        ("set EIVR 42h\nnmi falling", "TLIP not selected", &["TLIS 0"]),
        ("set EIVR 46h\nnmi rising", "TLIP not selected", &["TLTEV 0", "falling"]),
        ("set EIVR 4Eh\nnmi falling", "TLIP not selected", &["TLTEV 1", "rising"]),
        (
            "set EIVR 46h\nwatchdog",
            "INTA0 not selected",
            &["IAOS 1", "TLIP not selected", "TLIS 1"],
        ),
        ("set EIVR 44h\nwatchdog", "raised INTA0; TLIP not selected", &["TLIS 1"]),
    ];
    for (statements, model, words) in rows {
        assert_says(&format!("image zero\n{statements}\n"), 0, model, words);
    }
    let answer = answer("image zero\nset EIVR 42h\nwatchdog\n", 0);
    assert!(
        answer.contains("INTA0 not selected (IAOS 1") && answer.ends_with("raised TLIP"),
        "{answer}"
    );
}

/// Every `set` as it is stored, and what each step changed.
#[test]
fn verbose_echoes_sets_and_changes() {
    let scenario = format!(
        "image zero\nset CICR 97\nset EIMR 14h\nset R16 20\nset MARK 5\n{RECORD}set R240.p9 1Ah\nset PPR 27h\n\
         write R16 21\nread R16\nreset\n"
    );
    let out = st9(&["run", "-", "--verbose"], &scenario).with_code(0).out;
    let sets: Vec<_> = out.lines().filter(|line| line.starts_with("set ")).collect();
    let expected: [&[&str]; 6] = [
        &["CICR", "61h", "TLIP 1", "TLI 1", "IEN 0", "CPL 1"],
        &["EIMR", "14h", "INTB0 1", "INTC0 1", "INTD0 0"],
        &["R16", "14h"],
        &["MARK", "05h"],
        &["IDCR of channel 0", "1Ah", "IP 0", "DM 1", "IM 1", "PRL 2"],
        &["PPR", "27h", "page 9"],
    ];
    assert_eq!(sets.len(), expected.len(), "{out}");
    for (set, words) in sets.iter().zip(expected) {
        assert!(words.iter().all(|word| set.contains(word)), "{set}");
    }
    let lines: Vec<_> = out.lines().collect();
    let step = lines.iter().position(|line| line.starts_with("0  write R16")).expect("the step");
    assert_eq!(lines[step + 1].trim(), "changed  R16  14h -> 15h");
    assert!(lines[step + 2].starts_with("1  read R16"), "{out}");
    assert!(!run(&scenario).out.lines().any(|line| line.starts_with("set ")));
    let out = st9(&["run", "-", "--verbose", "--json"], &scenario).with_code(0).out;
    let bytes: Vec<_> = of_type(&out, "register").iter().map(|set| set.number("byte")).collect();
    assert_eq!(bytes, [0x61, 0x14, 20, 5, 0x1A, 0x27]);
    let ran = st9(&["run", "-", "--verbose", "--quiet"], &scenario).with_code(2);
    assert!(ran.err.contains("--quiet") && ran.err.contains("--verbose"), "{}", ran.err);
}

/// A register that is set twice: each line has the byte that its own `set` stored.
#[test]
fn verbose_echoes_each_set_as_it_stores() {
    let scenario =
        "image zero\nset CICR 97h\nset CICR IEN=0 CPL=3\nset R16 1\nset R16 2\nread R1\n";
    let out = st9(&["run", "-", "--verbose", "--json"], scenario).with_code(0).out;
    let bytes: Vec<_> = of_type(&out, "register").iter().map(|set| set.number("byte")).collect();
    assert_eq!(bytes, [0x97, 0x83, 1, 2]);
}

/// `set CICR 97` is 61h: a warning on standard error, and nothing else changes.
#[test]
fn decimal_numbers_that_look_hexadecimal() {
    for statement in
        ["set CICR 97", "set EIMR 14", "set EIPR.p0 10", "set R230 97", "write CICR 17\nread R1"]
    {
        let scenario = format!("image zero\n{statement}\n");
        let ran = run(&scenario).with_code(0);
        let number = statement.split_whitespace().nth(2).expect("a number");
        assert!(
            ran.err.starts_with("-:2: warning: ") && ran.err.contains(&format!("{number}h")),
            "{}",
            ran.err
        );
        assert_eq!(ran.err.lines().count(), 1);
        let hex = format!("{:02X}h", number.parse::<u8>().expect("a byte"));
        assert!(ran.err.contains(&hex), "{}", ran.err);
        assert_eq!(ran.out, run(&scenario.replace(number, &hex)).with_code(0).out);
        for command in [&["run", "-", "--json"][..], &["test", "-"], &["wait", "-"]] {
            assert_eq!(st9(command, &scenario).with_code(0).err, ran.err);
        }
    }
    let silent = [
        "set R16 20",
        "set CICR 97h",
        "set CICR 0x97",
        "set CICR 151",
        "set CICR 7",
        "set R239 97",
        "set MARK 10",
        "set CICR CPL=7",
        "set R250.p9 97",
        "set EIPLR groupA=3",
        "set MODER 97",
    ];
    for statement in silent {
        assert_eq!(run(&format!("image zero\n{statement}\n")).with_code(0).err, "", "{statement}");
    }
    // What all cases have in common is told once.
    let cases = "image zero\nset CICR 97\ncase a\nread R1\ncase b\nread R1\n";
    assert_eq!(run(cases).with_code(0).err.lines().count(), 1);
}

/// The bits of a record's IDCR have names, too.
#[test]
fn decimal_numbers_of_an_idcr() {
    let ran = run(&format!("image zero\n{RECORD}set R240.p9 32\n")).with_code(0);
    assert!(ran.err.starts_with("-:3: warning: "), "{:?}", ran.err);
}

/// R16 has no bits with names, wherever its byte stands.
#[test]
fn decimal_bytes_of_plain_registers() {
    let scenario =
        "image zero\nset R16 20\nread R16\nexpect byte 20\nexpect R16 20\nwrite R16 21\n\
                    expect changed R16 20 -> 21\n";
    assert_eq!(run(scenario).with_code(0).err, "");
}

/// CICR has, wherever its byte stands.
#[test]
fn decimal_bytes_of_named_registers() {
    for expectation in ["byte 97", "CICR 97", "changed CICR 97", "changed CICR 0 -> 97"] {
        let step = if expectation == "byte 97" { "read CICR" } else { "write CICR 61h" };
        let ran = run(&format!("image zero\n{step}\nexpect {expectation}\n"));
        assert!(ran.err.starts_with("-:3: warning: "), "{expectation}: {:?}", ran.err);
    }
}

/// One is one.
#[test]
fn many_warnings() {
    for (more, words) in [(1, "1 more warning\n"), (2, "2 more warnings\n")] {
        let sets = "set CICR 97\n".repeat(10 + more);
        let ran = run(&format!("image zero\n{sets}read R1\n")).with_code(0);
        assert!(ran.err.ends_with(words), "{}", ran.err);
    }
}

/// A path that cannot be written is found before anything is run or printed, and a bad file leaves what is there.
#[test]
fn saves_that_cannot_be_written() {
    let folder = folder("save-first");
    fs::write(folder.join("a.st9"), "image old.bin\nwrite R1 1\nread R256\n").expect("a scenario");
    fs::write(folder.join("bad.st9"), "image zero\nnonsense\n").expect("a file");
    fs::write(folder.join("old.bin"), [7; 1265]).expect("an image");
    fs::create_dir(folder.join("sub")).expect("a folder");
    for path in ["none/end.bin", "sub", "sub/", "a.st9/end.bin", ""] {
        for command in [
            &["run", "a.st9"][..],
            &["wait", "a.st9", "--source", "INTA0"],
            &["run", "a.st9", "--json"],
        ] {
            let ran = st9_in(&folder, &[command, &["--save", path]].concat(), b"").with_code(2);
            assert_eq!(ran.out, "", "{path}");
            assert!(
                ran.err.contains("--save") && ran.err.contains(&format!("'{path}'")),
                "{}",
                ran.err
            );
        }
    }
    for path in ["old.bin", "new.bin"] {
        st9_in(&folder, &["run", "bad.st9", "--save", path], b"").with_code(2);
        st9_in(&folder, &["run", "a.st9", "--fail-on", "x", "--save", path], b"").with_code(2);
    }
    assert_eq!(fs::read(folder.join("old.bin")).expect("the image"), [7; 1265]);
    assert!(!folder.join("new.bin").exists());
    // In place: the image is read before it is written.
    st9_in(&folder, &["run", "a.st9", "--save", "old.bin"], b"").with_code(1);
    let saved = fs::read(folder.join("old.bin")).expect("the image");
    assert_eq!((saved.len(), saved[0], saved[1], saved[2]), (1265, 7, 1, 7));
}

/// A source that is none is found before the file to save to is made.
#[test]
fn a_bad_source_leaves_no_file() {
    let folder = folder("save-source");
    fs::write(folder.join("a.st9"), "image zero\narbitrate\n").expect("a scenario");
    let arguments = ["wait", "a.st9", "--source", "PUMP", "--save", "new.bin"];
    let ran = st9_in(&folder, &arguments, b"").with_code(2);
    assert!(ran.err.contains("'PUMP'"), "{}", ran.err);
    assert!(!folder.join("new.bin").exists());
}

/// A word in a message stands as it was written; only what cannot be printed is escaped.
#[test]
fn quoting() {
    let rows: [(&[u8], &str); 7] = [
        ("read é".as_bytes(), "'é'"),
        (b"read \"a\"", "'\"a\"'"),
        (b"read a\\b", "'a\\b'"),
        (b"read it's", "'it's'"),
        (b"read a\x01b", "'a\\x01b'"),
        (b"read \xFF", "'\\xff'"),
        (b"image \"a", "'\"a'"),
    ];
    for (line, quoted) in rows {
        let text =
            [if line.starts_with(b"image") { &b"\n"[..] } else { b"image zero\n" }, line, b"\n"]
                .concat();
        let ran = st9_in(&support::root(), &["run", "-"], &text).with_code(2);
        assert!(ran.err.starts_with(&format!("-:2: {quoted}: expected ")), "{}", ran.err);
    }
    let ran = st9(&["walk it"], "").with_code(2);
    assert!(ran.err.starts_with("st9: 'walk it' is no command"), "{}", ran.err);
}

/// A name that is also a field's would hide the field.
#[test]
fn names_of_fields_are_taken() {
    for field in [
        "IEN", "CPL", "TLI", "GCEN", "IAM", "TLNM", "HL0", "IAOS", "TLTEV", "DM", "IM", "PRL",
        "page",
    ] {
        let ran = run(&format!("image zero\nname {field} INTC0\nread R1\n")).with_code(2);
        assert!(ran.err.starts_with(&format!("-:2: '{field}': expected a name")), "{}", ran.err);
    }
}

const NAMED: &str = "image zero\nname FAN INTC0\nname UART CH0\nset CICR 97h\nset EIMR FFh\n";

/// A name of one's own is printed beside its source in every answer.
#[test]
fn names_are_printed_beside_the_source() {
    let scenario = format!(
        "{NAMED}{RECORD}edge FAN falling\narbitrate\nrequest UART\narbitrate\nwrite EIPR 10h\nwrite EIPR 00h\n"
    );
    let expected = [
        "raised INTC0 (FAN)",
        "acknowledged INTC0 (FAN), level 0, vector 08h",
        "raised channel 0 (UART)",
        "none (pending: channel 0 (UART) masked; IEN 0, CPL 7)",
        "written (sets INTC0 (FAN) pending)",
        "erased 10h: INTC0 (FAN)",
    ];
    let out = st9(&["run", "-", "--json"], &scenario).with_code(0).out;
    let told: Vec<_> =
        of_type(&out, "step").iter().map(|step| step.text("words").to_string()).collect();
    assert_eq!(told, expected);
}

/// Where the bits of a register are told by their sources, too.
#[test]
fn names_are_printed_beside_the_bits() {
    let out = run(&format!("{NAMED}edge FAN falling\nread EIPR\n")).with_code(0).out;
    assert!(out.contains("byte 10h (INTC0 (FAN))"), "{out}");
    assert!(out.contains("INTC0 (FAN) 0 -> 1"), "{out}");
}

/// `--json` has the notes wherever the words have them.
#[test]
fn notes_in_objects() {
    let scenario = format!("image zero\n{RECORD}{RECORD}arbitrate\n");
    for command in [&["run", "-"][..], &["wait", "-", "--source", "INTA0"], &["test", "-"]] {
        let out = st9(&[command, &["--json"]].concat(), &scenario).out;
        assert_eq!(of_type(&out, "note").len(), 1, "{command:?}\n{out}");
    }
}

/// A wait has its arbitrations, unless it is refused before any step: then its number stands alone.
#[test]
fn waits_have_their_arbitrations() {
    for (scenario, source, has) in [
        ("image zero\narbitrate\n".to_string(), "INTA0", true),
        ("image zero\narbitrate\nread R256\n".to_string(), "INTA0", true),
        ("image zero\narbitrate\n".to_string(), "CH0", false),
        (format!("image zero\n{RECORD}{RECORD}arbitrate\n"), "INTA0", false),
    ] {
        let out = st9(&["wait", "-", "--json", "--source", source], &scenario).out;
        assert_eq!(of_type(&out, "wait")[0].has("arbitrations"), has, "{out}");
    }
}

/// A change of a step is told from those of the whole run: with --verbose both are there.
#[test]
fn changes_of_steps_are_told_from_those_of_the_run() {
    let scenario = "image zero\nwrite R1 1\nwrite R2 2\n";
    let out = st9(&["run", "-", "--json", "--verbose"], scenario).with_code(0).out;
    let changes = of_type(&out, "change");
    assert_eq!(changes.len(), 4, "{out}");
    for (index, change) in changes.iter().enumerate() {
        assert!(!changes[..index].contains(change), "{out}");
    }
}
