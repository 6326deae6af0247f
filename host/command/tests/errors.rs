//! Bad files and bad usage: exit code 2, with the line and what was expected, and nothing on standard output.

mod support;

use support::{folder, st9, st9_in};

const STATEMENTS: &str = "image, set, memory, poke, channel, name, case, again, a step (read, write, edge, watchdog, nmi, request, arbitrate, return, reset, step), \
                          repeat, run, wait, bound, handler bound, view or expect";
const NAME: &str = "zero, fill BYTE or counted, each with or without a length, or a file's name (with blanks: between double quotes)";

/// Bad lines and what is told of each.
const BAD_LINES: &str = "\
nonsense => 'nonsense': expected STATEMENTS
arbitrates => 'arbitrates': expected STATEMENTS
(the handlers' claim; the list has 2 arbitrations; demand 3 does not speak of step 4) => '(the': expected STATEMENTS
set => the line ends too early: expected PLACE
set CICR => the line ends too early: expected BYTE
set CICR 100h => '100h': expected BYTE
set CICR 9G => '9G': expected BYTE
set CICR -1 => '-1': expected BYTE
set FOO 1 => 'FOO': expected PLACE
set R256 1 => 'R256': expected a register of R0 to R255
set R240 1 => 'R240': expected a page with R240 to R255, as R240.p9
set R243 1 => 'R243': expected a page with R240 to R255, as R240.p9
set R240.p64 1 => 'R240.p64': expected a page of .p0 to .p63
set R240.9 1 => 'R240.9': expected a page of .p0 to .p63
set R240. 1 => 'R240.': expected a page of .p0 to .p63
set EIPR.p9 1 => 'EIPR.p9': expected page 0, that of the name
set CICR.p0 1 => 'CICR.p0': expected R0 to R239 without a page
set R16.p3 1 => 'R16.p3': expected R0 to R239 without a page
set MARK.p0 1 => 'MARK.p0': expected PLACE
set CICR 97h 1 => '1': expected the end of the line
channel => page is missing: expected CHANNEL
channel page=9 in => idcr is missing: expected CHANNEL
channel page=9 idcr=240 ivr=241 dcpr=242 dapr=243 data=244 => in or out is missing: expected CHANNEL
channel page=256 => 'page=256': expected a number of at most 255
channel idcr=R256 => 'idcr=R256': expected a number of at most 255
channel idcr= => 'idcr=': expected a number of at most 255
channel page=9 page=9 => 'page=9': expected each field once
channel in out => 'out': expected each field once
channel pages=9 => 'pages=9': expected CHANNEL
read => the line ends too early: expected REGISTER
read FOO => 'FOO': expected REGISTER
read R4294967296 => 'R4294967296': expected REGISTER
read EIPR.p0 => 'EIPR.p0': expected REGISTER
write R240.p9 0 => 'R240.p9': expected REGISTER
read EIPR 1 => '1': expected the end of the line
write EIPR => the line ends too early: expected BYTE
write EIPR 256 => '256': expected BYTE
edge => the line ends too early: expected PIN
edge INTE0 falling => 'INTE0': expected PIN
edge INTB0 => the line ends too early: expected DIRECTION
edge INTB0 up => 'up': expected DIRECTION
nmi => the line ends too early: expected DIRECTION
request => the line ends too early: expected RECORD
request CH => 'CH': expected RECORD
watchdog 1 => '1': expected the end of the line
step => the line ends too early: expected a number as 97h, 0x97 or 151
step 0x10000000000000000 => '0x10000000000000000': expected a number as 97h, 0x97 or 151
return 1 2 3 4 5 6 7 8 9 => '9': expected the end of the line
image zero => a second image: expected one, that of line 1
memory => nothing: expected LENGTH
memory a b => 'a b': expected LENGTH
memory \"\" => '\"\"': expected LENGTH
memory 1048577 => '1048577': expected at most 1,048,576 bytes
memory 100001h => '100001h': expected at most 1,048,576 bytes
memory 99999999999999999999 => '99999999999999999999': expected at most 1,048,576 bytes
poke => the line ends too early: expected ADDRESS
poke M5 1 => 'M5': expected ADDRESS
poke 18446744073709551616 1 => '18446744073709551616': expected ADDRESS
poke 5 => the line ends too early: expected BYTE
poke 5 1 256 => '256': expected BYTE
poke 5 1 x => 'x': expected BYTE
poke 5 1 => poke 0005h: expected a memory, by memory SIZE or memory FILE
name Memory INTC0 => 'Memory': expected NAME
name poke INTC0 => 'poke': expected NAME
repeat 3 poke 5 1 => 'poke': expected STEP
read\0EIPR => 'read\\x00EIPR': expected STATEMENTS
read \u{E9} => '\u{E9}': expected REGISTER
read 'EIPR' => ''EIPR'': expected REGISTER
set CICR IEN=2 => 'IEN=2': expected IEN of 0 to 1
set CICR IEN=1 IEN=1 => 'IEN=1': expected each field once
set CICR IEN=1 97h => '97h': expected a field as IEN=1
set CICR HL0=1 => 'HL0=1': expected a field of GCEN, TLIP, TLI, IEN, IAM, CPL
set R16 IP=1 => 'IP=1': expected a byte: this register's bits have no names
set EIVR vector=44h => 'vector=44h': expected vector of 00h, 10h to F0h
name FAN => the line ends too early: expected SOURCE
name CICR INTC0 => 'CICR': expected NAME
name 4FAN INTC0 => '4FAN': expected NAME
name arbitrate INTC0 => 'arbitrate': expected NAME
name FAN INTE0 => 'INTE0': expected SOURCE
wait => the line ends too early: expected SOURCE
wait INTE0 => 'INTE0': expected SOURCE
bound channel => the line ends too early: expected SOURCE
handler => the line ends too early: expected bound and a source after handler
handler INTB0 => 'INTB0': expected bound and a source after handler
handler wait INTB0 => 'wait': expected bound and a source after handler
handlers bound INTB0 => 'handlers': expected STATEMENTS
handler bound => the line ends too early: expected SOURCE
handler bound INTE0 => 'INTE0': expected SOURCE
handler bound INTB0 1 => '1': expected the end of the line
name handler INTC0 => 'handler': expected NAME
view => the line ends too early: expected a page's number
view 4294967296 => '4294967296': expected a page's number
run 3 => '3': expected the end of the line
case => the case has no title: expected one
again => again before a case: expected case TITLE before it
again and again => again before a case: expected case TITLE before it
name Again INTC0 => 'Again': expected NAME
name repeat INTC0 => 'repeat': expected NAME
repeat => the line ends too early: expected TIMES
repeat arbitrate => 'arbitrate': expected TIMES
repeat 0 arbitrate => '0': expected TIMES
repeat 1000001 arbitrate => '1000001': expected TIMES
repeat 18446744073709551617 return => '18446744073709551617': expected TIMES
repeat 3 => the line ends too early: expected STEP
repeat 3 run => 'run': expected STEP
repeat 3 wait INTB0 => 'wait': expected STEP
repeat 3 handler bound INTB0 => 'handler': expected STEP
repeat 3 expect none => 'expect': expected STEP
repeat 3 set R1 1 => 'set': expected STEP
repeat 3 again => 'again': expected STEP
repeat 3 repeat 3 return => 'repeat': expected STEP
repeat 3 read FOO => 'FOO': expected REGISTER
repeat 3 write EIPR => the line ends too early: expected BYTE
repeat 3 arbitrate 1 => '1': expected the end of the line
expect raised => 'expect raised' before a step: expected a step, run, wait, bound, handler bound or view before it
arbitrate\rreturn => a carriage return inside a line: expected lines ended by LF or CRLF";

/// What stands for the words in capitals.
const EXPECTED: [(&str, &str); 14] = [
    ("TIMES", "how often, 1 to 1000000"),
    ("ADDRESS", "an address of the memory as 0005h, 0x5 or 5"),
    ("LENGTH", "a number of bytes, or a file's name (with blanks: between double quotes)"),
    ("STEP", "a step as arbitrate or write EIPR 00h"),
    ("PIN", "a pin as INTB0 or 2, or a name of your own"),
    ("RECORD", "a record as 0 or CH0, or a name of your own"),
    ("STATEMENTS", STATEMENTS),
    ("SOURCE", "a source as INTB1 or CH0, a name of your own or a number"),
    ("NAME", "a name of letters, digits, _ and -, a letter first, that is no word of the language"),
    ("PLACE", "R0 to R239, a name as EIPR, R240.p9 or MARK"),
    ("BYTE", "a byte as 97h, 0x97 or 151, at most FFh"),
    ("CHANNEL", "page=, idcr=, ivr=, dcpr=, dapr=, data=, and in or out"),
    ("REGISTER", "a register as EIPR, R243 or 243, without a page: PPR selects it"),
    ("DIRECTION", "falling, rising or a number"),
];

#[test]
fn bad_lines_are_told_with_line_and_expectation() {
    for row in BAD_LINES.split('\n') {
        let (line, message) = row.split_once(" => ").expect("a line and its message");
        let in_full = |text: String, (word, words): &(&str, &str)| text.replace(word, words);
        let message = EXPECTED.iter().fold(message.to_string(), in_full);
        let ran = st9(&["run", "-"], &format!("image zero\n\n{line}\narbitrate\n")).with_code(2);
        assert_eq!(ran.err, format!("-:3: {message}\n"), "{line}");
        assert_eq!(ran.out, "", "{line}");
    }
}

/// Bad expectations and what is told of each, after a step.
const BAD_EXPECTATIONS: &str = "\
=> the line ends too early: expected ANY
(14h) => the line ends too early: expected ANY
nonsense => 'nonsense': expected ANY
byte => the line ends too early: expected BYTE
byte 100h => '100h': expected BYTE
byte 14h 15h => '15h': expected the end of the line
written 00h => '00h': expected the end of the line
erased => the line ends too early: expected BIT
erased 00h => 00h: expected a bit that is erased, or 'written'
erased 14h INTB0 => '14h': expected the names of its bits after it
erased INTE0 => 'INTE0': expected BIT
raised 2 => '2': expected BIT
raised INTA0 TLIP not => the line ends too early: expected not selected
INTA0 not raised => 'raised': expected not selected
not => the line ends too early: expected not selected or not acknowledged
not raised => 'raised': expected not selected or not acknowledged
acknowledged TLIP => 'TLIP': expected SOURCE
acknowledged INTC0 vector => the line ends too early: expected BYTE
acknowledged INTC0 vector 48h level 4 => 'level': expected the end of the line
acknowledged by arbitration => the line ends too early: expected a number
DMA of => the line ends too early: expected SOURCE
DMA CH0 block starts => 'starts': expected the end of the line
refused => the line ends too early: expected the number of a refusal
refused 0 => '0': expected the number of a refusal
refused 9 => '9': expected the number of a refusal
refused 3 before => 'before': expected the end of the line
refused 3 before step => 'before': expected the end of the line
refused 4 before any step after 1 arbitration => 'after': expected the end of the line
none: asleep => 'asleep': expected PREMISE
none: changed at step 1 => 'changed at step 1': expected PREMISE
none: erasedly => 'erasedly': expected PREMISE
none: mask changed at step => the line ends too early: expected a number
none: mask changed at step 1 2 => '2': expected the end of the line
none: the write at step 1 => nothing: expected PREMISE
none: the write at step 1 masked => 'masked': expected PREMISE
done => the line ends too early: expected a number
done 1 last => the line ends too early: expected ANY
bytes 00h 01h => the line ends too early: expected sixteen bytes
changed => the line ends too early: expected nothing, or registers and addresses with their bytes
changed EIPR => the line ends too early: expected BYTE
changed EIPR 1 EIPR 2 => 'EIPR': expected each byte once
changed M5 => the line ends too early: expected BYTE
changed M5 x => 'x': expected BYTE
changed M5 1 -> => the line ends too early: expected BYTE
changed M5 1 2 -> 3 => 2 and 1 bytes: expected as many after -> as before it
changed M5 1 M5h 2 => 'M5h': expected each byte once
changed M5 1 2 M6 2 => 'M6': expected each byte once
changed Mx 1 => 'Mx': expected R0 to R239, a name as EIPR, R240.p9 or MARK
memory => the line ends too early: expected ADDRESS
memory 5 => the line ends too early: expected BYTE
memory M5 1 => 'M5': expected ADDRESS
memory 5 256 => '256': expected BYTE
DMA CH0 to memory => the line ends too early: expected ADDRESS
DMA CH0 to R5 => 'to': expected the end of the line
done 1 last memory 5 1 => 'memory': expected the answer of a step
changed nothing EIPR 1 => 'EIPR': expected the end of the line
changed 243 1 => '243': expected a register as R16, EIPR or R240.p9
5 0 => '5': expected a register as R16, EIPR or R240.p9
EIPR => the line ends too early: expected BYTE
R240 1 => 'R240': expected a page with R240 to R255, as R240.p9
CICR FOO=1 => 'FOO=1': expected a field of GCEN, TLIP, TLI, IEN, IAM, CPL
raised INTB0) => ')': expected ( before it
raised (INTB0 => '(': expected its closing parenthesis";

#[test]
fn bad_expectations_are_told() {
    let words = [
        ("PREMISE", "a premise of a bound, as not pending or masked ('st9 help expect' has all)"),
        ("ANY", "an answer as the command prints it, changed, memory, or a register"),
        ("BYTE", "a byte as 97h, 0x97 or 151, at most FFh"),
        ("ADDRESS", "an address of the memory as 0005h, 0x5 or 5"),
        ("BIT", "TLIP, or a source as INTB1, CH0, channel 0 or a name of your own"),
        ("SOURCE", "a source as INTB1, CH0, channel 0 or a name of your own"),
    ];
    for row in BAD_EXPECTATIONS.split('\n') {
        let (line, message) = row.split_once("=> ").expect("an expectation and its message");
        let message =
            words.iter().fold(message.to_string(), |text, (word, full)| text.replace(word, full));
        let ran =
            st9(&["run", "-"], &format!("image zero\narbitrate\nexpect {line}\n")).with_code(2);
        assert_eq!(ran.err, format!("-:3: {message}\n"), "{line}");
        assert_eq!(ran.out, "", "{line}");
    }
}

#[test]
fn bad_order() {
    let first = "expected image zero or image FILE before the first step";
    let late = "expected image, set, memory, poke, channel and name before the first step";
    let again = "again before a case: expected case TITLE before it";
    let record = "channel page=9 idcr=240 ivr=241 dcpr=242 dapr=243 data=244 in";
    let common = "a case after steps that belong to none: expected image, set, memory, poke, channel and name alone before the first case";
    let cases = [
        ("", format!("-:1: no image: {first}")),
        ("\n# nothing\n\n", format!("-:3: no image: {first}")),
        ("# x\nset cicr 97h\n", format!("-:2: no image: {first}")),
        ("arbitrate\nimage zero\n", format!("-:1: a step without an image: {first}")),
        ("case a\nview 0\n", format!("-:2: a step without an image: {first}")),
        ("case a\nimage zero\n\ncase b\ncase c\n", format!("-:4: no image: {first}")),
        ("image zero\nreturn\nset R1 1\n", format!("-:3: 'set R1 01h' after a step: {late}")),
        ("image zero\nview 0\nimage zero\n", format!("-:3: 'image zero' after a step: {late}")),
        ("image zero\nimage zero\n", "-:2: a second image: expected one, that of line 1".into()),
        (
            "image zero\nmemory 1\nmemory 2\n",
            "-:3: a second memory: expected one, that of line 2".into(),
        ),
        (
            "memory 1\nimage zero\ncase a\nmemory 2\nmemory 3\n",
            "-:5: a second memory: expected one, that of line 4".into(),
        ),
        ("image zero\nreturn\nmemory 1\n", format!("-:3: 'memory 1' after a step: {late}")),
        ("image zero\nreturn\npoke 1 2\n", format!("-:3: 'poke 0001h 02h' after a step: {late}")),
        ("image zero\nreturn\nname A INTA0\n", format!("-:3: 'name A INTA0' after a step: {late}")),
        (
            &format!("image zero\nreturn\n{record}\n"),
            format!("-:3: '{record}' after a step: {late}"),
        ),
        ("image zero\nreturn\ncase a\n", format!("-:3: {common}")),
        ("repeat 3 return\nimage zero\n", format!("-:1: a step without an image: {first}")),
        ("image zero\nrepeat 2 return\nset R1 1\n", format!("-:3: 'set R1 01h' after a step: {late}")),
        ("image zero\nreturn\nagain\n", format!("-:3: {again}")),
        ("image zero\nagain\ncase a\n", format!("-:2: {again}")),
        ("case a\nagain\nimage zero\n", format!("-:1: no image: {first}")),
        (
            "image zero\ncase a\nreturn\nagain\nreturn\nset R1 1\n",
            format!("-:6: 'set R1 01h' after a step: {late}"),
        ),
        (
            "image zero\ncase a\nreturn\nagain\nimage zero\nimage zero\n",
            "-:6: a second image: expected one, that of line 5".into(),
        ),
        (
            "image zero\ncase a\nreturn\nagain\nexpect returned\n",
            "-:5: 'expect returned' before a step: expected a step, run, wait, bound, handler bound or view before it".into(),
        ),
        (
            "image zero\ncase a\nname A 1\nreturn\nagain\nname B 1\n",
            "-:6: INTA1 is called A already: expected one name".into(),
        ),
        (
            "image zero\ncase a\nagain\nset R240.p9 IP=1\n",
            "-:4: R240.p9 is no record's IDCR: expected a byte there".into(),
        ),
        (
            "image zero\nname A 1\nname a 2\n",
            "-:3: a is INTA1 already: expected another name".into(),
        ),
        (
            "image zero\nname A 1\nname B 1\n",
            "-:3: INTA1 is called A already: expected one name".into(),
        ),
        (
            "image zero\nset R240.p9 IP=1\n",
            "-:2: R240.p9 is no record's IDCR: expected a byte there".into(),
        ),
        ("image\n", format!("-:1: nothing: expected {NAME}")),
        ("image a b\n", format!("-:1: 'a b': expected {NAME}")),
        ("image zero 1 2\n", format!("-:1: '2': expected {NAME}")),
        (
            "image zero 1048577\n",
            "-:1: '1048577': expected a length of at most 1,048,576 bytes".into(),
        ),
        ("image fill\n", "-:1: nothing: expected a byte as 97h, 0x97 or 151, at most FFh".into()),
        ("image \"a\n", format!("-:1: '\"a': expected {NAME}")),
        ("image \"\"\n", format!("-:1: '\"\"': expected {NAME}")),
    ];
    for (text, message) in cases {
        for command in [&["run", "-"][..], &["test", "-"], &["wait", "-", "--source", "0"]] {
            let ran = st9(command, text).with_code(2);
            assert_eq!(ran.err, format!("{message}\n"), "{text:?}");
            let counts =
                "0 cases: 0 passed, 0 failed; 0 expectations: 0 met, 0 unmet; 1 bad file\n";
            assert_eq!(ran.out, if command[0] == "test" { counts } else { "" });
        }
    }
}

#[test]
fn long_lines_are_cut_in_messages() {
    let text = format!("image zero\n{}\n", "x".repeat(1_000_000));
    let ran = st9(&["run", "-"], &text).with_code(2);
    assert_eq!(ran.err, format!("-:2: '{}'..: expected {STATEMENTS}\n", "x".repeat(40)));
}

#[test]
fn files_that_are_not_there() {
    let folder = folder("missing");
    std::fs::write(folder.join("a.st9"), "\nimage none.bin\n").expect("a scenario");
    let ran = st9_in(&folder, &["run", "a.st9"], b"").with_code(2);
    assert!(ran.err.starts_with("a.st9:2: image none.bin: "), "{}", ran.err);
    assert!(ran.err.ends_with(": expected a file of 1,265 bytes\n"), "{}", ran.err);
    for arguments in [&["run", "none.st9"][..], &["show", "none.bin"], &["run", "."]] {
        let ran = st9_in(&folder, arguments, b"").with_code(2);
        assert!(ran.err.starts_with(&format!("st9: {}: ", arguments[1])), "{}", ran.err);
        assert!(ran.err.contains("expected"), "{}", ran.err);
    }
    std::fs::write(folder.join("b.st9"), "image zero\n").expect("a scenario");
    let save = ["run", "b.st9", "--save", "none/image"];
    let ran = st9_in(&folder, &save, b"").with_code(2);
    assert!(ran.err.starts_with("st9: --save 'none/image': "), "{}", ran.err);
    assert_eq!(ran.out, "");
    assert!(ran.err.ends_with(": expected a file that can be written\n"), "{}", ran.err);
}

/// `-` is standard input on the command line alone: in a scenario it is a file's name.
#[test]
fn an_image_named_as_standard_input() {
    let folder = folder("dash");
    std::fs::write(folder.join("a.st9"), "image -\n").expect("a scenario");
    let ran = st9_in(&folder, &["run", "a.st9"], &[0; st9::IMAGE_LENGTH]).with_code(2);
    assert!(ran.err.starts_with("a.st9:1: image -: "), "{}", ran.err);
    std::fs::write(folder.join("-"), [0; st9::IMAGE_LENGTH]).expect("an image");
    st9_in(&folder, &["run", "a.st9"], b"").with_code(0);
}

/// Bad command lines and what is told of each.
const BAD_USAGE: &str = "\
walk => 'walk' is no command: expected run, test, wait, show or help
run => the file is missing: expected a scenario file
run a b => 'b' is one word too many: expected a scenario file
run a --page 1 => '--page' is no option here: expected --json, --quiet, --verbose, --save, --save-memory, --fail-on
run a --json=1 => '--json=1' is no option here: expected --json, --quiet, --verbose, --save, --save-memory, --fail-on
run a --save => --save has no value: expected one after it
run a --save - => '-' is no file to save to: expected a file's name
run a --save-memory => --save-memory has no value: expected one after it
run a --save-memory - => '-' is no file to save to: expected a file's name
run a --save b --save-memory b => --save and --save-memory 'b': expected two files
run -q a => '-q' is no option here: expected --json, --quiet, --verbose, --save, --save-memory, --fail-on
run --json a --json => --json stands twice: expected it once
run -- --json --quiet => '--quiet' is one word too many: expected a scenario file
run a --quiet --verbose => --quiet and --verbose: expected one of them
run a --fail-on lost => --fail-on 'lost': expected erased, merged, pending, unselected, or several with commas between them
run a --fail-on erased, => --fail-on '': expected erased, merged, pending, unselected, or several with commas between them
test => the file is missing: expected scenario files, or folders of them
test a --quiet => '--quiet' is no option here: expected --json, --fail-on
wait a --fail-on erased => --fail-on 'erased': expected never
wait a --within x => --within 'x': expected a number of arbitrations
wait a --save b => --save without a source: expected --source with it
wait a --save-memory b => --save-memory without a source: expected --source with it
test a --save-memory b => '--save-memory' is no option here: expected --json, --fail-on
wait a --source channel => --source has no value: expected one after it
show a --page x => 'x' is no page: expected a number, 0 to 63
show => the file is missing: expected an image file, or - for standard input
help me => 'me' is no topic: expected scenario, expect or json
--version x => 'x' is one word too many: expected none";

#[test]
fn bad_usage() {
    for row in BAD_USAGE.lines() {
        let (line, message) = row.split_once(" => ").expect("a line and its message");
        let arguments: Vec<_> = line.split(' ').collect();
        let ran = st9(&arguments, "").with_code(2);
        assert_eq!(ran.err, format!("st9: {message}\n`st9 help` says how it is used\n"));
        assert_eq!(ran.out, "");
    }
    let ran = st9(&[], "").with_code(2);
    assert!(ran.err.contains("st9 run FILE"));
    assert_eq!(ran.out, "");
    // Names of one's own are the scenario's, so a source is looked at after it.
    let ran = st9(&["wait", "-", "--source", "INTE0"], "image zero\n").with_code(2);
    let message = "'INTE0' is no source: expected --source with INTB1, CH0, a name that the scenario gives, or a number";
    assert_eq!(ran.err, format!("st9: {message}\n`st9 help` says how it is used\n"));
}

/// What could be saved is found before anything is run; what the file held stays until then.
#[test]
fn saving() {
    let folder = folder("save-first");
    std::fs::write(folder.join("cases.st9"), "image zero\ncase a\ncase b\n").expect("a scenario");
    let ran = st9_in(&folder, &["run", "cases.st9", "--save", "i"], b"").with_code(2);
    assert_eq!(ran.err, "st9: --save 'i' with 2 cases: expected a file of one case\n");
    assert!(!folder.join("i").exists());
    std::fs::write(folder.join("kept"), "kept").expect("a file");
    std::fs::write(folder.join("bad.st9"), "nonsense\n").expect("a scenario");
    st9_in(&folder, &["run", "bad.st9", "--save", "kept"], b"").with_code(2);
    assert_eq!(std::fs::read(folder.join("kept")).expect("the file"), b"kept");
    // A longer file is shortened to the image.
    std::fs::write(folder.join("kept"), [1; 5000]).expect("a file");
    std::fs::write(folder.join("good.st9"), "image zero\n").expect("a scenario");
    st9_in(&folder, &["run", "good.st9", "--save", "kept"], b"").with_code(0);
    assert_eq!(std::fs::read(folder.join("kept")).expect("the file"), [0; st9::IMAGE_LENGTH]);
}

#[test]
fn help_and_version() {
    for arguments in [&["help"][..], &["--help"], &["-h"], &["run", "--help"], &["help", "wait"]] {
        let ran = st9(arguments, "").with_code(0);
        assert!(ran.out.contains("st9 wait FILE [--source SOURCE]"), "{arguments:?}");
        assert_eq!(ran.err, "");
    }
    let version = format!("st9 {}\n", env!("CARGO_PKG_VERSION"));
    assert_eq!(st9(&["--version"], "").with_code(0).out, version);
    assert!(st9(&["help", "json"], "").with_code(0).out.contains("\"type\""));
    assert!(st9(&["help", "scenario"], "").with_code(0).out.contains("image zero"));
    assert!(st9(&["help", "expect"], "").with_code(0).out.contains("expect changed nothing"));
}
