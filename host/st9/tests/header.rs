//! `include/st9.h` as compilers read it, against the numbers of this crate and of document 01; the words of
//! `include/st9_text.c`; the example of the header and the March incident.

mod compilers;
mod inputs;

use std::fs;
use std::process::Command;

use compilers::{each, printed_by, root, temporary};
use inputs::{Asked, Random};
use st9::{sys, Channel, Direction, Edge, Refusal, Source, Step, WaitError};

/// A word by its fields.
const fn word(kind: u64, trigger: u64, first: u64, second: u64) -> u64 {
    kind << 48 | trigger << 32 | first << 8 | second
}

/// The kinds of answers, as this crate has them.
const KINDS: [(&str, u64); 26] = [
    ("ST9_NO_STEP", sys::NO_STEP),
    ("ST9_BYTE", sys::BYTE),
    ("ST9_WRITTEN", sys::WRITTEN),
    ("ST9_TRIGGERED", sys::TRIGGERED),
    ("ST9_NOTHING", sys::NOTHING),
    ("ST9_TOP_LEVEL", sys::TOP_LEVEL),
    ("ST9_INTERRUPT", sys::INTERRUPT),
    ("ST9_TRANSFERRED", sys::TRANSFERRED),
    ("ST9_RETURNED", sys::RETURNED),
    ("ST9_RESET", sys::RESET),
    ("ST9_REFUSED", sys::REFUSED),
    ("ST9_REFUSED_CALL", sys::REFUSED_CALL),
    ("ST9_REFUSED_STEP", sys::REFUSED_STEP),
    ("ST9_ENDED", sys::ENDED),
    ("ST9_ACKNOWLEDGED", sys::ACKNOWLEDGED),
    ("ST9_NESTED", sys::NESTED),
    ("ST9_DMA_ENABLED", sys::DMA_ENABLED),
    ("ST9_TOP_LEVEL_ENABLED", sys::TOP_LEVEL_ENABLED),
    ("ST9_TOP_LEVEL_IN_SERVICE", sys::TOP_LEVEL_IN_SERVICE),
    ("ST9_NOT_PENDING", sys::NOT_PENDING),
    ("ST9_MASKED", sys::MASKED),
    ("ST9_LEVEL_NOT_ABOVE", sys::LEVEL_NOT_ABOVE),
    ("ST9_OTHER_STEP", sys::OTHER_STEP),
    ("ST9_INTERRUPTS_DISABLED", sys::INTERRUPTS_DISABLED),
    ("ST9_WITHIN", sys::WITHIN),
    ("ST9_CHANGED", sys::CHANGED),
];

/// What a write changed, likewise.
const CHANGES: [(&str, u64); 7] = [
    ("ST9_CHANGED_PENDING", sys::CHANGED_PENDING),
    ("ST9_CHANGED_MODE", sys::CHANGED_MODE),
    ("ST9_CHANGED_CURRENT_LEVEL", sys::CHANGED_CURRENT_LEVEL),
    ("ST9_CHANGED_TOP_LEVEL", sys::CHANGED_TOP_LEVEL),
    ("ST9_CHANGED_MASK", sys::CHANGED_MASK),
    ("ST9_CHANGED_DMA_ENABLE", sys::CHANGED_DMA_ENABLE),
    ("ST9_CHANGED_LEVEL", sys::CHANGED_LEVEL),
];

const REFUSALS_AND_EFFECTS: [(&str, u64); 12] = [
    ("ST9_ACCEPTED", 0),
    ("ST9_BAD_LENGTH", Refusal::ImageLength as u64),
    ("ST9_BAD_LIST", Refusal::ChannelList as u64),
    ("ST9_BAD_REGISTER", Refusal::Register as u64),
    ("ST9_BAD_NUMBER", Refusal::Number as u64),
    ("ST9_BAD_ADDRESS", Refusal::Address as u64),
    ("ST9_BAD_POINTER", Refusal::Pointer as u64),
    ("ST9_UNKNOWN_KIND", Refusal::UnknownKind as u64),
    ("ST9_BAD_MEMORY", Refusal::Memory as u64),
    ("ST9_NOT_SELECTED", sys::NOT_SELECTED),
    ("ST9_RAISED", sys::RAISED),
    ("ST9_MERGED", sys::MERGED),
];

const SIZES_SOURCES_DIRECTIONS: [(&str, u64); 17] = [
    ("ST9_IMAGE_LENGTH", st9::IMAGE_LENGTH as u64),
    ("ST9_MARK", st9::MARK as u64),
    ("ST9_MOST_CHANNELS", st9::MOST_CHANNELS as u64),
    ("ST9_MOST_MEMORY", st9::MOST_MEMORY as u64),
    ("ST9_INTA0", Source::INTA0.0 as u64),
    ("ST9_INTA1", Source::INTA1.0 as u64),
    ("ST9_INTB0", Source::INTB0.0 as u64),
    ("ST9_INTB1", Source::INTB1.0 as u64),
    ("ST9_INTC0", Source::INTC0.0 as u64),
    ("ST9_INTC1", Source::INTC1.0 as u64),
    ("ST9_INTD0", Source::INTD0.0 as u64),
    ("ST9_INTD1", Source::INTD1.0 as u64),
    ("ST9_FIRST_CHANNEL", Source::channel(0).0 as u64),
    ("ST9_FALLING", Edge::Falling.number() as u64),
    ("ST9_RISING", Edge::Rising.number() as u64),
    ("ST9_TO_REGISTER_FILE", Direction::ToRegisterFile as u64),
    ("ST9_TO_PERIPHERAL", Direction::ToPeripheral as u64),
];

/// Document 01's table of registers. Fields in one number: each is moved up by four bits from the one after it.
const REGISTERS: [(&str, u64); 13] = [
    ("ST9_CICR", 230),
    ("ST9_PPR", 234),
    ("ST9_MODER", 235),
    ("ST9_EITR", 242),
    ("ST9_EIPR", 243),
    ("ST9_EIMR", 244),
    ("ST9_EIPLR", 245),
    ("ST9_EIVR", 246),
    ("ST9_NICR", 247),
    (
        "GCEN, TLIP, TLI, IEN, IAM, CPL",
        (0x80 << 20) + (0x40 << 16) + (0x20 << 12) + (0x10 << 8) + (0x08 << 4) + 0x07,
    ),
    (
        "vector, TLTEV, TLIS, IAOS, EWEN",
        (0xF0 << 16) + (0x08 << 12) + (0x04 << 8) + (0x02 << 4) + 0x01,
    ),
    ("TLNM, HL", (0x80 << 8) + 0x7F),
    ("IP, DM, IM, PRL", (0x20 << 12) + (0x10 << 8) + (0x08 << 4) + 0x07),
];

/// The step words, by their fields.
const WORDS: [(&str, u64); 20] = [
    ("read", word(0, 0, 243, 0)),
    ("read of a number that is too large", word(0, 0, 0xFF_FFFF, 0)),
    ("write", word(1, 0, 244, 255)),
    ("write of no byte", word(0xFFFF, 0, 0, 0)),
    ("write of a number that is too large", word(1, 0, 0xFF_FFFF, 1)),
    ("pin edge", word(2, 0, 2, 1)),
    ("pin edge of a direction that is too large", word(2, 0, 2, 255)),
    ("pin edge of a number that is too large", word(2, 0, 0xFF_FFFF, 1)),
    ("watchdog", word(2, 1, 0, 0)),
    ("nmi edge", word(2, 2, 0, 1)),
    ("nmi edge of a direction that is too large", word(2, 2, 0, 255)),
    ("request", word(2, 3, 11, 0)),
    ("request of a number that is too large", word(2, 3, 0xFF_FFFF, 0)),
    ("arbitrate", word(3, 0, 0, 0)),
    ("return", word(4, 0, 0, 0)),
    ("reset", word(5, 0, 0, 0)),
    ("a kind that is too large", word(2, 0, 0, 0)),
    ("a trigger that is too large", word(2, 3, 0, 0)),
    ("a first that is too large", word(2, 3, 4, 0)),
    ("a second that is too large", word(2, 3, 4, 5)),
];

/// Kind, refusal, steps and values by the table of the header, worked out from document 01; and the words.
const CALLS: &str = "\
bound: 24 0 0 1 0 2, by arbitration 2 at the latest, H 1, E 0
handler bound: 24 0 0 1 0 2, by arbitration 2 at the latest, H 1, E 0
handler bound of what is erased: 25 0 1 1 0 0, none: the write at step 1 erases the source's pending bit
wait: 14 0 0 2 0 0, acknowledged by arbitration 2
step: 6 0 0 0 0 64, acknowledged INTA0, level 0, vector 40h
run: 6 0 2 8 2 52, done: 2 steps, last answer: acknowledged channel 0, level 2, vector 34h
run of no steps, no list, no memory: 0 0 0 0 0 0, done: 0 steps, last answer: none (the list is empty)
bytes that are no whole record: 10 2 0 0 0 0, refused with 2 (channel list breaks a rule)
an image that is too short: 10 1 0 0 0 0, refused with 1 (image length is not 1,265)
view of page 9 384
view of page 64 is null 1
its number 3
view of a short image is null 1
twice a place by sums 768
IDCR after 10
step into memory: 7 0 0 8 0 0, DMA of channel 0: one byte moved
memory 5 90
counter 1
address 6
run into memory: 7 0 2 8 1 0, done: 2 steps, last answer: DMA of channel 0: one byte moved, block ended
memory 6 91
counter 0
address 7
wait past the memory's end: 12 5 1 0 0 0, refused with 5 at step 1 (the DMA winner has a memory address not below the memory's length)
without memory: 10 5 0 0 0 0, refused with 5 (the DMA winner has a memory address not below the memory's length)
memory that is too long: 10 8 0 0 0 0, refused with 8 (the memory is over 65,536 bytes)
wait of it, and of no source: 11 8 0 0 0 0, refused with 8 (the memory is over 65,536 bytes), before any step
";

#[test]
fn numbers_words_and_calls() {
    let numbers = KINDS.iter().chain(&CHANGES).chain(&REFUSALS_AND_EFFECTS);
    let numbers = numbers.chain(&SIZES_SOURCES_DIRECTIONS);
    let numbers = numbers.chain(&REGISTERS).chain(&WORDS);
    let mut expected: String = numbers.map(|(name, number)| format!("{name} {number}\n")).collect();
    expected += CALLS;
    let sources = ["host/st9/tests/header.c", "host/st9/tests/alone.c"];
    each(|compiler| {
        let program = compiler.program("header", &sources);
        assert_eq!(printed_by(&program, &[], ""), expected, "{compiler}");
    });
}

#[test]
fn each_file_alone() {
    each(|compiler| {
        compiler.object("alone", "host/st9/tests/alone.c");
        compiler.object("st9_text", "include/st9_text.c");
    });
}

/// What the number names as a kind, as a refusal and as a source.
fn names(number: u64) -> String {
    let kind = KINDS.iter().find(|kind| kind.1 == number).map(|kind| kind.0);
    let kind = kind.unwrap_or("unknown kind").replace("ST9_", "").replace('_', " ").to_lowercase();
    let refusal = match Refusal::from_number(number) {
        Some(refusal) => refusal.to_string(),
        None => if number == 0 { "accepted" } else { "unknown refusal" }.to_owned(),
    };
    let source = match number {
        0..=19 => Source(number as u32).to_string(),
        _ => "no source".to_owned(),
    };
    format!("kind {number}: {kind}\nrefusal {number}: {refusal}\nsource {number}: {source}\n")
}

/// Answers as six numbers a line, with their words in Rust.
#[derive(Default)]
struct Told {
    numbers: String,
    words: String,
    kinds: [u32; KINDS.len()],
}

impl Told {
    fn answer(&mut self, flat: sys::Answer, words: &str) {
        let sys::Answer { kind, refusal, steps, first, second, third } = flat;
        self.numbers += &format!("{kind} {refusal} {steps} {first} {second} {third}\n");
        self.words += &format!("{words}\n");
        self.kinds[kind as usize] += 1;
    }

    /// What every function of the library answers to these.
    fn answers(&mut self, asked: &Asked) {
        let Asked { image, channels, memory, source, words } = asked;
        let (image, memory) = (|| image.clone(), || memory.clone());
        let first = words.first().copied().unwrap_or_default();
        let step = st9::step(&mut image(), channels, &mut memory(), Step::Word(first));
        let flat = flat_step(&mut image(), channels, &mut memory(), first);
        self.answer(flat, &told(step, Refusal::with_number));
        let run = st9::words::run(&mut image(), channels, &mut memory(), words);
        let flat = flat_run(&mut image(), channels, &mut memory(), words);
        self.answer(flat, &told(run, |error| error.to_string()));
        let wait = st9::words::wait(&mut image(), channels, &mut memory(), *source, words);
        // The answer of a refused run is that of a wait that made no arbitration.
        let refused = |error: WaitError| error.to_string().replace(", after 0 arbitrations", "");
        self.answer(flat_wait(&mut image(), &mut memory(), asked), &told(wait, refused));
        // The bounds take no memory.
        let refused = |refusal: Refusal| format!("{}, before any step", refusal.with_number());
        let bound = st9::words::bound(&image(), channels, *source, words);
        self.answer(flat_bound(sys::st9_bound, asked), &told(bound, refused));
        let bound = st9::words::handler_bound(&image(), channels, *source, words);
        self.answer(flat_bound(sys::st9_handler_bound, asked), &told(bound, refused));
    }
}

fn told<A: ToString, E>(answer: Result<A, E>, refused: impl Fn(E) -> String) -> String {
    answer.map(|answer| answer.to_string()).unwrap_or_else(refused)
}

fn bytes(channels: &[Channel]) -> (*const u8, usize) {
    (channels.as_ptr().cast(), std::mem::size_of_val(channels))
}

// SAFETY, of all four: pointers and lengths are of live slices, and what may change is borrowed mutably.
fn flat_step(image: &mut [u8], channels: &[Channel], memory: &mut [u8], word: u64) -> sys::Answer {
    let (list, length) = bytes(channels);
    let (image, size) = (image.as_mut_ptr(), image.len());
    let (memory, cells) = (memory.as_mut_ptr(), memory.len());
    unsafe { sys::st9_step(image, size, list, length, memory, cells, word) }
}

fn flat_run(
    image: &mut [u8],
    channels: &[Channel],
    memory: &mut [u8],
    words: &[u64],
) -> sys::Answer {
    let (list, length) = bytes(channels);
    let (image, size) = (image.as_mut_ptr(), image.len());
    let (memory, cells) = (memory.as_mut_ptr(), memory.len());
    let (words, count) = (words.as_ptr(), words.len());
    unsafe { sys::st9_run(image, size, list, length, memory, cells, words, count) }
}

fn flat_wait(image: &mut [u8], memory: &mut [u8], asked: &Asked) -> sys::Answer {
    let (list, length) = bytes(&asked.channels);
    let (image, size) = (image.as_mut_ptr(), image.len());
    let (memory, cells) = (memory.as_mut_ptr(), memory.len());
    let (words, count) = (asked.words.as_ptr(), asked.words.len());
    let source = asked.source.0;
    unsafe { sys::st9_wait(image, size, list, length, memory, cells, source, words, count) }
}

type BoundCall =
    unsafe extern "C" fn(*const u8, usize, *const u8, usize, u32, *const u64, usize) -> sys::Answer;

fn flat_bound(call: BoundCall, asked: &Asked) -> sys::Answer {
    let (list, length) = bytes(&asked.channels);
    let (image, words, source) = (&asked.image, &asked.words, asked.source.0);
    unsafe { call(image.as_ptr(), image.len(), list, length, source, words.as_ptr(), words.len()) }
}

/// text.c has the expected words, and tries each in buffers of every size. Those of random calls are Rust's.
#[test]
fn answers_in_words() {
    let expected: String = (0..300).chain([1 << 32, u64::MAX]).map(names).collect();
    let mut random = Random(0x0092_0450);
    let mut told = Told::default();
    (0..8_000).for_each(|_| told.answers(&random.asked()));
    assert!(told.kinds.iter().all(|count| *count > 0), "{:?}", told.kinds);
    each(|compiler| {
        let program = compiler.program("text", &["host/st9/tests/text.c"]);
        let counted = printed_by(&program, &[], "");
        assert_eq!(counted, "141 texts, the longest of any numbers 157 long\n", "{compiler}");
        assert_eq!(printed_by(&program, &["names"], ""), expected, "{compiler}");
        let words = printed_by(&program, &["lines"], &told.numbers);
        let same = words.lines().zip(told.words.lines()).find(|(c, rust)| c != rust);
        assert_eq!(same, None, "{compiler}");
        assert!(words == told.words, "{compiler}: another number of lines");
    });
}

/// What a program prints that this line compiles in the repository's root.
fn printed_by_line(line: &str, name: &str) -> String {
    let program = temporary(name);
    let mut shell = Command::new("sh");
    shell.arg("-c").arg(format!("{line} -o \"$0\"")).arg(&program).current_dir(root());
    assert!(shell.status().expect("sh is run").success(), "{line}");
    printed_by(&program, &[], "")
}

/// Nine lines of the header's first comment; those that print say what.
#[test]
fn the_example_of_the_header() {
    let header = fs::read_to_string(root().join("include/st9.h")).expect("the header");
    let (comment, _) = header.split_once("*/").expect("its first comment");
    let lines: Vec<_> = comment.lines().filter_map(|line| line.strip_prefix(" *     ")).collect();
    assert_eq!(lines.len(), 9, "{lines:?}");
    let said = lines.iter().filter_map(|line| line.strip_prefix("puts(text);"));
    let said = said.map(|rest| rest.trim_start().strip_prefix("// ").expect("what it prints"));
    let said: String = said.map(|words| format!("{words}\n")).collect();
    let includes = "#include \"st9.h\"\n#include <stdio.h>\n";
    let code = lines.join("\n");
    let file = temporary("fan.c");
    fs::write(&file, format!("{includes}int main(void)\n{{\n{code}\nreturn 0;\n}}\n"))
        .expect("written");
    let file = file.to_str().expect("a path of text");
    each(|compiler| {
        let program = compiler.program("fan", &[file]);
        assert_eq!(printed_by(&program, &[], ""), said, "{compiler}");
    });
    let line = comment.split_once(" cc ").and_then(|(_, line)| line.split_once("libst9.a"));
    let line = line.expect("how it is compiled").0.replace("fan.c", &format!("'{file}'"));
    assert_eq!(printed_by_line(&format!("cc {line}libst9.a"), "fan"), said);
}

/// The C of the guide's section on memory; what its last lines print stands beside them.
#[test]
fn the_memory_of_the_guide() {
    let guide = fs::read_to_string(root().join("docs/GUIDE.md")).expect("the guide");
    let (_, code) = guide.split_once("    const st9_channel list[]").expect("its C");
    let code = format!("const st9_channel list[]{code}");
    let lines: Vec<_> = code.lines().take_while(|line| !line.is_empty()).collect();
    let prints = |line: &&&str| line.contains("puts(") || line.contains("printf(");
    let said = lines.iter().filter(prints).map(|line| line.split_once("// ").expect("what").1);
    let said: String = said.map(|words| format!("{words}\n")).collect();
    assert_eq!(said.lines().count(), 2, "{said}");
    let file = temporary("memory.c");
    let (includes, code) = ("#include \"st9.h\"\n#include <stdio.h>\n", lines.join("\n"));
    fs::write(&file, format!("{includes}int main(void)\n{{\n{code}\nreturn 0;\n}}\n"))
        .expect("written");
    let file = file.to_str().expect("a path of text");
    each(|compiler| {
        let program = compiler.program("memory", &[file]);
        assert_eq!(printed_by(&program, &[], ""), said, "{compiler}");
    });
}

const MARCH: &str = "\
up to the fan's edge  done: 4 steps, last answer: raised
bound of the fan      none: the write at step 0 erases the source's pending bit
the write             erased 14h: INTB0, INTC0
the rest              done: 2 steps, last answer: none
";

#[test]
fn the_march_incident_in_c() {
    each(|compiler| {
        let program = compiler.program("march", &["examples/march.c"]);
        assert_eq!(printed_by(&program, &[], ""), MARCH, "{compiler}");
    });
    let source = fs::read_to_string(root().join("examples/march.c")).expect("the example");
    let shown = MARCH.lines().all(|line| source.contains(&format!("\n *     {line}\n")));
    assert!(shown, "its comment shows what it prints");
    let mut lines = source.lines().filter_map(|line| line.strip_prefix(" *     cc "));
    let line = lines.next().and_then(|line| line.strip_suffix(" -o march && ./march"));
    let line = line.expect("how it is compiled");
    assert_eq!(printed_by_line(&format!("cc {line}"), "march"), MARCH);
}
