//! Random and mutated files with fixed seeds: never a panic, always 0, 1, 2 or 3.

mod support;

use scenario::{Asked, Case, PokeLine, Scenario, Statement};
use st9::Source;
use support::{examples, is_json, st9_in, Random};

const PARSES: usize = 100_000;
const RUNS: usize = 600;

const WORDS: [&str; 102] = [
    "image",
    "zero",
    "set",
    "channel",
    "read",
    "write",
    "edge",
    "watchdog",
    "nmi",
    "request",
    "arbitrate",
    "return",
    "reset",
    "step",
    "CICR",
    "EIPR",
    "eimr.p0",
    "EIVR.p9",
    "PPR",
    "NICR",
    "R240.p9",
    "R16",
    "R256",
    "MARK",
    "INTB0",
    "INTD1",
    "falling",
    "rising",
    "97h",
    "0x97",
    "151",
    "FFh",
    "0x",
    "h",
    "4294967295",
    "4294967296",
    "0x0006000000000000",
    "FFFFFFFFFFFFFFFFh",
    "page=9",
    "page=64",
    "idcr=240",
    "ivr=241",
    "dcpr=242",
    "dapr=243",
    "data=244",
    "data=999",
    "in",
    "out",
    "direction=2",
    "CH0",
    "2",
    "#",
    "\"",
    "\r",
    "\r\n",
    "\t",
    "\0",
    "\u{FEFF}",
    "=",
    ".p",
    "expect",
    "expect",
    "expect",
    "raised",
    "merged",
    "erased",
    "not",
    "selected",
    "acknowledged",
    "by",
    "none",
    "refused 3",
    "changed",
    "nothing",
    "->",
    "case",
    "case a",
    "again",
    "again a",
    "repeat",
    "repeat 3",
    "name",
    "FAN",
    "wait",
    "bound",
    "handler",
    "handler bound",
    "run",
    "view",
    "IEN=1",
    "CPL=9",
    "fill",
    "counted",
    "(",
    "memory",
    "memory 16",
    "poke",
    "poke 5 1",
    "expect memory",
    "M0005h",
    "to memory 5",
    "17",
];

/// A file that is made of words, mostly after an image.
fn of_words(random: &mut Random) -> Vec<u8> {
    let mut text = String::from(random.pick(&["image zero\n", "image zero\n", "image zero\n", ""]));
    for _ in 0..random.below(40) {
        text.push_str(random.pick(&WORDS));
        text.push_str(random.pick(&[" ", " ", " ", "\n", "\n", ""]));
    }
    text.into_bytes()
}

fn of_bytes(random: &mut Random) -> Vec<u8> {
    (0..random.below(200)).map(|_| random.byte()).collect()
}

/// A file with some of its bytes and lines changed, removed, doubled or swapped.
fn mutated(random: &mut Random, file: &[u8]) -> Vec<u8> {
    let mut lines: Vec<Vec<u8>> = file.split(|byte| *byte == b'\n').map(<[u8]>::to_vec).collect();
    for _ in 0..=random.below(3) {
        let (line, other) = (random.below(lines.len()), random.below(lines.len()));
        let at = random.below(lines[line].len());
        match random.below(8) {
            0 => lines.swap(line, other),
            1 => lines.insert(line, lines[other].clone()),
            2 if lines.len() > 1 => drop(lines.remove(line)),
            3 if !lines[line].is_empty() => lines[line][at] = random.byte(),
            4 if !lines[line].is_empty() => lines[line][at] ^= 1 << random.below(8),
            5 if !lines[line].is_empty() => drop(lines[line].remove(at)),
            6 => lines[line].extend_from_slice(format!(" {}", random.pick(&WORDS)).as_bytes()),
            _ => {
                lines[line] =
                    format!("{} {}", random.pick(&WORDS), random.pick(&WORDS)).into_bytes()
            }
        }
    }
    lines.join(&b'\n')
}

fn any_file(random: &mut Random, originals: &[Vec<u8>]) -> Vec<u8> {
    match random.below(10) {
        0 => of_bytes(random),
        1..=3 => of_words(random),
        _ => {
            let original = random.below(originals.len());
            mutated(random, &originals[original])
        }
    }
}

fn originals() -> Vec<Vec<u8>> {
    let read = |file| std::fs::read(file).expect("an example");
    examples().into_iter().map(read).collect()
}

/// The same scenario in the words that its statements are written with.
fn written_again(scenario: &Scenario) -> String {
    scenario.cases.iter().map(case_written_again).collect()
}

fn case_written_again(case: &Case) -> String {
    let title = Statement::Case(case.title.clone().unwrap_or("none".to_string()));
    let image = Statement::Image(case.image.0.clone());
    let names = (0..20).map(Source).filter_map(|source| {
        case.names.of(source).map(|name| Statement::Name(name.to_string(), source))
    });
    let sets = case.sets.iter().map(|set| Statement::Set { place: set.place, bits: set.bits });
    let channels = case.channels.iter().copied().map(Statement::Channel);
    let memory = case.memory.iter().map(|(memory, _)| Statement::Memory(memory.clone()));
    let poke =
        |poke: &PokeLine| Statement::Poke { address: poke.address, bytes: poke.bytes.clone() };
    let pokes = case.pokes.iter().map(poke);
    let mut statements = vec![title, image];
    statements.extend(names.chain(sets).chain(memory).chain(pokes).chain(channels));
    let mut asks = case.asks.iter().peekable();
    for after in 0..=case.steps.len() {
        while let Some(ask) = asks.next_if(|ask| ask.after == after) {
            statements.push(match &ask.what {
                Asked::Call(call) => Statement::Call(*call),
                Asked::Expect(expect) => Statement::Expect(expect.clone()),
            });
        }
        statements.extend(case.steps.get(after).map(|step| Statement::Step(step.operation)));
    }
    statements.iter().map(|statement| format!("{statement}\n")).collect()
}

/// A case without its lines and its title.
fn assert_same(again: &Case, case: &Case) {
    assert_eq!(again.image.0, case.image.0);
    let sets = |case: &Case| case.sets.iter().map(|set| (set.place, set.bits)).collect::<Vec<_>>();
    assert_eq!(sets(again), sets(case));
    let memory = |case: &Case| case.memory.clone().map(|(memory, _)| memory);
    assert_eq!(memory(again), memory(case));
    let poke = |poke: &PokeLine| (poke.address, poke.bytes.clone());
    let pokes = |case: &Case| case.pokes.iter().map(poke).collect::<Vec<_>>();
    assert_eq!(pokes(again), pokes(case));
    assert_eq!(again.channels, case.channels);
    assert_eq!(again.words(), case.words());
    let asks =
        |case: &Case| case.asks.iter().map(|ask| (ask.after, ask.what.clone())).collect::<Vec<_>>();
    assert_eq!(asks(again), asks(case));
}

#[test]
fn parses() {
    let originals = originals();
    let mut random = Random(0x0915_0001);
    let (mut good, mut bad) = (0, 0);
    for _ in 0..PARSES {
        let file = any_file(&mut random, &originals);
        match Scenario::parse(&file) {
            Ok(scenario) => {
                good += 1;
                let again =
                    Scenario::parse(written_again(&scenario).as_bytes()).expect("a scenario");
                assert_eq!(again.cases.len(), scenario.cases.len());
                for (again, case) in again.cases.iter().zip(&scenario.cases) {
                    assert_same(again, case);
                }
            }
            Err(error) => {
                bad += 1;
                let lines = file.split(|byte| *byte == b'\n').count();
                assert!((1..=lines).contains(&error.line), "{error}");
                assert!(error.problem.contains("expected"), "{error}");
            }
        }
    }
    assert!(good > PARSES / 20 && bad > PARSES / 20, "{good} good, {bad} bad");
}

#[test]
fn runs_of_the_binary() {
    let originals = originals();
    let commands: [&[&str]; 9] = [
        &["run", "-"],
        &["run", "-", "--json"],
        &["run", "-", "--quiet", "--fail-on", "erased,pending"],
        &["run", "-", "--verbose"],
        &["test", "-"],
        &["test", "-", "--json"],
        &["wait", "-", "--source", "INTC0"],
        &["wait", "-", "--source", "CH0", "--json"],
        &["show", "-"],
    ];
    let folder = support::folder("fuzz");
    let mut random = Random(0x0915_0002);
    let mut codes = [0; 4];
    for _ in 0..RUNS {
        let file = any_file(&mut random, &originals);
        let command = random.pick(&commands);
        let ran = st9_in(&folder, command, &file);
        let text = String::from_utf8_lossy(&file);
        let code = ran.code.expect("an exit code");
        assert!((0..=3).contains(&code), "{code} of {text:?}: {}", ran.err);
        assert!(!ran.err.contains("panicked"), "{text:?}: {}", ran.err);
        let complaints = ran.err.lines().filter(|line| !line.contains("warning")).count();
        assert_eq!(code == 2, complaints != 0, "{text:?}: {}", ran.err);
        // A test has its counts in any case.
        let silent = ran.out.is_empty();
        assert_eq!(code == 2 && command[0] != "test", silent, "{text:?}: {}", ran.out);
        if command.contains(&"--json") {
            assert!(ran.out.lines().all(is_json), "{}", ran.out);
        }
        codes[code as usize] += 1;
    }
    assert!(codes.iter().all(|count| *count > RUNS / 100), "{codes:?}");
}
