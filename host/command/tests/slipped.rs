//! Cases that are followed on a model which slips: it changes a byte where it refuses, of the memory where it is lent
//! one, and an empty run has a last answer. The proved one cannot.

use scenario::{follow, Comparison, End, Event, Followed, ImageName, Lent, Model, Scenario};
use st9::{Answer, Bound, Channel, Done, Refusal, RunError, Source, Step, Wait, WaitError};

/// The proved model, but what it refuses flips a bit of EIPR or of the memory's first byte all the same, and an empty
/// run's last answer is a return's.
struct Slipped;

fn slip<T, E>(image: &mut [u8], memory: &mut [u8], answer: Result<T, E>) -> Result<T, E> {
    match (memory.first_mut(), answer.is_err()) {
        (Some(byte), true) => *byte ^= 1,
        (None, true) => image[st9::place(0, st9::register::EIPR)] ^= 1,
        _ => {}
    }
    answer
}

impl Model for Slipped {
    fn step(
        &self,
        image: &mut [u8],
        channels: &[Channel],
        memory: &mut [u8],
        step: Step,
    ) -> Result<Answer, Refusal> {
        let answer = st9::step(image, channels, memory, step);
        slip(image, memory, answer)
    }

    fn run(
        &self,
        image: &mut [u8],
        channels: &[Channel],
        memory: &mut [u8],
        words: &[u64],
    ) -> Result<Done, RunError> {
        let answer = st9::words::run(image, channels, memory, words);
        let answer = answer.map(|done| Done { last: done.last.or(Some(Answer::Returned)), ..done });
        slip(image, memory, answer)
    }

    fn wait(
        &self,
        image: &mut [u8],
        channels: &[Channel],
        memory: &mut [u8],
        source: Source,
        words: &[u64],
    ) -> Result<Wait, WaitError> {
        let answer = st9::words::wait(image, channels, memory, source, words);
        slip(image, memory, answer)
    }

    fn bound(
        &self,
        image: &[u8],
        channels: &[Channel],
        source: Source,
        words: &[u64],
    ) -> Result<Bound, Refusal> {
        st9::words::bound(image, channels, source, words)
    }

    fn handler_bound(
        &self,
        image: &[u8],
        channels: &[Channel],
        source: Source,
        words: &[u64],
    ) -> Result<Bound, Refusal> {
        st9::words::handler_bound(image, channels, source, words)
    }

    fn view<'a>(&self, image: &'a [u8], page: u32) -> Result<&'a [u8], Refusal> {
        st9::view(image, page)
    }
}

/// What a case of `image zero` gives on this model, and its comparisons.
fn followed(text: &str) -> (Followed, Vec<Comparison>) {
    let case = Scenario::parse(text.as_bytes()).expect("a scenario").cases.remove(0);
    let ImageName::Fill { byte, length } = case.image.0 else { panic!("{text}") };
    let mut comparisons = vec![];
    let memory = case.memory(|name| Err(name.to_string())).expect("no file");
    let start = Lent { image: vec![byte; length], memory };
    let followed = follow(&case, start, &Slipped, &mut |event| {
        if let Event::Compared(comparison) = event {
            comparisons.push(comparison.clone());
        }
    });
    (followed, comparisons)
}

/// Statements, and for each expectation whether it is met.
fn assert_met(statements: &str, expected: &[bool]) -> Followed {
    let (followed, comparisons) = followed(statements);
    let met: Vec<_> = comparisons.iter().map(|comparison| comparison.met).collect();
    assert_eq!(met, expected, "{statements}");
    for Comparison { said, met, came, .. } in comparisons {
        let told = came.contains(", and changed EIPR 0");
        assert_eq!(told, !met && said.starts_with("refused"), "{statements}{came}");
    }
    followed
}

#[test]
fn words() {
    for (step, refusal) in
        [("read R256", Refusal::Register), ("step 6000000000000h", Refusal::UnknownKind)]
    {
        let number = refusal.number();
        let (_, comparisons) = followed(&format!("image zero\n{step}\nexpect refused {number}\n"));
        let came = format!("refused with {number} ({refusal}), and changed EIPR 00h -> 01h");
        assert_eq!((comparisons[0].met, &comparisons[0].came), (false, &came));
    }
}

/// The right number is passed over whatever bytes changed; another one ends the case.
#[test]
fn steps() {
    let more = "write R1 1\nexpect written\n";
    for (expectations, met) in [
        ("expect refused 3\n", &[false, true][..]),
        ("expect refused 3\nexpect changed nothing\n", &[false, false, true]),
        ("expect changed EIPR 01h\nexpect refused 3\n", &[true, false, true]),
    ] {
        let followed = assert_met(&format!("image zero\nread R256\n{expectations}{more}"), met);
        assert_eq!((followed.end, followed.done, followed.refused), (End::Done, 1, 1));
    }
    let followed =
        assert_met(&format!("image zero\nread R256\nexpect refused 4\n{more}"), &[false]);
    assert_eq!(followed.end, End::Step { refusal: Refusal::Register, index: 0 });
    assert_eq!(followed.not_reached, 1);
}

/// A call is on a copy: the case has the image as it was.
#[test]
fn calls_before_any_step() {
    for (call, met) in [("wait 99", false), ("bound 99", true), ("handler bound 99", true)] {
        let statements =
            format!("image zero\n{call}\nexpect refused 4\nread R1\nexpect EIPR 00h\n");
        assert_eq!(assert_met(&statements, &[met, true]).end, End::Done);
    }
    assert_met("image zero\nview 64\nexpect refused 3\n", &[true]);
    assert_met("image zero\nwait 99\nexpect refused 4\nexpect EIPR 01h\n", &[false, true]);
}

/// The steps before it may have changed anything.
#[test]
fn calls_refused_at_a_step() {
    let steps = "write R1 1\nread R256\n";
    for expectation in ["refused 3 at step 1", "refused 3"] {
        for call in ["run", "wait INTB0"] {
            let statements = format!("image zero\n{call}\nexpect {expectation}\n{steps}");
            let followed = assert_met(&statements, &[true]);
            assert_eq!(followed.end, End::Step { refusal: Refusal::Register, index: 1 });
        }
    }
}

/// Each step and each call is asked for itself.
#[test]
fn what_is_lent() {
    let record = "channel page=0 idcr=240 ivr=241 dcpr=242 dapr=243 data=244 in\n";
    for (lent, number) in [("image zero 1264\n", 1), (&format!("image zero\n{record}"), 2)] {
        for asked in ["arbitrate", "run", "wait INTB0"] {
            let expectations = format!("expect refused {number}\nexpect changed EIPR 00h -> 01h\n");
            let statements = format!("{lent}{asked}\n{expectations}");
            assert_eq!(assert_met(&statements, &[false, true]).end, End::Done, "{asked}");
        }
        let twice = format!("arbitrate\nexpect refused {number}\n").repeat(2);
        assert_eq!(assert_met(&format!("{lent}{twice}"), &[false, false]).refused, 2);
    }
}

/// A byte of the memory is seen as one of the image is: by a refusal, and by all the bytes that changed.
#[test]
fn of_the_memory() {
    let start = "image zero\nmemory 3\nread R256\n";
    let expectations =
        "expect refused 3\nexpect changed M0000h 00h -> 01h\nexpect changed nothing\nexpect EIPR 0\n";
    let (followed, comparisons) = followed(&format!("{start}{expectations}"));
    let met: Vec<_> = comparisons.iter().map(|comparison| comparison.met).collect();
    assert_eq!(met, [false, true, false, true]);
    assert!(comparisons[0].came.ends_with(", and changed M0000h 00h -> 01h"), "{comparisons:?}");
    assert_eq!(comparisons[2].came, "changed M0000h 00h -> 01h");
    assert_eq!((followed.left.memory, followed.end), (vec![1, 0, 0], End::Done));
}

#[test]
fn an_empty_run() {
    let run = "image zero\nrun\nexpect done 0 steps\nexpect done 0 steps last none\n";
    assert_met(run, &[true, false]);
}
