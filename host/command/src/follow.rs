//! A case followed step by step: its answers, its calls, what was expected, and what became of the alarms.

use crate::account::{Account, Counted};
use crate::answers::Report;
use crate::calls::{CallReport, Made, Model};
use crate::expectation::{Came, Expect};
use crate::lent::Lent;
use crate::pending::Pending;
use crate::{Ask, Asked, Call, Case, Object};
use st9::{Channel, Refusal, RunError};

/// What is told while a case is followed.
pub enum Event<'a> {
    /// A step was done or refused; the flag says whether its refusal was expected.
    Step(&'a Report<'a>, bool),
    /// A call was answered; likewise.
    Call(&'a CallReport<'a>, bool),
    /// An expectation was compared.
    Compared(&'a Comparison),
}

/// An expectation and what came.
#[derive(Clone, Debug, PartialEq, Eq)]
pub struct Comparison {
    /// The expectation's line.
    pub line: u32,
    /// The words of the expectation.
    pub said: String,
    /// Whether it is met.
    pub met: bool,
    /// What came, in words; empty where it is met.
    pub came: String,
    /// The statement that it is about.
    pub statement: String,
}

impl Comparison {
    /// The expectation as an object.
    pub fn json(&self, file: &str) -> String {
        Object::new()
            .text("type", "expectation")
            .text("file", file)
            .number("line", self.line.into())
            .text("statement", &self.statement)
            .text("expected", &self.said)
            .truth("met", self.met)
            .text("came", &self.came)
            .end()
    }
}

/// How a case ended.
#[derive(Clone, Copy, Debug, PartialEq, Eq)]
pub enum End {
    /// All steps were followed.
    Done,
    /// What is lent was refused, before any step.
    Before(Refusal),
    /// A step was refused, and that was not expected.
    Step {
        /// Why.
        refusal: Refusal,
        /// Its index.
        index: usize,
    },
    /// A call was refused, and that was not expected.
    Call {
        /// Why.
        refusal: Refusal,
        /// Its line.
        line: u32,
    },
}

impl End {
    /// The refusal that ended the case.
    pub fn refusal(self) -> Option<Refusal> {
        match self {
            End::Done => None,
            End::Before(refusal) | End::Step { refusal, .. } | End::Call { refusal, .. } => {
                Some(refusal)
            }
        }
    }

    /// The line of the case where it ended.
    pub fn line(self, case: &Case) -> u64 {
        match self {
            End::Done | End::Before(_) => case.line as u64,
            End::Step { index, .. } => case.line_of(index).into(),
            End::Call { line, .. } => line.into(),
        }
    }
}

/// What a case gave.
#[derive(Clone, Debug)]
pub struct Followed {
    /// How it ended.
    pub end: End,
    /// The steps done.
    pub done: usize,
    /// The steps refused as expected.
    pub refused: usize,
    /// The expectations that are met.
    pub met: usize,
    /// Those that are not.
    pub unmet: usize,
    /// Those that were not reached.
    pub not_reached: usize,
    /// The pending bits that writes and resets erased.
    pub erased: usize,
    /// The steps that erased some though no expectation of theirs says what they erase or change, and how many.
    pub unexpected: Vec<(usize, usize)>,
    /// Whether some step changed a register.
    pub changed: bool,
    /// Image and memory at the end.
    pub left: Lent,
    /// What became of the alarms; none where the image is refused.
    pub account: Option<Account>,
    /// Why the image, the list or the memory would be refused, where no step or call needed it.
    pub lent: Option<Refusal>,
}

impl Followed {
    fn starting(left: Lent, account: Option<Account>) -> Followed {
        Followed {
            end: End::Done,
            done: 0,
            refused: 0,
            met: 0,
            unmet: 0,
            not_reached: 0,
            erased: 0,
            unexpected: Vec::new(),
            changed: false,
            left,
            account,
            lent: None,
        }
    }
}

/// Follows a case from an image, its `set` bits stored, and a memory, its `poke` bytes stored.
pub fn follow(
    case: &Case,
    start: Lent,
    model: &impl Model,
    tell: &mut impl FnMut(Event),
) -> Followed {
    // On a copy: what a model does to it though it refuses it is seen at the step that asks.
    let Lent { mut image, mut memory } = start.clone();
    let lent = match model.run(&mut image, &case.channels, &mut memory, &[]) {
        Err(RunError::Call(refusal)) => Some(refusal),
        _ => None,
    };
    // Of an image that is refused no byte has its meaning; of a list no record.
    let channels = match lent {
        None | Some(Refusal::Memory) => &case.channels[..],
        Some(_) => &[],
    };
    let account = Account::starting(Pending::of(&start.image, channels));
    let account = (lent != Some(Refusal::ImageLength)).then_some(account);
    let followed = Followed::starting(start, account);
    // All calls are over parts of one list.
    let calls = case.asks.iter().any(|ask| matches!(ask.what, Asked::Call(_)));
    let words = if calls { case.words() } else { Vec::new() };
    let asks = &case.asks[..];
    let mut follower = Follower { case, channels, model, tell, asks, words, lent, followed };
    follower.all();
    let Follower { asks, lent, mut followed, .. } = follower;
    followed.lent = lent;
    followed.not_reached = asks.iter().filter(|ask| matches!(ask.what, Asked::Expect(_))).count();
    if let Some(account) = &mut followed.account {
        account.end(Pending::of(&followed.left.image, channels));
    }
    followed
}

struct Follower<'a, M, T> {
    case: &'a Case,
    /// The list by which pending bits are counted.
    channels: &'a [Channel],
    model: &'a M,
    tell: &'a mut T,
    /// Those to come.
    asks: &'a [Ask],
    /// The words of the steps, where there are calls.
    words: Vec<u64>,
    /// Why what is lent is refused, until a step or a call has met it.
    lent: Option<Refusal>,
    followed: Followed,
}

impl<'a, M: Model, T: FnMut(Event)> Follower<'a, M, T> {
    fn all(&mut self) {
        let mut before = self.followed.left.clone();
        let mut pending = Pending::of(&before.image, self.channels);
        for index in 0..=self.case.steps.len() {
            let going = self.calls(index) && self.step(index, &mut before, &mut pending);
            if !going {
                return;
            }
        }
        // What is lent is looked at also where nothing is asked.
        if self.case.steps.is_empty() && self.case.asks.is_empty() {
            self.ends_before(&[]);
        }
    }

    /// Whether the case ends here since what is lent is refused, and the first step or call that needs it does not
    /// expect that.
    fn ends_before(&mut self, expects: &[Ask]) -> bool {
        let Some(refusal) = self.lent.take() else {
            return false;
        };
        if expects.iter().any(|ask| ask.what.refusal() == Some(refusal.number())) {
            return false;
        }
        self.followed.end = End::Before(refusal);
        true
    }

    /// Whether a call needs what is refused: a view not the list, and the bounds not the memory.
    fn needs_lent(&self, call: &Call) -> bool {
        let without_memory = matches!(call, Call::Bound(_) | Call::HandlerBound(_));
        let passed_over = without_memory && self.lent == Some(Refusal::Memory);
        !matches!(call, Call::View(_)) && !passed_over
    }

    /// The calls after so many steps. Whether the case goes on.
    fn calls(&mut self, from: usize) -> bool {
        while let Some((Ask { after, line, what: Asked::Call(call) }, rest)) =
            self.asks.split_first()
        {
            if *after != from {
                break;
            }
            if self.needs_lent(call) && self.ends_before(group(rest, from)) {
                return false;
            }
            self.asks = rest;
            let left = std::mem::take(&mut self.followed.left);
            let words = &self.words[from.min(self.words.len())..];
            let made = Made { call: *call, line: *line, from };
            let report = CallReport::of(self.model, made, words, &left, self.case);
            let (expects, expected) = self.expects(from, from, Came::Call(&report));
            (self.tell)(Event::Call(&report, expected));
            self.compare(expects, Came::Call(&report));
            let refusal = report.refusal().filter(|_| !expected);
            drop(report);
            self.followed.left = left;
            if let Some(refusal) = refusal {
                self.followed.end = End::Call { refusal, line: *line };
                return false;
            }
        }
        true
    }

    /// A step. Whether the case goes on; there is nothing to do after the last.
    fn step(&mut self, index: usize, before: &mut Lent, pending: &mut Pending) -> bool {
        let Some(step) = self.case.steps.get(index).copied() else {
            return true;
        };
        let line_end = self.case.after_line(step.line);
        if self.ends_before(group(self.asks, line_end)) {
            return false;
        }
        let mut after = std::mem::take(&mut self.followed.left);
        copy(before, &after);
        let Case { channels, names, .. } = self.case;
        let Lent { image, memory } = &mut after;
        let answer = self.model.step(image, channels, memory, step.operation.step);
        let report = Report { index, step, answer, before, after: &after, channels, names };
        let (expects, expected) = self.expects(index + 1, line_end, Came::Step(&report));
        (self.tell)(Event::Step(&report, expected));
        self.compare(expects, Came::Step(&report));
        self.followed.changed = self.followed.changed || before.image != after.image;
        match answer {
            Ok(answer) => {
                let (step, line) = (step.operation.step, step.line);
                let now = Pending::of(&after.image, self.channels);
                let counted = Counted { step, line, answer, before: *pending, after: now };
                let told = expects.iter().any(|ask| ask.what.tells_erased(Came::Step(&report)));
                self.count(index, &counted, told);
                *pending = now;
            }
            Err(_) if expected => self.followed.refused += 1,
            Err(refusal) => self.followed.end = End::Step { refusal, index },
        }
        self.followed.left = after;
        answer.is_ok() || expected
    }

    /// Counts a step that was done; an expectation may tell what it erased.
    fn count(&mut self, index: usize, counted: &Counted, told: bool) {
        self.followed.done += 1;
        let Some(account) = &mut self.followed.account else { return };
        let erased = account.add(counted);
        self.followed.erased += erased;
        if erased != 0 && !told {
            self.followed.unexpected.push((index, erased));
        }
    }

    /// Takes the expectations of what came; whether it is a refusal and one of them says so, with the number that came.
    /// That decides alone whether the case goes on: bytes that a model changed all the same are told of the expectation.
    /// Of a repeated step the line's expectations say so, which are compared after the last.
    fn expects(&mut self, after: usize, line_end: usize, came: Came) -> (&'a [Ask], bool) {
        let expects = group(self.asks, after);
        let of_line = group(self.asks, line_end);
        self.asks = &self.asks[expects.len()..];
        let says_so = |ask: &Ask| match &ask.what {
            Asked::Expect(expect) => expect.what.is_refusal(came),
            Asked::Call(_) => false,
        };
        (expects, of_line.iter().any(says_so))
    }

    /// Compares the expectations of a step or a call, and tells each.
    fn compare(&mut self, expects: &[Ask], came: Came) {
        for ask in expects {
            let Asked::Expect(Expect { said, what, .. }) = &ask.what else { continue };
            let met = what.is_met(came);
            match met {
                true => self.followed.met += 1,
                false => self.followed.unmet += 1,
            }
            let words = if met { String::new() } else { what.came(came) };
            let comparison = Comparison {
                line: ask.line,
                said: said.clone(),
                met,
                came: words,
                statement: statement(came),
            };
            (self.tell)(Event::Compared(&comparison));
        }
    }
}

/// Makes one the same as another. A memory is long and seldom another: it is compared first.
fn copy(to: &mut Lent, from: &Lent) {
    to.image.copy_from_slice(&from.image);
    if to.memory != from.memory {
        to.memory.copy_from_slice(&from.memory);
    }
}

/// The expectations after so many steps, up to the next call.
fn group(asks: &[Ask], after: usize) -> &[Ask] {
    let belongs = |ask: &&Ask| ask.after == after && matches!(ask.what, Asked::Expect(_));
    &asks[..asks.iter().take_while(belongs).count()]
}

/// The statement that an answer is of, with its place.
fn statement(came: Came) -> String {
    match came {
        Came::Step(report) => {
            let (operation, index, line) = (report.step.operation, report.index, report.step.line);
            format!("{operation} (step {index}, line {line})")
        }
        Came::Call(report) => format!("{} (line {})", report.statement(), report.line),
    }
}
