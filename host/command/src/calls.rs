//! The model as the command calls it, and the calls of a scenario with their answers.

use crate::answers::Report;
use crate::bounds::{bound_json, Bounds, Claim, Claimed, List};
use crate::lent::Lent;
use crate::notes::transfer_note;
use crate::{Call, Case, Object};
use st9::text::counted;
use st9::text::hex;
use st9::{Answer, Bound, Channel, Done, Refusal, RunError, Source, Step, Wait, WaitError};

/// A model of the part: the proved one, or another to compare it with.
pub trait Model {
    /// Does one step.
    fn step(
        &self,
        image: &mut [u8],
        channels: &[Channel],
        memory: &mut [u8],
        step: Step,
    ) -> Result<Answer, Refusal>;

    /// Does steps one after another.
    fn run(
        &self,
        image: &mut [u8],
        channels: &[Channel],
        memory: &mut [u8],
        words: &[u64],
    ) -> Result<Done, RunError>;

    /// The wait report.
    fn wait(
        &self,
        image: &mut [u8],
        channels: &[Channel],
        memory: &mut [u8],
        source: Source,
        words: &[u64],
    ) -> Result<Wait, WaitError>;

    /// Demand 3's bound.
    fn bound(
        &self,
        image: &[u8],
        channels: &[Channel],
        source: Source,
        words: &[u64],
    ) -> Result<Bound, Refusal>;

    /// The bound by the handlers' claim.
    fn handler_bound(
        &self,
        image: &[u8],
        channels: &[Channel],
        source: Source,
        words: &[u64],
    ) -> Result<Bound, Refusal>;

    /// The view of a page.
    fn view<'a>(&self, image: &'a [u8], page: u32) -> Result<&'a [u8], Refusal>;
}

/// What a call answered.
#[derive(Clone, Debug, PartialEq, Eq)]
pub enum CallAnswer {
    /// Of a run, with image and memory before its last step.
    Run {
        /// The answer.
        done: Result<Done, RunError>,
        /// Image and memory before the last step that was done.
        before_last: Lent,
    },
    /// Of a wait.
    Wait(Result<Wait, WaitError>),
    /// Of a bound: what both claims say.
    Bound(Result<Bounds, Refusal>),
    /// Of a handlers' bound.
    HandlerBound(Result<Bound, Refusal>),
    /// Of a view.
    View(Result<Vec<u8>, Refusal>),
}

/// A call, its line, and the steps of the case before it.
#[derive(Clone, Copy, Debug, PartialEq, Eq)]
pub struct Made {
    /// The call.
    pub call: Call,
    /// Its line.
    pub line: u32,
    /// The steps of the case before it: where its list starts.
    pub from: usize,
}

/// A call of a case and its answer, to be told.
#[derive(Clone, Debug)]
pub struct CallReport<'a> {
    /// The call.
    pub call: Call,
    /// Its line.
    pub line: u32,
    /// The steps of the case before it: where its list starts.
    pub from: usize,
    /// What the model answered.
    pub answer: CallAnswer,
    /// Image and memory before it.
    pub before: &'a Lent,
    /// The copy after it.
    pub after: Lent,
    /// The case.
    pub case: &'a Case,
}

impl<'a> CallReport<'a> {
    /// Makes the call on a copy of image and memory, over the words of the steps that follow.
    pub fn of(
        model: &impl Model,
        made: Made,
        words: &[u64],
        before: &'a Lent,
        case: &'a Case,
    ) -> CallReport<'a> {
        let Made { call, line, from } = made;
        let mut after = before.clone();
        let Lent { image, memory } = &mut after;
        let channels = &case.channels;
        let answer = match call {
            Call::Run => {
                let done = model.run(image, channels, memory, words);
                let mut before_last = before.clone();
                if let Ok(Done { steps: steps @ 1.., .. }) = done {
                    let Lent { image, memory } = &mut before_last;
                    let _ = model.run(image, channels, memory, &words[..steps - 1]);
                }
                CallAnswer::Run { done, before_last }
            }
            Call::Wait(source) => {
                CallAnswer::Wait(model.wait(image, channels, memory, source, words))
            }
            Call::Bound(source) => {
                CallAnswer::Bound(Bounds::of(model, image, channels, source, words))
            }
            Call::HandlerBound(source) => {
                CallAnswer::HandlerBound(model.handler_bound(image, channels, source, words))
            }
            Call::View(page) => CallAnswer::View(model.view(image, page).map(<[u8]>::to_vec)),
        };
        CallReport { call, line, from, answer, before, after, case }
    }

    /// The refusal, if the call was refused, before any step or at one.
    pub fn refusal(&self) -> Option<Refusal> {
        match self.answer {
            CallAnswer::Run { done: Err(RunError::Call(refusal)), .. }
            | CallAnswer::Run { done: Err(RunError::Step { refusal, .. }), .. }
            | CallAnswer::Wait(Err(WaitError::Call(refusal)))
            | CallAnswer::Wait(Err(WaitError::Step { refusal, .. }))
            | CallAnswer::Bound(Err(refusal))
            | CallAnswer::HandlerBound(Err(refusal))
            | CallAnswer::View(Err(refusal)) => Some(refusal),
            _ => None,
        }
    }

    /// The last step that a run did, with its answer.
    pub(crate) fn last(&self) -> Option<Report<'_>> {
        let CallAnswer::Run { done: Ok(Done { steps, last: Some(last) }), before_last } =
            &self.answer
        else {
            return None;
        };
        let index = self.from + steps.checked_sub(1)?;
        Some(Report {
            index,
            step: *self.case.steps.get(index)?,
            answer: Ok(*last),
            before: before_last,
            after: &self.after,
            channels: &self.case.channels,
            names: &self.case.names,
        })
    }

    /// The step of the case that acknowledged what a wait is for.
    pub(crate) fn acknowledged_at(&self) -> Option<usize> {
        match self.answer {
            CallAnswer::Wait(Ok(Wait::Acknowledged { arbitrations })) => {
                self.case.arbitration(self.from, arbitrations)
            }
            _ => None,
        }
    }

    /// The answer in words; what the command adds is in parentheses.
    pub fn words(&self) -> String {
        match &self.answer {
            CallAnswer::Run { done, .. } => self.run_words(done),
            CallAnswer::Wait(waited) => {
                waited_words(*waited, self.case, self.from, Some(&self.after))
            }
            CallAnswer::Bound(Ok(bounds)) => bounds.explained(self.list()),
            CallAnswer::HandlerBound(Ok(bound)) => {
                Claimed { claim: Claim::Handlers, bound: *bound }.explained(self.list())
            }
            CallAnswer::View(Ok(bytes)) => {
                let bytes = bytes.iter().map(|byte| hex(*byte)).collect::<Vec<_>>();
                format!("bytes {}", bytes.join(" "))
            }
            CallAnswer::Bound(Err(refusal))
            | CallAnswer::HandlerBound(Err(refusal))
            | CallAnswer::View(Err(refusal)) => refusal.with_number(),
        }
    }

    fn list(&self) -> List<'_> {
        List { steps: &self.case.steps, from: self.from }
    }

    fn run_words(&self, done: &Result<Done, RunError>) -> String {
        match done {
            Ok(done) => {
                let steps = counted(done.steps as u64, "step");
                match self.last() {
                    Some(last) => format!("done: {steps}, last answer: {}", last.words()),
                    None => format!("done: {steps}, last answer: none (the list is empty)"),
                }
            }
            Err(RunError::Call(refusal)) => refused_before(*refusal),
            Err(RunError::Step { refusal, index }) => {
                refused_at(*refusal, self.case, self.from + index, "", Some(&self.after))
            }
        }
    }

    /// The statement, with the own name of a source.
    pub fn statement(&self) -> String {
        let own = match self.call {
            Call::Wait(source) | Call::Bound(source) | Call::HandlerBound(source) => {
                self.case.names.of(source)
            }
            _ => None,
        };
        match own {
            Some(own) => format!("{} ({own})", self.call),
            None => self.call.to_string(),
        }
    }

    /// The call as an object; a bound that both claims were asked for as two.
    pub fn json(&self) -> Vec<String> {
        let (case, names) = (self.case, &self.case.names);
        let object = match &self.answer {
            CallAnswer::Run { done, .. } => self.run_json(self.object("run"), *done),
            CallAnswer::Wait(waited) => {
                let object = self.object("wait").source(self.source(), names);
                waited_json(object, *waited, case, self.from)
            }
            CallAnswer::Bound(Ok(bounds)) => {
                let told = |claimed: Claimed| {
                    let object = self.bound_json(claimed.claim, Ok(claimed.bound));
                    object.text("words", &claimed.explained(self.list())).end()
                };
                return bounds.all().map(told).collect();
            }
            CallAnswer::Bound(Err(refusal)) => self.bound_json(Claim::Demand3, Err(*refusal)),
            CallAnswer::HandlerBound(bound) => self.bound_json(Claim::Handlers, *bound),
            CallAnswer::View(Ok(bytes)) => {
                let bytes = bytes.iter().map(u8::to_string).collect::<Vec<_>>();
                self.object("view").text("result", "viewed").list("bytes", &bytes)
            }
            CallAnswer::View(Err(refusal)) => {
                self.object("view").text("result", "refused").refusal(*refusal)
            }
        };
        vec![object.text("words", &self.words()).end()]
    }

    /// The start of an object of this call.
    fn object(&self, kind: &str) -> Object {
        let object = Object::new().text("type", kind).number("at", self.line.into());
        object.number("from", self.from as u64)
    }

    fn bound_json(&self, claim: Claim, bound: Result<Bound, Refusal>) -> Object {
        let object = self.object(claim.kind()).source(self.source(), &self.case.names);
        bound_json(object, claim, bound, self.list())
    }

    fn source(&self) -> Source {
        match self.call {
            Call::Wait(source) | Call::Bound(source) | Call::HandlerBound(source) => source,
            _ => Source(0),
        }
    }

    fn run_json(&self, object: Object, done: Result<Done, RunError>) -> Object {
        match done {
            Ok(done) => {
                let last = self.last().map(|last| last.words());
                let object = object.text("result", "done").number("steps", done.steps as u64);
                object.text("last", last.as_deref().unwrap_or("none"))
            }
            Err(RunError::Call(refusal)) => refused_json(object, refusal, self.case, None),
            Err(RunError::Step { refusal, index }) => {
                refused_json(object, refusal, self.case, Some(self.from + index))
            }
        }
    }
}

/// A run or a wait refused for what is lent or for its source.
fn refused_before(refusal: Refusal) -> String {
    format!("{}, before any step", refusal.with_number())
}

/// A refusal at a step of a list: `refused with 3 at step 2 (line 4: meaning)`; of a transfer with its address or
/// pointer, which stand in what the steps before left, where that is given.
fn refused_at(
    refusal: Refusal,
    case: &Case,
    index: usize,
    more: &str,
    left: Option<&Lent>,
) -> String {
    let (line, number) = (case.line_of(index), refusal.number());
    let why = left.and_then(|left| transfer_note(refusal, case, left));
    let why = why.map_or(String::new(), |why| format!(" ({why})"));
    format!("refused with {number} at step {index}{more} (line {line}: {refusal}){why}")
}

/// A wait report in words, over the steps of a case from one on; with what it left also why a transfer was refused.
pub fn waited_words(
    waited: Result<Wait, WaitError>,
    case: &Case,
    from: usize,
    left: Option<&Lent>,
) -> String {
    match waited {
        Ok(Wait::Acknowledged { arbitrations }) => {
            let place = case
                .arbitration(from, arbitrations)
                .map(|index| format!(" at step {index} (line {})", case.line_of(index)));
            format!("acknowledged by arbitration {arbitrations}{}", place.unwrap_or_default())
        }
        Ok(Wait::Ended { arbitrations }) => {
            let made = counted(arbitrations, "arbitration");
            format!("not acknowledged, the list ended after {made}")
        }
        Err(WaitError::Call(refusal)) => refused_before(refusal),
        Err(WaitError::Step { refusal, index, arbitrations }) => {
            let made = format!(", after {}", counted(arbitrations, "arbitration"));
            refused_at(refusal, case, from + index, &made, left)
        }
    }
}

/// A wait report's members.
pub fn waited_json(
    object: Object,
    waited: Result<Wait, WaitError>,
    case: &Case,
    from: usize,
) -> Object {
    match waited {
        Ok(Wait::Acknowledged { arbitrations }) => {
            let step = case.arbitration(from, arbitrations);
            object
                .text("result", "acknowledged")
                .number("arbitrations", arbitrations)
                .optional("step", step.map(|step| step as u64))
                .optional("line", step.map(|step| case.line_of(step).into()))
        }
        Ok(Wait::Ended { arbitrations }) => {
            object.text("result", "ended").number("arbitrations", arbitrations)
        }
        Err(WaitError::Call(refusal)) => refused_json(object, refusal, case, None),
        Err(WaitError::Step { refusal, index, arbitrations }) => {
            refused_json(object, refusal, case, Some(from + index))
                .number("arbitrations", arbitrations)
        }
    }
}

/// A refusal's members with the step and its line, null before any step.
pub fn refused_json(object: Object, refusal: Refusal, case: &Case, index: Option<usize>) -> Object {
    object
        .text("result", "refused")
        .refusal(refusal)
        .optional("step", index.map(|index| index as u64))
        .optional("line", index.map(|index| case.line_of(index).into()))
}
