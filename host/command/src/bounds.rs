//! The bounds of a source's wait, in words and as objects: by demand 3, over triggers, arbitrations and returns; by the
//! handlers' claim, over lists that also read, and write what leaves what the bound rests on.

use crate::calls::Model;
use crate::{Object, StepLine};
use st9::text::counted;
use st9::{Basis, Bound, Channel, Premise, Refusal, Source};

/// What a bound is proved by.
#[derive(Clone, Copy, Debug, PartialEq, Eq)]
pub enum Claim {
    /// Demand 3.
    Demand3,
    /// The handlers' claim.
    Handlers,
}

/// A bound and the claim that answered it.
#[derive(Clone, Copy, Debug, PartialEq, Eq)]
pub struct Claimed {
    /// The claim.
    pub claim: Claim,
    /// What it answered.
    pub bound: Bound,
}

/// What the claims say of a source over a list of steps.
#[derive(Clone, Copy, Debug, PartialEq, Eq)]
pub struct Bounds {
    /// Demand 3.
    pub demand3: Bound,
    /// The handlers' claim, asked where demand 3 does not speak of a step.
    pub handlers: Option<Bound>,
}

/// The steps of a case, and where in them the list of a call starts.
#[derive(Clone, Copy, Debug)]
pub struct List<'a> {
    /// All steps of the case.
    pub steps: &'a [StepLine],
    /// The index of the list's first.
    pub from: usize,
}

impl List<'_> {
    /// A step of the list as the case counts it, with its line.
    fn place(self, index: usize) -> String {
        let index = self.from + index;
        match self.steps.get(index) {
            Some(step) => format!("step {index} (line {}: {})", step.line, step.operation),
            None => format!("step {index}"),
        }
    }

    /// How many arbitrations the list has.
    fn arbitrations(self) -> u64 {
        let is_arbitration = |step: &&StepLine| step.operation.step.word() >> 48 == 3;
        self.steps.iter().skip(self.from).filter(is_arbitration).count() as u64
    }

    /// The same in words, and whether they may be too few for a bound.
    fn length(self, bound: u64) -> String {
        match self.arbitrations() {
            0 => "the list has no arbitration".to_string(),
            has if has < bound => format!("the list has only {}", counted(has, "arbitration")),
            has => format!("the list has {}", counted(has, "arbitration")),
        }
    }
}

impl Claim {
    /// The claim by its name, as it is printed.
    pub fn name(self) -> &'static str {
        match self {
            Claim::Demand3 => "demand 3",
            Claim::Handlers => "the handlers' claim",
        }
    }

    /// The type of its objects, which is also the statement that asks it.
    pub fn kind(self) -> &'static str {
        match self {
            Claim::Demand3 => "bound",
            Claim::Handlers => "handler bound",
        }
    }

    /// What H and E count, a line each.
    fn counted(self) -> [&'static str; 2] {
        let triggers = match self {
            Claim::Demand3 => "E: triggers of such in the list",
            Claim::Handlers => {
                "E: triggers of such and bits of theirs that writes raise, up to the acknowledgement"
            }
        };
        ["H: unmasked outranking sources pending at the start", triggers]
    }

    /// A premise of its own, without the step.
    fn premise(self, premise: Premise) -> String {
        match (self, premise) {
            (Claim::Handlers, Premise::OtherStep { .. }) => "a reset".to_string(),
            _ => premise.to_string(),
        }
    }
}

/// What the handlers' claim rests on, as a word of an object.
fn changed(basis: Basis) -> &'static str {
    match basis {
        Basis::Pending => "pending",
        Basis::Mode => "mode",
        Basis::CurrentLevel => "current level",
        Basis::TopLevel => "top level",
        Basis::Mask => "mask",
        Basis::DmaEnable => "DMA enable",
        Basis::Level => "level",
    }
}

impl Claimed {
    /// The bound, or the premise that fails with the step and its line.
    pub fn words(self, list: List) -> String {
        let Bound::Fails(premise) = self.bound else {
            return self.bound.to_string();
        };
        let place = premise.index().map(|index| format!(" at {}", list.place(index)));
        let place = place.unwrap_or_default();
        match premise {
            Premise::Changed { basis, .. } => format!("none: the write{place} {}", basis.change()),
            _ => format!("none: {}{place}", self.claim.premise(premise)),
        }
    }

    /// The same with the claim and how many arbitrations the list has.
    pub fn explained(self, list: List) -> String {
        self.explained_beside(None, list)
    }

    /// The same with what stands beside it.
    fn explained_beside(self, beside: Option<String>, list: List) -> String {
        let has = match self.bound {
            Bound::Within { bound, .. } => Some(list.length(bound)),
            Bound::Fails(_) => None,
        };
        let beside: Vec<_> = has.into_iter().chain(beside).collect();
        match beside.is_empty() {
            true => self.words(list),
            false => {
                format!("{} ({}; {})", self.words(list), self.claim.name(), beside.join("; "))
            }
        }
    }
}

impl Bounds {
    /// Asks demand 3 and, where a premise of its steps fails, the handlers' claim.
    pub fn of(
        model: &impl Model,
        image: &[u8],
        channels: &[Channel],
        source: Source,
        words: &[u64],
    ) -> Result<Bounds, Refusal> {
        let demand3 = model.bound(image, channels, source, words)?;
        let handlers = match demand3 {
            Bound::Fails(premise) if premise.index().is_some() => {
                Some(model.handler_bound(image, channels, source, words)?)
            }
            _ => None,
        };
        Ok(Bounds { demand3, handlers })
    }

    /// All that was answered.
    pub fn all(self) -> impl Iterator<Item = Claimed> {
        let demand3 = Claimed { claim: Claim::Demand3, bound: self.demand3 };
        let handlers = self.handlers.map(|bound| Claimed { claim: Claim::Handlers, bound });
        std::iter::once(demand3).chain(handlers)
    }

    /// The one that is told: the handlers' claim, unless the same premise of both fails.
    fn told(self) -> Claimed {
        match self.handlers {
            Some(bound) if bound != self.demand3 => Claimed { claim: Claim::Handlers, bound },
            _ => Claimed { claim: Claim::Demand3, bound: self.demand3 },
        }
    }

    /// The one that is told, with the name of its claim.
    pub fn words(self, list: List) -> String {
        let told = self.told();
        let words = told.words(list);
        match (told.claim, told.bound) {
            (Claim::Demand3, Bound::Fails(_)) => words,
            (claim, _) => format!("{words} ({})", claim.name()),
        }
    }

    /// What H and E count, a line each, where the one that is told is a bound.
    pub fn counted(self) -> Option<[&'static str; 2]> {
        let told = self.told();
        matches!(told.bound, Bound::Within { .. }).then(|| told.claim.counted())
    }

    /// The same as `words` with how many arbitrations the list has, and why demand 3 does not speak.
    pub fn explained(self, list: List) -> String {
        let told = self.told();
        let beside = match (told.claim, self.demand3) {
            (Claim::Handlers, Bound::Fails(premise)) => Some(silence(premise, list)),
            _ => None,
        };
        told.explained_beside(beside, list)
    }
}

/// Why demand 3 does not speak, beside what the handlers' claim says.
fn silence(premise: Premise, list: List) -> String {
    let step = list.from + premise.index().unwrap_or_default();
    let how = match premise {
        Premise::InterruptsDisabled { .. } => " with interrupts disabled",
        _ => "",
    };
    format!("demand 3 does not speak of step {step}{how}")
}

/// A bound's members.
pub fn bound_json(
    object: Object,
    claim: Claim,
    bound: Result<Bound, Refusal>,
    list: List,
) -> Object {
    let object = match claim {
        Claim::Demand3 => object.text("claim", "demand 3"),
        Claim::Handlers => object.text("claim", "handlers"),
    };
    match bound {
        Ok(Bound::Within { outranking, triggers, bound }) => object
            .text("result", "within")
            .number("outranking", outranking)
            .number("triggers", triggers)
            .number("bound", bound)
            .number("arbitrations", list.arbitrations()),
        Ok(Bound::Fails(premise)) => {
            let index = premise.index().map(|index| list.from + index);
            let line = index.and_then(|index| Some(list.steps.get(index)?.line.into()));
            let object = object.text("result", "fails").text("premise", &claim.premise(premise));
            let object = match premise {
                Premise::Changed { basis, .. } => object.text("changed", changed(basis)),
                _ => object,
            };
            object.optional("step", index.map(|index| index as u64)).optional("line", line)
        }
        Err(refusal) => object.text("result", "refused").refusal(refusal),
    }
}
