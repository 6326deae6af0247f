//! What a step or a call is expected to give, and whether it did.

use crate::calls::{CallAnswer, CallReport};
use crate::changes::{changes, Change};
use crate::fields::Bits;
use crate::lent::Lent;
use crate::memory::{self, stretches, Stretch};
use crate::pending::Bit;
use crate::{Call, Place, Report};
use st9::text::hex;
use st9::{Answer, Bound, Channel, Effect, Premise, Refusal, RunError, Source, Wait, WaitError};

/// An expectation and the words that it was said in.
#[derive(Clone, Debug, PartialEq, Eq)]
pub struct Expect {
    /// The words after `expect`.
    pub said: String,
    /// What they mean.
    pub what: Expected,
    /// A byte among them that stands as two decimal digits, where hexadecimal may be meant.
    pub decimal: Option<u8>,
}

/// What is expected. A number that is not said is not compared.
#[derive(Clone, Debug, PartialEq, Eq)]
pub enum Expected {
    /// Of a read.
    Byte(u8),
    /// Of a write that erased no pending bit.
    Written,
    /// Of a write or a reset: exactly the pending bits that it erased, in the order of the sources.
    Erased(Vec<Bit>),
    /// Of a trigger: what it did to the bits that are named; every other one is not selected. Without a name it is the
    /// one bit that the trigger selects.
    Triggered(Vec<(Option<Bit>, Effect)>),
    /// Of an arbitration that found nothing, and of a bound where neither claim gives one.
    Nothing,
    /// Of an arbitration.
    TopLevel {
        /// The vector.
        vector: Option<u8>,
    },
    /// Of an arbitration.
    Interrupt {
        /// The source.
        source: Source,
        /// Its level.
        level: Option<u8>,
        /// Its vector.
        vector: Option<u8>,
    },
    /// Of an arbitration.
    Transferred {
        /// The source.
        source: Source,
        /// Whether the block ended.
        ended: bool,
        /// The byte of the memory that moved, where it is said.
        memory: Option<usize>,
    },
    /// Of a return.
    Returned,
    /// Of a reset.
    Reset,
    /// Of a step or a call. A refused step, and a call refused before any step, changes no byte.
    Refused {
        /// Document 01's number.
        number: u8,
        /// Of a call: where.
        at: Option<RefusedAt>,
        /// Of a wait: the arbitrations made before it.
        arbitrations: Option<u64>,
    },
    /// Of a run.
    Done {
        /// How many steps were done.
        steps: usize,
        /// The answer of the last.
        last: Option<Box<Expected>>,
    },
    /// Of a wait; without numbers also of an arbitration that acknowledged anything.
    Acknowledged {
        /// By which arbitration.
        arbitration: Option<u64>,
        /// At which step.
        step: Option<usize>,
    },
    /// Of a wait whose list ended first.
    Never {
        /// The arbitrations made.
        arbitrations: Option<u64>,
    },
    /// Of a bound, by either claim.
    Within {
        /// H + E + 1.
        bound: u64,
        /// H.
        outranking: Option<u64>,
        /// E.
        triggers: Option<u64>,
    },
    /// Of a bound: the first premise of either claim that fails; the index in it is not looked at.
    Fails {
        /// Which.
        premise: Premise,
        /// At which step.
        step: Option<usize>,
    },
    /// Of a view: its sixteen bytes.
    Page(Vec<u8>),
    /// Bits of a stored byte afterwards.
    Stored {
        /// The byte of the image.
        place: Place,
        /// What is stored there.
        bits: Bits,
    },
    /// Bytes of the memory afterwards, from an address on.
    Memory {
        /// The address of the first.
        address: usize,
        /// What is stored there.
        bytes: Vec<u8>,
    },
    /// Exactly the bytes that changed, those of the image before those of the memory: the byte before where it is said,
    /// and after.
    Changed(Vec<(Where, Option<u8>, u8)>),
}

/// A byte that is lent.
#[derive(Clone, Copy, Debug, PartialEq, Eq, Hash, PartialOrd, Ord)]
pub enum Where {
    /// Of the image.
    Image(Place),
    /// Of the memory, by its address.
    Memory(usize),
}

/// Where a call is refused.
#[derive(Clone, Copy, Debug, PartialEq, Eq)]
pub enum RefusedAt {
    /// For its arguments, as document 01 orders the refusals.
    BeforeAnyStep,
    /// A run or a wait, at this step.
    Step(usize),
}

/// What came: of a step or of a call.
#[derive(Clone, Copy)]
pub(crate) enum Came<'a> {
    Step(&'a Report<'a>),
    Call(&'a CallReport<'a>),
}

impl Came<'_> {
    fn lent(&self) -> (&Lent, &Lent, &[Channel]) {
        match self {
            Came::Step(report) => (report.before, report.after, report.channels),
            Came::Call(report) => (report.before, &report.after, &report.case.channels),
        }
    }

    fn changes(&self) -> Changes<'_> {
        let (before, after, _) = self.lent();
        Changes {
            image: changes(&before.image, &after.image),
            memory: stretches(&before.memory, &after.memory),
        }
    }

    fn words(&self) -> String {
        match self {
            Came::Step(report) => report.words(),
            Came::Call(report) => report.words(),
        }
    }

    fn refusal(&self) -> Option<Refusal> {
        match self {
            Came::Step(report) => report.answer.err(),
            Came::Call(report) => report.refusal(),
        }
    }

    /// Where a call was refused; of a wait at a step also the arbitrations before it.
    fn refused_at(&self) -> (Option<RefusedAt>, Option<u64>) {
        let Came::Call(report) = self else {
            return (None, None);
        };
        let step = |index: usize| Some(RefusedAt::Step(report.from + index));
        match report.answer {
            CallAnswer::Run { done: Err(RunError::Step { index, .. }), .. } => (step(index), None),
            CallAnswer::Wait(Err(WaitError::Step { index, arbitrations, .. })) => {
                (step(index), Some(arbitrations))
            }
            _ => (Some(RefusedAt::BeforeAnyStep), None),
        }
    }

    /// The bytes that changed though a refusal changes none. A run or a wait that is refused at a step did those before.
    fn changes_by_refusal(&self) -> Changes<'_> {
        match (self.refusal(), self.refused_at()) {
            (None, _) | (_, (Some(RefusedAt::Step(_)), _)) => Changes::default(),
            _ => self.changes(),
        }
    }
}

/// The bytes that changed.
#[derive(Default)]
struct Changes<'a> {
    image: Vec<Change>,
    memory: Vec<Stretch<'a>>,
}

impl Changes<'_> {
    fn is_empty(&self) -> bool {
        self.image.is_empty() && self.memory.is_empty()
    }

    /// Each with what it was and is, in the order of an expectation.
    fn all(&self) -> impl Iterator<Item = (Where, u8, u8)> + '_ {
        let of_image = |change: &Change| (Where::Image(change.place), change.before, change.after);
        let of_memory = self.memory.iter().flat_map(|stretch| {
            let bytes = stretch.before.iter().zip(stretch.after);
            (stretch.address..).zip(bytes).map(|(at, (old, new))| (Where::Memory(at), *old, *new))
        });
        self.image.iter().map(of_image).chain(of_memory)
    }

    /// Whether they are those that are expected, and no others.
    fn are(&self, expected: &[(Where, Option<u8>, u8)]) -> bool {
        let mut all = self.all();
        let same = expected.iter().all(|(place, before, after)| {
            all.next().is_some_and(|(at, old, new)| {
                at == *place && before.is_none_or(|before| before == old) && new == *after
            })
        });
        same && all.next().is_none()
    }

    /// `changed EIPR 00h -> 10h, M0005h 00h -> 5Ah`, as an expectation is written; of a long block the start.
    fn words(&self) -> String {
        const MOST: usize = 64;
        if self.is_empty() {
            return "changed nothing".to_string();
        }
        let one = |change: &Change| {
            format!("{} {} -> {}", change.place.written(), hex(change.before), hex(change.after))
        };
        let mut parts: Vec<_> = self.image.iter().map(one).collect();
        let mut bytes = 0;
        for stretch in &self.memory {
            if bytes < MOST {
                parts.push(stretch.start(MOST - bytes).written());
            }
            bytes += stretch.after.len();
        }
        let more = match bytes.saturating_sub(MOST) {
            0 => String::new(),
            more => format!(" (and {more} more bytes of the memory)"),
        };
        format!("changed {}{more}", parts.join(", "))
    }
}

impl Expected {
    /// Whether this came.
    pub(crate) fn is_met(&self, came: Came) -> bool {
        let (_, after, _) = came.lent();
        match (self, came) {
            (Expected::Stored { place, bits }, _) => {
                after.image.get(place.0).is_some_and(|byte| bits.are_in(*byte))
            }
            (Expected::Memory { address, bytes }, _) => {
                part(&after.memory, *address, bytes.len()) == Some(bytes)
            }
            (Expected::Changed(expected), _) => came.changes().are(expected),
            (Expected::Refused { .. }, _) => {
                self.is_refusal(came) && came.changes_by_refusal().is_empty()
            }
            (_, Came::Step(report)) => self.is_met_by_step(report),
            (_, Came::Call(report)) => self.is_met_by_call(report),
        }
    }

    /// Whether this is the refusal that came, whatever bytes changed.
    pub(crate) fn is_refusal(&self, came: Came) -> bool {
        let (Expected::Refused { number, at, arbitrations }, Some(refusal)) =
            (self, came.refusal())
        else {
            return false;
        };
        let (place, made) = came.refused_at();
        *number == refusal.number()
            && (at.is_none() || *at == place)
            && arbitrations.is_none_or(|expected| made == Some(expected))
    }

    fn is_met_by_step(&self, report: &Report) -> bool {
        let Ok(answer) = report.answer else {
            return false;
        };
        match (self, answer) {
            (Expected::Byte(expected), Answer::Byte(byte)) => *expected == byte,
            (Expected::Written, Answer::Written { .. }) => report.erased().is_empty(),
            (Expected::Erased(bits), Answer::Written { .. } | Answer::Reset) => {
                *bits == report.erased()
            }
            (Expected::Triggered(phrases), Answer::Triggered { .. }) => {
                triggered(phrases, &report.effects())
            }
            (Expected::Nothing, Answer::Nothing) => true,
            (Expected::TopLevel { vector }, Answer::TopLevel { vector: came }) => {
                is_said(*vector, came)
            }
            (
                Expected::Interrupt { source, level, vector },
                Answer::Interrupt { source: winner, level: its_level, vector: its_vector },
            ) => *source == winner && is_said(*level, its_level) && is_said(*vector, its_vector),
            (
                Expected::Transferred { source, ended, memory },
                Answer::Transferred { source: winner, ended: block_ended },
            ) => {
                let moved = memory.is_none() || *memory == report.memory_address();
                *source == winner && *ended == block_ended && moved
            }
            (Expected::Returned, Answer::Returned) | (Expected::Reset, Answer::Reset) => true,
            (Expected::Acknowledged { arbitration: None, step: None }, acknowledged) => {
                matches!(acknowledged, Answer::Interrupt { .. } | Answer::TopLevel { .. })
            }
            _ => false,
        }
    }

    fn is_met_by_call(&self, report: &CallReport) -> bool {
        match &report.answer {
            CallAnswer::Run { done: Ok(done), .. } => match self {
                Expected::Done { steps, last } => {
                    let met = |last: &Expected| match report.last() {
                        Some(answer) => last.is_met_by_step(&answer),
                        // Document 01: none for an empty list, and for no other.
                        None => *last == Expected::Nothing && done.last.is_none() && *steps == 0,
                    };
                    *steps == done.steps && last.as_deref().is_none_or(met)
                }
                _ => false,
            },
            CallAnswer::Wait(Ok(waited)) => self.is_met_by_wait(*waited, report),
            CallAnswer::Bound(Ok(bounds)) => {
                let mut all = bounds.all().map(|claimed| claimed.bound);
                match self {
                    Expected::Nothing => all.all(|bound| self.is_met_by_bound(bound, report)),
                    _ => all.any(|bound| self.is_met_by_bound(bound, report)),
                }
            }
            CallAnswer::HandlerBound(Ok(bound)) => self.is_met_by_bound(*bound, report),
            CallAnswer::View(Ok(bytes)) => *self == Expected::Page(bytes.clone()),
            _ => false,
        }
    }

    fn is_met_by_wait(&self, waited: Wait, report: &CallReport) -> bool {
        match (self, waited) {
            (Expected::Acknowledged { arbitration, step }, Wait::Acknowledged { arbitrations }) => {
                let at = step.is_none_or(|step| report.acknowledged_at() == Some(step));
                is_said(*arbitration, arbitrations) && at
            }
            (
                Expected::Interrupt { source, level: None, vector: None },
                Wait::Acknowledged { .. },
            ) => report.call == Call::Wait(*source),
            (Expected::Never { arbitrations: expected }, Wait::Ended { arbitrations }) => {
                is_said(*expected, arbitrations)
            }
            _ => false,
        }
    }

    fn is_met_by_bound(&self, came: Bound, report: &CallReport) -> bool {
        match (self, came) {
            (
                Expected::Within { bound, outranking, triggers },
                Bound::Within { outranking: h, triggers: e, bound: by },
            ) => *bound == by && is_said(*outranking, h) && is_said(*triggers, e),
            (Expected::Nothing, Bound::Fails(_)) => true,
            (Expected::Fails { premise, step }, Bound::Fails(failing)) => {
                let index = failing.index().map(|index| report.from + index);
                is_same(*premise, failing) && step.is_none_or(|step| index == Some(step))
            }
            _ => false,
        }
    }

    /// What came, in the words that this expectation is about.
    pub(crate) fn came(&self, came: Came) -> String {
        let (_, after, channels) = came.lent();
        match (self, came) {
            (Expected::Stored { place, bits }, _) => match after.image.get(place.0) {
                Some(byte) if bits.mask == 0xFF => format!("{} {}", place.written(), hex(*byte)),
                Some(byte) => {
                    let fields = place.role(channels).all_bits(*byte);
                    format!("{} {} ({fields})", place.written(), hex(*byte))
                }
                None => format!("an image without {}", place.written()),
            },
            (Expected::Memory { address, bytes }, _) => {
                match part(&after.memory, *address, bytes.len()) {
                    Some(came) => {
                        format!("memory {} {}", memory::address(*address), memory::bytes(came))
                    }
                    None => format!("a memory of {} bytes", after.memory.len()),
                }
            }
            (Expected::Changed(_), _) => came.changes().words(),
            (Expected::Refused { at, .. }, _) => match (came.changes_by_refusal(), at, came) {
                (changes, _, _) if !changes.is_empty() => {
                    format!("{}, and {}", came.words(), changes.words())
                }
                (_, Some(_), Came::Step(report)) if report.answer.is_err() => {
                    format!("{}: of a step its number alone is expected", came.words())
                }
                _ => came.words(),
            },
            _ => came.words(),
        }
    }
}

/// Whether two premises are the same, whatever their steps.
fn is_same(premise: Premise, other: Premise) -> bool {
    match (premise, other) {
        (Premise::Changed { basis, .. }, Premise::Changed { basis: other, .. }) => basis == other,
        _ => std::mem::discriminant(&premise) == std::mem::discriminant(&other),
    }
}

fn is_said<T: PartialEq>(expected: Option<T>, came: T) -> bool {
    expected.is_none_or(|expected| expected == came)
}

fn triggered(phrases: &[(Option<Bit>, Effect)], effects: &[(Bit, Effect)]) -> bool {
    let selected: Vec<_> =
        effects.iter().filter(|(_, effect)| *effect != Effect::NotSelected).collect();
    let holds = |(bit, effect): &(Option<Bit>, Effect)| match bit {
        Some(bit) => effects.contains(&(*bit, *effect)),
        None if *effect == Effect::NotSelected => selected.is_empty(),
        None => selected.len() == 1 && selected[0].1 == *effect,
    };
    let named = |bit: Bit| phrases.iter().any(|(named, _)| named.is_none_or(|named| named == bit));
    phrases.iter().all(holds) && selected.iter().all(|(bit, _)| named(*bit))
}

/// So many bytes of a memory from an address on; none where it does not have them.
fn part(memory: &[u8], address: usize, length: usize) -> Option<&[u8]> {
    memory.get(address..address.checked_add(length)?)
}
