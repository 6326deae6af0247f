//! Answers in words and as objects.

use crate::account::target;
use crate::lent::Lent;
use crate::memory::address;
use crate::names::{Names, Place};
use crate::pending::{Bit, Pending};
use crate::transfer;
use crate::why::Around;
use crate::{Object, Operation, StepLine};
use st9::text::hex;
use st9::{register, Answer, Channel, Effect, Refusal, Source, Step};

/// A step and its answer, to be told.
#[derive(Clone, Copy, Debug)]
pub struct Report<'a> {
    /// The step's index, from 0.
    pub index: usize,
    /// The step and its line.
    pub step: StepLine,
    /// What the model answered.
    pub answer: Result<Answer, Refusal>,
    /// Image and memory before it.
    pub before: &'a Lent,
    /// Image and memory after it.
    pub after: &'a Lent,
    /// The channel list.
    pub channels: &'a [Channel],
    /// Names of one's own.
    pub names: &'a Names,
}

impl Report<'_> {
    /// The line of the step: index, statement, answer. The index takes `width` columns.
    pub fn line(&self, width: usize) -> String {
        let statement = self.step.operation.to_string();
        format!("{:width$}  {statement:<20}  {}", self.index, self.words())
    }

    /// The answer in words; what the command adds is in parentheses.
    pub fn words(&self) -> String {
        let words = match self.answer {
            Ok(answer) => self.answer_words(answer),
            Err(refusal) => self.refused_words(refusal),
        };
        match self.destination() {
            Some(destination) => format!("{words} ({destination})"),
            None => words,
        }
    }

    fn refused_words(&self, refusal: Refusal) -> String {
        match transfer::refused(refusal, self.before, self.channels, self.names) {
            Some(why) => format!("{} ({why})", refusal.with_number()),
            None => refusal.with_number(),
        }
    }

    fn answer_words(&self, answer: Answer) -> String {
        match answer {
            Answer::Byte(byte) => self.byte_words(byte),
            Answer::Written { erased } => self.written_words(erased),
            Answer::Triggered { .. } => {
                let told = self.told_effects();
                let told = told.map(|(bit, effect)| self.effect_words(bit, effect));
                told.collect::<Vec<_>>().join("; ")
            }
            Answer::Nothing => format!("none ({})", self.around().nothing()),
            Answer::TopLevel { vector } => {
                format!("acknowledged the top level, vector {}", hex(vector))
            }
            Answer::Interrupt { source, level, vector } => {
                let source = self.names.told(source);
                format!("acknowledged {source}, level {level}, vector {}", hex(vector))
            }
            Answer::Transferred { source, ended } => {
                let end = if ended { ", block ended" } else { "" };
                let place = self.memory_words().unwrap_or_default();
                format!("DMA of {}: one byte moved{place}{end}", self.names.told(source))
            }
            Answer::Returned => format!("returned ({})", self.around().returned()),
            Answer::Reset => match self.erased_names() {
                erased if erased.is_empty() => "reset".to_string(),
                erased => format!("reset (erases {erased})"),
            },
        }
    }

    /// The byte of the memory that a transfer moved; none where it is one of the register file.
    pub(crate) fn memory_address(&self) -> Option<usize> {
        transfer::memory_address(&self.before.image, self.served()?)
    }

    /// ` to memory 0005h`, or `from` where the byte goes to the peripheral.
    fn memory_words(&self) -> Option<String> {
        let way = if self.served()?.direction == 0 { "to" } else { "from" };
        Some(format!(" {way} memory {}", address(self.memory_address()?)))
    }

    /// The record that DMA served.
    fn served(&self) -> Option<&Channel> {
        match self.answer {
            Ok(Answer::Transferred { source, .. }) => {
                self.channels.get(source.0.checked_sub(8)? as usize)
            }
            _ => None,
        }
    }

    fn byte_words(&self, byte: u8) -> String {
        let role = self.place().map(|place| place.role(self.channels));
        let bits = role.map(|role| role.set_bits(byte, self.names)).unwrap_or_default();
        match bits.is_empty() {
            true => format!("byte {}", hex(byte)),
            false => format!("byte {} ({bits})", hex(byte)),
        }
    }

    fn written_words(&self, erased: u8) -> String {
        let names = self.erased_names();
        let words = match (erased, names.is_empty()) {
            (0, true) => "written".to_string(),
            (0, false) => format!("erased {names}"),
            _ => format!("erased {}: {names}", hex(erased)),
        };
        let beside = match (self.place(), self.meaning()) {
            (Some(place), Step::Write { value, .. }) => self.around().written(place, value),
            _ => None,
        };
        match beside {
            Some(beside) => format!("{words} ({beside})"),
            None => words,
        }
    }

    /// The pending bits that a write or a reset took from 1 to 0. EIPR's of a write by the model's answer; TLIP and a
    /// record's IP, which are not in document 01's answer, and those of a reset by the bytes before and after.
    pub(crate) fn erased(&self) -> Vec<Bit> {
        let erased = match self.answer {
            Ok(Answer::Written { erased }) => erased,
            Ok(Answer::Reset) => return self.fallen().bits().collect(),
            _ => return Vec::new(),
        };
        let external = (0..8).filter(|position| erased >> position & 1 == 1);
        let others = self.fallen().bits().filter(|bit| !matches!(bit, Bit::Of(Source(0..=7))));
        external.map(|position| Bit::Of(Source(position))).chain(others).collect()
    }

    fn erased_names(&self) -> String {
        let names = self.erased().into_iter().map(|bit| bit.told_as_bit(self.names));
        names.collect::<Vec<_>>().join(", ")
    }

    fn fallen(&self) -> Pending {
        let before = Pending::of(&self.before.image, self.channels);
        before.without(Pending::of(&self.after.image, self.channels))
    }

    /// What a trigger did to its maskable bit and to TLIP. One that has no maskable bit selects none.
    pub(crate) fn effects(&self) -> Vec<(Bit, Effect)> {
        let Ok(Answer::Triggered { maskable, tlip }) = self.answer else {
            return Vec::new();
        };
        let bit = match target(self.meaning()) {
            None if maskable == Effect::NotSelected => None,
            bit => Some(bit.unwrap_or(Bit::Of(Source::INTA0))),
        };
        bit.map(|bit| (bit, maskable)).into_iter().chain([(Bit::Tlip, tlip)]).collect()
    }

    /// Those worth telling: TLIP of a trigger that can select it, or did.
    fn told_effects(&self) -> impl Iterator<Item = (Bit, Effect)> {
        let of_tlip = matches!(self.meaning(), Step::Nmi { .. } | Step::Watchdog);
        let told = move |(bit, effect): &(Bit, Effect)| {
            *bit != Bit::Tlip || of_tlip || *effect != Effect::NotSelected
        };
        self.effects().into_iter().filter(told)
    }

    fn effect_words(&self, bit: Bit, effect: Effect) -> String {
        let told = bit.told(self.names);
        match effect {
            Effect::NotSelected => {
                let why = self.around().not_selected(self.meaning(), bit);
                format!("{told} not selected ({why})")
            }
            Effect::Raised => format!("raised {told}"),
            Effect::Merged => format!("merged {told} (already pending)"),
        }
    }

    /// Where a read or a write of R240 to R255 goes, unless it is by the name that the register has.
    fn destination(&self) -> Option<String> {
        let place = self.place()?;
        let (_, page) = place.register()?;
        let title = place.title(self.channels);
        match page? {
            0 if self.step.operation.named => None,
            0 => Some(title),
            _ => Some(format!("{title}: PPR selects it")),
        }
    }

    /// The byte that a read or a write goes to.
    fn place(&self) -> Option<Place> {
        let ppr = self.before.image.get(usize::from(register::PPR));
        let page = ppr.copied().unwrap_or_default() >> 2;
        match self.meaning() {
            Step::Read { register } | Step::Write { register, .. } => {
                u8::try_from(register).ok().map(|number| Place::of(page, number))
            }
            _ => None,
        }
    }

    fn around(&self) -> Around<'_> {
        let Report { before, after, channels, names, .. } = *self;
        Around { before: &before.image, after: &after.image, channels, names }
    }

    fn meaning(&self) -> Step {
        let Operation { step, .. } = self.step.operation;
        Step::of_word(step.word())
    }

    /// The step as an object.
    pub fn json(&self) -> String {
        let object = Object::new()
            .text("type", "step")
            .number("step", self.index as u64)
            .number("line", self.step.line.into())
            .text("statement", &self.step.operation.to_string());
        let object = match self.answer {
            Ok(answer) => self.answer_json(object, answer),
            Err(refusal) => object.text("answer", "refused").refusal(refusal),
        };
        let object = match self.place().and_then(Place::register) {
            Some((number, page)) => {
                object.number("register", number.into()).optional("page", page.map(u64::from))
            }
            None => object,
        };
        object.text("words", &self.words()).end()
    }

    fn answer_json(&self, object: Object, answer: Answer) -> Object {
        match answer {
            Answer::Byte(byte) => object.text("answer", "byte").number("byte", byte.into()),
            Answer::Written { erased } => {
                let names: Vec<_> = self
                    .erased()
                    .into_iter()
                    .map(|bit| bit.told_as_bit(&Names::default()))
                    .collect();
                object
                    .text("answer", "written")
                    .number("erased", erased.into())
                    .texts("pending", names.iter().map(String::as_str))
            }
            Answer::Triggered { maskable, tlip } => object
                .text("answer", "triggered")
                .text("maskable", &maskable.to_string())
                .text("tlip", &tlip.to_string()),
            Answer::Nothing => object.text("answer", "none"),
            Answer::TopLevel { vector } => {
                object.text("answer", "top level").number("vector", vector.into())
            }
            Answer::Interrupt { source, level, vector } => object
                .text("answer", "interrupt")
                .source(source, self.names)
                .number("level", level.into())
                .number("vector", vector.into()),
            Answer::Transferred { source, ended } => object
                .text("answer", "transferred")
                .source(source, self.names)
                .truth("ended", ended)
                .optional("memory", self.memory_address().map(|address| address as u64)),
            Answer::Returned => object.text("answer", "returned"),
            Answer::Reset => object.text("answer", "reset"),
        }
    }
}
