//! The words after `expect`.

use crate::doubt::two_digits;
use crate::expectation::{Expect, Expected, RefusedAt, Where};
use crate::names::{Names, Place};
use crate::number::{number, number_32};
use crate::parse::{self, expected, Arguments, Problem, ADDRESS, BYTE};
use crate::pending::Bit;
use crate::quote::printable;
use st9::{Basis, Effect, Premise, Refusal, Source};

const EXPECTATIONS: &str = "an answer as the command prints it, changed, memory, or a register";
const SOURCE: &str = "a source as INTB1, CH0, channel 0 or a name of your own";
const BIT: &str = "TLIP, or a source as INTB1, CH0, channel 0 or a name of your own";
const COUNT: &str = "a number";
const REFUSAL: &str = "the number of a refusal";
const PREMISE: &str = "a premise of a bound, as not pending or masked ('st9 help expect' has all)";

/// A premise by the words that the command prints, and by shorter ones.
type Row = (&'static str, &'static str, Premise);

const PREMISES: [Row; 10] = [
    ("nested mode", "nested", Premise::Nested),
    ("a channel has dma enabled", "dma enabled", Premise::DmaEnabled),
    ("top level enabled", "top level enabled", Premise::TopLevelEnabled),
    ("top level in service", "top level in service", Premise::TopLevelInService),
    ("the source is not pending", "not pending", Premise::NotPending),
    ("the source is masked", "masked", Premise::Masked),
    ("the source's level is not above the current one", "level not above", Premise::LevelNotAbove),
    ("a step that is no trigger arbitration or return", "other step", OTHER_STEP),
    ("a reset", "reset", OTHER_STEP),
    (
        "an arbitration with interrupts disabled",
        "interrupts disabled",
        Premise::InterruptsDisabled { index: 0 },
    ),
];

const OTHER_STEP: Premise = Premise::OtherStep { index: 0 };

/// The premises on writes; the long words are those after `the write at step 4`.
const CHANGES: [Row; 7] = [
    ("erases the source's pending bit", "erased", changed(Basis::Pending)),
    ("changes the mode", "mode changed", changed(Basis::Mode)),
    ("changes the current level", "current level changed", changed(Basis::CurrentLevel)),
    ("changes the top level's enables", "top level changed", changed(Basis::TopLevel)),
    ("changes a source's mask", "mask changed", changed(Basis::Mask)),
    ("changes a channel's dma enable", "dma enable changed", changed(Basis::DmaEnable)),
    ("changes a source's level", "level changed", changed(Basis::Level)),
];

const fn changed(basis: Basis) -> Premise {
    Premise::Changed { basis, index: 0 }
}

/// The expectation of the words after `expect`. What stands in parentheses is the command's explanation and not compared.
pub(crate) fn expect(text: &[u8], names: &Names) -> Result<Expect, Problem> {
    let plain = without_explanations(text)?;
    let separators = |byte: &u8| byte.is_ascii_whitespace() || b",;:".contains(byte);
    let words: Vec<_> = plain.split(separators).filter(|word| !word.is_empty()).collect();
    let mut reader = Reader { words: Arguments(&words), names, decimal: None };
    let what = reader.expected()?;
    reader.words.end()?;
    let said = parse::words(text).map(printable).collect::<Vec<_>>().join(" ");
    Ok(Expect { said, what, decimal: reader.decimal })
}

fn without_explanations(text: &[u8]) -> Result<Vec<u8>, Problem> {
    let mut plain = Vec::with_capacity(text.len());
    let mut depth = 0usize;
    for byte in text {
        match byte {
            b'(' => depth += 1,
            b')' if depth == 0 => return Err(expected("( before it", b")")),
            b')' => {
                depth -= 1;
                plain.push(b' ');
            }
            _ if depth == 0 => plain.push(*byte),
            _ => {}
        }
    }
    match depth {
        0 => Ok(plain),
        _ => Err(expected("its closing parenthesis", b"(")),
    }
}

struct Reader<'a> {
    words: Arguments<'a>,
    names: &'a Names,
    /// A byte of two decimal digits that may be meant as hexadecimal.
    decimal: Option<u8>,
}

impl Reader<'_> {
    fn expected(&mut self) -> Result<Expected, Problem> {
        let Some(first) = self.words.0.first() else {
            return Err(format!("the line ends too early: expected {EXPECTATIONS}"));
        };
        let keyword = first.to_ascii_lowercase();
        let whole = self.words.0;
        self.words.optional();
        match &keyword[..] {
            b"raised" | b"merged" => {
                self.words.0 = whole;
                self.triggered()
            }
            b"byte" => Ok(Expected::Byte(self.byte()?)),
            b"written" => Ok(Expected::Written),
            b"erased" => self.erased(),
            b"none" => self.none(),
            b"acknowledged" => self.acknowledged(),
            b"dma" => self.transferred(),
            b"returned" => Ok(Expected::Returned),
            b"reset" => Ok(Expected::Reset),
            b"refused" => self.refused(),
            b"done" => self.done(),
            b"by" => self.within(),
            b"never" => Ok(Expected::Never { arbitrations: None }),
            b"not" => self.not(),
            b"bytes" => self.page(),
            b"memory" => self.memory(),
            b"changed" => self.changed(),
            _ => {
                self.words.0 = whole;
                self.bit_or_register()
            }
        }
    }

    /// Whether the next word is this one; then it is taken.
    fn taken(&mut self, word: &str) -> bool {
        let next = self.words.0.first();
        let is = next.is_some_and(|next| next.eq_ignore_ascii_case(word.as_bytes()));
        if is {
            self.words.optional();
        }
        is
    }

    /// Whether the next words are these; then they are taken.
    fn all_taken(&mut self, words: &[&str]) -> bool {
        let next = self.words.0.iter().zip(words);
        let same = next.filter(|(next, word)| next.eq_ignore_ascii_case(word.as_bytes())).count();
        let are = same == words.len();
        if are {
            self.words.0 = &self.words.0[same..];
        }
        are
    }

    fn byte(&mut self) -> Result<u8, Problem> {
        let word = self.words.0.first().copied().unwrap_or_default();
        self.decimal = self.decimal.or(two_digits(word));
        self.words.take(BYTE, parse::byte)
    }

    /// A byte of a register: one without named bits may hold a decimal number.
    fn byte_of(&mut self, place: Place) -> Result<u8, Problem> {
        match place.role(&[]).fields().is_empty() {
            true => self.words.take(BYTE, parse::byte),
            false => self.byte(),
        }
    }

    fn count(&mut self) -> Result<u64, Problem> {
        self.words.take(COUNT, number)
    }

    fn index(&mut self) -> Result<usize, Problem> {
        self.words.take(COUNT, |word| usize::try_from(number(word)?).ok())
    }

    /// The number after a word, where that word is next.
    fn after(&mut self, word: &str) -> Result<Option<u64>, Problem> {
        self.taken(word).then(|| self.count()).transpose()
    }

    fn byte_after(&mut self, word: &str) -> Result<Option<u8>, Problem> {
        self.taken(word).then(|| self.byte()).transpose()
    }

    /// `at step 5`.
    fn at_step(&mut self) -> Result<Option<usize>, Problem> {
        self.taken("at");
        self.taken("step").then(|| self.index()).transpose()
    }

    /// `after 2 arbitrations`.
    fn after_arbitrations(&mut self) -> Result<Option<u64>, Problem> {
        let made = self.after("after")?;
        if made.is_some() && !self.taken("arbitration") {
            self.taken("arbitrations");
        }
        Ok(made)
    }

    fn source(&mut self) -> Result<Source, Problem> {
        match self.bit(SOURCE)? {
            Bit::Of(source) => Ok(source),
            Bit::Tlip => Err(expected(SOURCE, b"TLIP")),
        }
    }

    /// `TLIP`, `INTB0`, `CH0`, `channel 0`, `IP of channel 0` or a name of one's own.
    fn bit(&mut self, what: &str) -> Result<Bit, Problem> {
        if self.taken("tlip") {
            return Ok(Bit::Tlip);
        }
        self.all_taken(&["IP", "of"]);
        let word = self.words.next(what)?;
        if word.eq_ignore_ascii_case(b"channel") {
            let record = self.words.take("the number of a record", number_32)?;
            return Ok(Bit::Of(Source::channel(record)));
        }
        let source = self.names.source(word).filter(|_| number(word).is_none());
        source.map(Bit::Of).ok_or_else(|| expected(what, word))
    }

    /// `erased INTB0, INTC0`, `erased 14h`, or both.
    fn erased(&mut self) -> Result<Expected, Problem> {
        let next = self.words.0.first().copied().unwrap_or_default();
        let of_byte: Option<Vec<Bit>> = match number(next) {
            None => None,
            Some(_) => {
                let byte = self.byte()?;
                let set = |position: &u32| byte >> position & 1 == 1;
                Some((0..8).filter(set).map(|position| Bit::Of(Source(position))).collect())
            }
        };
        let mut bits = Vec::new();
        while !self.words.0.is_empty() {
            bits.push(self.bit(BIT)?);
        }
        bits.sort();
        bits.dedup();
        match of_byte {
            Some(of_byte) if of_byte.is_empty() => {
                Err("00h: expected a bit that is erased, or 'written'".to_string())
            }
            Some(of_byte) if !bits.is_empty() && bits != of_byte => {
                Err(expected("the names of its bits after it", next))
            }
            Some(of_byte) => Ok(Expected::Erased(of_byte)),
            None if bits.is_empty() => Err(format!("the line ends too early: expected {BIT}")),
            None => Ok(Expected::Erased(bits)),
        }
    }

    /// `raised INTA0, TLIP` or `raised INTA0; TLIP not selected`: what is said of each bit.
    fn triggered(&mut self) -> Result<Expected, Problem> {
        let mut phrases = Vec::new();
        let mut effect = None;
        while !self.words.0.is_empty() {
            if self.taken("raised") {
                effect = Some(Effect::Raised);
            } else if self.taken("merged") {
                effect = Some(Effect::Merged);
            }
            if let (Some(effect), true, true) =
                (effect, self.words.0.is_empty(), phrases.is_empty())
            {
                return Ok(Expected::Triggered(vec![(None, effect)]));
            }
            let bit = self.bit(BIT)?;
            let not = self.words.0.first().is_some_and(|word| word.eq_ignore_ascii_case(b"not"));
            phrases.push(match effect {
                Some(effect) if !not => (Some(bit), effect),
                _ => {
                    self.not_selected()?;
                    (Some(bit), Effect::NotSelected)
                }
            });
        }
        Ok(Expected::Triggered(phrases))
    }

    fn not_selected(&mut self) -> Result<(), Problem> {
        const WHAT: &str = "not selected";
        let is = |wanted: &'static str| {
            move |word: &[u8]| word.eq_ignore_ascii_case(wanted.as_bytes()).then_some(())
        };
        self.words.take(WHAT, is("not"))?;
        self.words.take(WHAT, is("selected"))
    }

    /// `not selected` of a trigger, `not acknowledged` of a wait.
    fn not(&mut self) -> Result<Expected, Problem> {
        if self.taken("selected") {
            return Ok(Expected::Triggered(vec![(None, Effect::NotSelected)]));
        }
        if !self.taken("acknowledged") {
            let next = self.words.next("not selected or not acknowledged")?;
            return Err(expected("not selected or not acknowledged", next));
        }
        self.all_taken(&["the", "list", "ended"]);
        Ok(Expected::Never { arbitrations: self.after_arbitrations()? })
    }

    /// `none`; of a bound with the premise that fails.
    fn none(&mut self) -> Result<Expected, Problem> {
        self.all_taken(&["as", "a", "premise", "fails"]);
        if self.words.0.is_empty() {
            return Ok(Expected::Nothing);
        }
        if self.all_taken(&["the", "write"]) {
            let step = self.at_step()?;
            return Ok(Expected::Fails { premise: self.premise(&mut CHANGES.iter())?, step });
        }
        let premise = self.premise(&mut PREMISES.iter().chain(&CHANGES))?;
        Ok(Expected::Fails { premise, step: self.at_step()? })
    }

    /// A premise among these, by its long or its short words.
    fn premise<'r>(
        &mut self,
        rows: &mut impl Iterator<Item = &'r Row>,
    ) -> Result<Premise, Problem> {
        let said: Vec<_> = self.words.0.iter().map(|word| word.to_ascii_lowercase()).collect();
        let said = said.join(&b' ');
        let found = rows.find_map(|(long, short, premise)| {
            let starts = |words: &str| {
                let rest = said.strip_prefix(words.as_bytes())?;
                (rest.is_empty() || rest[0] == b' ').then_some(words.split(' ').count())
            };
            Some((starts(long).or_else(|| starts(short))?, *premise))
        });
        let Some((count, premise)) = found else {
            return Err(expected(PREMISE, &said));
        };
        self.words.0 = &self.words.0[count..];
        Ok(premise)
    }

    /// Of an arbitration the top level or a source, of a wait `by arbitration 3`.
    fn acknowledged(&mut self) -> Result<Expected, Problem> {
        if self.words.0.is_empty() {
            return Ok(Expected::Acknowledged { arbitration: None, step: None });
        }
        if self.taken("by") {
            self.taken("arbitration");
            let arbitration = Some(self.count()?);
            return Ok(Expected::Acknowledged { arbitration, step: self.at_step()? });
        }
        self.taken("the");
        if self.taken("top") {
            self.taken("level");
            return Ok(Expected::TopLevel { vector: self.byte_after("vector")? });
        }
        let source = self.source()?;
        let level = self.byte_after("level")?;
        let vector = self.byte_after("vector")?;
        Ok(Expected::Interrupt { source, level, vector })
    }

    /// `DMA of channel 0: one byte moved to memory 0005h, block ended`.
    fn transferred(&mut self) -> Result<Expected, Problem> {
        self.taken("of");
        let source = self.source()?;
        self.all_taken(&["one", "byte", "moved"]);
        let memory = self.all_taken(&["to", "memory"]) || self.all_taken(&["from", "memory"]);
        let memory = memory.then(|| self.words.take(ADDRESS, parse::address)).transpose()?;
        let ended = self.taken("block") && (self.taken("ended") || self.words.0.is_empty());
        Ok(Expected::Transferred { source, ended, memory })
    }

    /// `memory 0005h 41h 42h`.
    fn memory(&mut self) -> Result<Expected, Problem> {
        let address = self.words.take(ADDRESS, parse::address)?;
        Ok(Expected::Memory { address, bytes: parse::some_bytes(&mut self.words)? })
    }

    /// `refused with 3 at step 1 after 2 arbitrations`, `refused with 4 before any step`.
    fn refused(&mut self) -> Result<Expected, Problem> {
        self.taken("with");
        let refusal = |word: &[u8]| Refusal::from_number(number(word)?);
        let number = self.words.take(REFUSAL, refusal)?.number();
        if self.all_taken(&["before", "any", "step"]) {
            let at = Some(RefusedAt::BeforeAnyStep);
            return Ok(Expected::Refused { number, at, arbitrations: None });
        }
        let at = self.at_step()?.map(RefusedAt::Step);
        Ok(Expected::Refused { number, at, arbitrations: self.after_arbitrations()? })
    }

    /// `done 3 steps, last answer: none`.
    fn done(&mut self) -> Result<Expected, Problem> {
        let steps = self.index()?;
        if !self.taken("step") {
            self.taken("steps");
        }
        let last = match self.taken("last") {
            true => {
                self.taken("answer");
                Some(Box::new(self.last()?))
            }
            false => None,
        };
        Ok(Expected::Done { steps, last })
    }

    /// The answer of a step that was done; nothing else can be the last of a run.
    fn last(&mut self) -> Result<Expected, Problem> {
        const LAST: &str = "the answer of a step";
        let word = self.words.0.first().copied().unwrap_or_default();
        if word.eq_ignore_ascii_case(b"done") {
            return Err(expected(LAST, word));
        }
        match self.expected()? {
            Expected::Refused { .. }
            | Expected::Acknowledged { arbitration: Some(_), .. }
            | Expected::Never { .. }
            | Expected::Within { .. }
            | Expected::Fails { .. }
            | Expected::Page(_)
            | Expected::Stored { .. }
            | Expected::Memory { .. }
            | Expected::Changed(_) => Err(expected(LAST, word)),
            last => Ok(last),
        }
    }

    /// `by arbitration 3 at the latest, H 1, E 1`.
    fn within(&mut self) -> Result<Expected, Problem> {
        self.taken("arbitration");
        let bound = self.count()?;
        self.all_taken(&["at", "the", "latest"]);
        let outranking = self.after("H")?;
        let triggers = self.after("E")?;
        Ok(Expected::Within { bound, outranking, triggers })
    }

    /// `bytes 00h 01h ..`, sixteen of them.
    fn page(&mut self) -> Result<Expected, Problem> {
        let mut bytes = Vec::new();
        for _ in 0..16 {
            bytes.push(self.words.take("sixteen bytes", parse::byte)?);
        }
        Ok(Expected::Page(bytes))
    }

    /// `changed nothing`, `changed EIPR 00h -> 10h, CICR 87h, M0005h 00h -> 5Ah`.
    fn changed(&mut self) -> Result<Expected, Problem> {
        const WHAT: &str = "nothing, or registers and addresses with their bytes";
        let mut all: Vec<ChangedByte> = Vec::new();
        if self.taken("nothing") {
            return Ok(Expected::Changed(all));
        }
        loop {
            let word = self.words.next(WHAT)?;
            let more = match memory_address(word) {
                Some(address) => self.changed_memory(address)?,
                None => vec![self.changed_register(word)?],
            };
            if more.iter().any(|(place, ..)| all.iter().any(|(known, ..)| known == place)) {
                return Err(expected("each byte once", word));
            }
            all.extend(more);
            if self.words.0.is_empty() {
                all.sort();
                return Ok(Expected::Changed(all));
            }
        }
    }

    /// A register's byte, or what it was and is.
    fn changed_register(&mut self, word: &[u8]) -> Result<ChangedByte, Problem> {
        let place = place(word)?;
        let first = self.byte_of(place)?;
        let second = self.taken("->").then(|| self.byte_of(place)).transpose()?;
        Ok(match second {
            Some(after) => (Where::Image(place), Some(first), after),
            None => (Where::Image(place), None, first),
        })
    }

    /// Bytes of the memory that follow one another, or what they were and as many that they are.
    fn changed_memory(&mut self, address: usize) -> Result<Vec<ChangedByte>, Problem> {
        let first = self.bytes()?;
        let places = (address..).map(Where::Memory);
        if !self.taken("->") {
            return Ok(places.zip(first).map(|(place, after)| (place, None, after)).collect());
        }
        let second = self.bytes()?;
        if first.len() != second.len() {
            let problem = format!("{} and {} bytes", first.len(), second.len());
            return Err(format!("{problem}: expected as many after -> as before it"));
        }
        let bytes = first.into_iter().zip(second);
        Ok(places.zip(bytes).map(|(place, (old, new))| (place, Some(old), new)).collect())
    }

    /// One byte or more, up to a word that is none.
    fn bytes(&mut self) -> Result<Vec<u8>, Problem> {
        let mut bytes = vec![self.words.take(BYTE, parse::byte)?];
        while let Some(byte) = self.words.0.first().and_then(|word| parse::byte(word)) {
            self.words.optional();
            bytes.push(byte);
        }
        Ok(bytes)
    }

    /// `INTB0 not selected`, or a register and its byte or fields.
    fn bit_or_register(&mut self) -> Result<Expected, Problem> {
        let is = |position: usize, word: &[u8]| {
            self.words.0.get(position).is_some_and(|next| next.eq_ignore_ascii_case(word))
        };
        if is(0, b"channel") || is(1, b"not") {
            return self.triggered();
        }
        let first = self.words.next(EXPECTATIONS)?;
        if !is_place(first) {
            return Err(expected(EXPECTATIONS, first));
        }
        let place = place(first)?;
        if !place.role(&[]).fields().is_empty() {
            self.decimal = self.words.0.first().and_then(|word| two_digits(word));
        }
        let bits = parse::bits(&mut self.words, place, self.names)?;
        Ok(Expected::Stored { place, bits })
    }
}

/// A byte that changed, what it was where that is said, and what it is.
type ChangedByte = (Where, Option<u8>, u8);

/// An address of the memory as `M0005h`.
fn memory_address(word: &[u8]) -> Option<usize> {
    match word {
        [b'm' | b'M', address @ ..] => parse::address(address),
        _ => None,
    }
}

/// A register or the mark; a bare number is none here, so that an expectation says what it is about.
fn place(word: &[u8]) -> Result<Place, Problem> {
    match number(word) {
        Some(_) => Err(expected("a register as R16, EIPR or R240.p9", word)),
        None => parse::place(word),
    }
}

/// Whether a word looks like a register or the mark, so that what is wrong with it is told of these.
fn is_place(word: &[u8]) -> bool {
    let start = word.split(|byte| *byte == b'.').next().unwrap_or_default();
    let known = parse::register(start).is_some();
    known || start.eq_ignore_ascii_case(b"mark")
}

#[cfg(test)]
mod tests {
    use super::*;

    fn read(text: &str) -> Result<Expected, Problem> {
        let mut names = Names::default();
        names.give("FAN", Source::INTC0).expect("a name");
        expect(text.as_bytes(), &names).map(|expect| expect.what)
    }

    #[test]
    fn forms_of_one_expectation() {
        let same = [
            ("erased INTB0 INTC0", "erased 14h: INTB0, INTC0 (FAN)"),
            ("erased fan", "ERASED 10h"),
            ("erased CH0", "erased IP of channel 0"),
            ("raised INTA0", "raised INTA0; TLIP not selected (TLIS 1: NMI is its source)"),
            ("acknowledged INTC0 level 4 vector 48h", "acknowledged FAN, level 4, vector 0x48"),
            ("acknowledged top level", "acknowledged the top level"),
            ("DMA CH0 block ended", "DMA of channel 0: one byte moved, block ended"),
            ("refused 3", "refused with 3 (register read)"),
            ("refused 3 step 2 after 1", "refused with 3 at step 2, after 1 arbitration (line 4)"),
            ("by 3 H 1 E 1", "by arbitration 3 at the latest, H 1, E 1 (H: x)"),
            ("none: masked", "none: the source is masked"),
            ("none: masked", "none, as a premise fails: the source is masked"),
            (
                "none: other step at step 1",
                "none: a step that is no trigger, arbitration or return at step 1 (line 8: read CICR)",
            ),
            (
                "none: other step at step 1",
                "none: a reset at step 1 (line 8: reset)",
            ),
            (
                "none: erased at step 4",
                "none: the write at step 4 (line 16: write EIPR 00h) erases the source's pending bit (the handlers' claim; demand 3 does not speak of step 3)",
            ),
            ("done 2 last none", "done: 2 steps, last answer: none (nothing is pending)"),
            ("never", "not acknowledged"),
            ("changed EIPR 10h CICR 87h", "changed CICR 87h, EIPR.p0 10h"),
            ("DMA CH0 to memory 5", "DMA of channel 0: one byte moved to memory 0005h"),
            (
                "DMA CH0 from memory 5 block ended",
                "DMA of channel 0: one byte moved from memory 0005h, block ended",
            ),
            ("memory 5 5Ah 0", "memory 0005h: 5Ah 00h"),
            ("changed M5 5Ah R17 1", "changed R17 01h, m0005h 5Ah"),
            ("changed M5 0 -> 1 M6 0 -> 2", "changed M0005h 00h 00h -> 01h 02h"),
            ("changed M5 1 M6 2 CICR 87h", "changed M0005h 01h 02h, CICR 87h"),
        ];
        for (short, long) in same {
            let read_short = read(short).expect(short);
            match read(long) {
                // A selected bit that is not named and one that is said not to be are the same to a trigger.
                Ok(Expected::Triggered(phrases)) => assert_eq!(phrases.len(), 2),
                other => assert_eq!(other, Ok(read_short), "{long}"),
            }
        }
    }
}
