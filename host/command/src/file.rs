//! A whole scenario: its cases.

use crate::doubt::{self, Doubt};
use crate::expectation::{Came, Expect, Expected};
use crate::fields::Bits;
use crate::memory::address;
use crate::names::{Names, Role};
use crate::parse;
use crate::quote::printable;
use crate::statement::{Call, ImageName, MemoryName, Operation, Statement};
use crate::Place;
use st9::{Channel, Step};
use std::error::Error;
use std::fmt;

/// A scenario: one case or several.
#[derive(Clone, Debug, PartialEq, Eq)]
pub struct Scenario {
    /// The cases, in the order of the file.
    pub cases: Vec<Case>,
    /// What is read as it stands and may be meant otherwise.
    pub warnings: Vec<ScenarioError>,
}

/// A case: where it starts, what is done and what is expected.
#[derive(Clone, Debug, PartialEq, Eq)]
pub struct Case {
    /// Its title, none where the file has no `case`.
    pub title: Option<String>,
    /// The line of its `case` or `again`, or that of its image.
    pub line: usize,
    /// The image to start from, and the line of its statement.
    pub image: (ImageName, usize),
    /// The bits stored before the start, in the order of the file.
    pub sets: Vec<SetLine>,
    /// The memory to start with, and the line of its statement; none where it has none.
    pub memory: Option<(MemoryName, usize)>,
    /// The bytes stored there before the start, in the order of the file.
    pub pokes: Vec<PokeLine>,
    /// The channel list.
    pub channels: Vec<Channel>,
    /// The lines of its records.
    pub channel_lines: Vec<usize>,
    /// Names of one's own.
    pub names: Names,
    /// The steps.
    pub steps: Vec<StepLine>,
    /// Calls and expectations, in the order of the file.
    pub asks: Vec<Ask>,
}

/// Bits that are stored before the start.
#[derive(Clone, Copy, Debug, PartialEq, Eq)]
pub struct SetLine {
    /// The byte of the image.
    pub place: Place,
    /// What is stored there.
    pub bits: Bits,
    /// Its line, from 1.
    pub line: usize,
}

/// Bytes of the memory that are stored before the start.
#[derive(Clone, Debug, PartialEq, Eq)]
pub struct PokeLine {
    /// The address of the first.
    pub address: usize,
    /// What is stored there.
    pub bytes: Vec<u8>,
    /// Its line, from 1.
    pub line: usize,
}

/// A step and the line it stands in.
#[derive(Clone, Copy, Debug, PartialEq, Eq)]
pub struct StepLine {
    /// The step.
    pub operation: Operation,
    /// Its line, from 1.
    pub line: u32,
}

/// A call, or what the step or the call before is expected to give.
#[derive(Clone, Debug, PartialEq, Eq)]
pub struct Ask {
    /// The steps of the case before it.
    pub after: usize,
    /// Its line, from 1.
    pub line: u32,
    /// Which it is.
    pub what: Asked,
}

/// What is asked.
#[derive(Clone, Debug, PartialEq, Eq)]
pub enum Asked {
    /// A call.
    Call(Call),
    /// An expectation.
    Expect(Expect),
}

/// What is wrong with a scenario, and where.
#[derive(Clone, Debug, PartialEq, Eq)]
pub struct ScenarioError {
    /// The line, from 1.
    pub line: usize,
    /// What is wrong and what was expected.
    pub problem: String,
}

impl fmt::Display for ScenarioError {
    fn fmt(&self, f: &mut fmt::Formatter<'_>) -> fmt::Result {
        write!(f, "{}: {}", self.line, self.problem)
    }
}

impl Error for ScenarioError {}

impl Scenario {
    /// Reads a scenario from the bytes of its file.
    pub fn parse(text: &[u8]) -> Result<Scenario, ScenarioError> {
        Scenario::parse_telling(text, |_| ())
    }

    /// The same; tells how many lines are read, before each.
    pub fn parse_telling(
        text: &[u8],
        mut tell: impl FnMut(usize),
    ) -> Result<Scenario, ScenarioError> {
        // Some editors put a byte order mark before the first line.
        let text = text.strip_prefix(b"\xEF\xBB\xBF").unwrap_or(text);
        let text = text.strip_suffix(b"\n").unwrap_or(text);
        let mut reading = Reading::default();
        let mut last = 1;
        for (position, content) in text.split(|byte| *byte == b'\n').enumerate() {
            tell(position);
            last = position + 1;
            let wrong = |problem| ScenarioError { line: last, problem };
            let names = &reading.current.preparation.names;
            let Some(statement) = parse::statement(content, names).map_err(wrong)? else {
                continue;
            };
            let doubt = doubt::of(content, &statement, reading.current.steps.last());
            reading.add(statement, last)?;
            reading.doubt(doubt, last);
        }
        reading.finish(last)
    }
}

/// What is read of a file so far.
#[derive(Default)]
struct Reading {
    /// What stands before the first `case`.
    common: Option<Preparation>,
    /// The last `case`, once an `again` went back to it.
    first: Option<First>,
    current: Draft,
    cases: Vec<Case>,
    /// The steps by `repeat`.
    repeated: usize,
    warnings: Vec<ScenarioError>,
}

/// The most steps that `repeat` makes of one file: a short one may not fill the memory.
const MOST_REPEATED: usize = 10_000_000;

/// A case that is being read.
#[derive(Default)]
struct Draft {
    title: Option<(String, usize)>,
    preparation: Preparation,
    steps: Vec<StepLine>,
    asks: Vec<Ask>,
}

/// What stands before the first step.
#[derive(Clone, Default)]
struct Preparation {
    image: Option<(ImageName, usize)>,
    /// Whether the image is that of the common part, or of the case that `again` goes back to.
    inherited: bool,
    sets: Vec<SetLine>,
    memory: Option<(MemoryName, usize)>,
    /// The same of the memory.
    inherited_memory: bool,
    pokes: Vec<PokeLine>,
    /// Warnings about bytes that matter only if they are an IDCR.
    doubts: Vec<(Place, ScenarioError)>,
    channels: Vec<(Channel, usize)>,
    names: Names,
}

/// A case that others start from.
struct First {
    title: String,
    preparation: Preparation,
    /// The cases from it on, itself included.
    cases: usize,
}

impl Reading {
    fn add(&mut self, statement: Statement, line: usize) -> Result<(), ScenarioError> {
        let wrong = |problem| ScenarioError { line, problem };
        match statement {
            Statement::Case(title) => self.case(title, line),
            Statement::Again(words) => self.again(words, line),
            Statement::Repeat { count, .. } if MOST_REPEATED - self.repeated < count => {
                Err(wrong(format!("too many steps: expected at most {MOST_REPEATED} by repeat")))
            }
            other => {
                if let Statement::Repeat { count, .. } = other {
                    self.repeated += count;
                }
                self.current.add(other, line).map_err(wrong)
            }
        }
    }

    fn case(&mut self, title: String, line: usize) -> Result<(), ScenarioError> {
        match &self.common {
            Some(_) => self.close(line)?,
            None => self.open(line)?,
        }
        self.first = None;
        self.current = Draft::starting(title, line, self.common.clone().unwrap_or_default());
        Ok(())
    }

    /// Every `again` goes back to the `case`, not to the one before it: their order does not matter.
    fn again(&mut self, words: Option<String>, line: usize) -> Result<(), ScenarioError> {
        let Some(mut first) = self.first.take().or_else(|| self.current.first()) else {
            let problem = "again before a case: expected case TITLE before it".into();
            return Err(ScenarioError { line, problem });
        };
        self.close(line)?;
        first.cases += 1;
        let title = match words {
            Some(words) => format!("{}: {words}", first.title),
            None => format!("{} ({})", first.title, first.cases),
        };
        self.current = Draft::starting(title, line, first.preparation.clone());
        self.first = Some(first);
        Ok(())
    }

    /// What stands before the first case is common to all; it has no steps of its own.
    fn open(&mut self, line: usize) -> Result<(), ScenarioError> {
        if self.current.has_started() {
            let problem = "a case after steps that belong to none: expected image, set, memory, poke, channel and name alone before the first case".into();
            return Err(ScenarioError { line, problem });
        }
        self.common = Some(std::mem::take(&mut self.current.preparation));
        Ok(())
    }

    fn close(&mut self, last: usize) -> Result<(), ScenarioError> {
        let mut draft = std::mem::take(&mut self.current);
        let doubts = std::mem::take(&mut draft.preparation.doubts);
        let case = draft.close(last)?;
        // A warning of what several cases have is told once.
        for (place, doubt) in doubts {
            let idcr = matches!(place.role(&case.channels), Role::Idcr(_));
            if idcr && !self.warnings.contains(&doubt) {
                self.warnings.push(doubt);
            }
        }
        self.cases.push(case);
        Ok(())
    }

    /// Takes a warning; of a byte of a page from 1 on the channel list decides.
    fn doubt(&mut self, doubt: Option<Doubt>, line: usize) {
        match doubt {
            Some(Doubt { byte, place: None }) => {
                self.warnings.push(ScenarioError { line, problem: doubt::problem(byte) });
            }
            Some(Doubt { byte, place: Some(place) }) => {
                let doubt = ScenarioError { line, problem: doubt::problem(byte) };
                self.current.preparation.doubts.push((place, doubt));
            }
            None => {}
        }
    }

    fn finish(mut self, last: usize) -> Result<Scenario, ScenarioError> {
        self.close(last)?;
        Ok(Scenario { cases: self.cases, warnings: self.warnings })
    }
}

const IMAGE: &str = "image zero or image FILE before the first step";

impl Draft {
    /// A case that has this before its own lines.
    fn starting(title: String, line: usize, mut preparation: Preparation) -> Draft {
        preparation.inherited = preparation.image.is_some();
        preparation.inherited_memory = preparation.memory.is_some();
        Draft { title: Some((title, line)), preparation, ..Draft::default() }
    }

    /// The case as `again` needs it; none where it is not of a `case`.
    fn first(&self) -> Option<First> {
        let (title, _) = self.title.clone()?;
        Some(First { title, preparation: self.preparation.clone(), cases: 1 })
    }

    fn has_started(&self) -> bool {
        !self.steps.is_empty() || !self.asks.is_empty()
    }

    fn add(&mut self, statement: Statement, line: usize) -> Result<(), String> {
        let number = u32::try_from(line).unwrap_or(u32::MAX);
        match statement {
            Statement::Step(operation) => self.add_steps(operation, 1, number)?,
            Statement::Repeat { count, operation } => self.add_steps(operation, count, number)?,
            Statement::Call(call) => {
                self.need_image()?;
                let after = self.steps.len();
                self.asks.push(Ask { after, line: number, what: Asked::Call(call) });
            }
            Statement::Expect(_) if !self.has_started() => {
                return Err(format!(
                    "'{statement}' before a step: expected a step, run, wait, bound, handler bound or view before it"
                ))
            }
            Statement::Expect(expect) => {
                let after = self.steps.len();
                self.asks.push(Ask { after, line: number, what: Asked::Expect(expect) });
            }
            other if self.has_started() => {
                return Err(format!(
                    "'{other}' after a step: expected image, set, memory, poke, channel and name before the first step"
                ))
            }
            other => return self.preparation.add(other, line),
        }
        Ok(())
    }

    /// A step as often as it is done, each time with its line.
    fn add_steps(&mut self, operation: Operation, count: usize, line: u32) -> Result<(), String> {
        self.need_image()?;
        self.steps.extend(std::iter::repeat_n(StepLine { operation, line }, count));
        Ok(())
    }

    fn need_image(&self) -> Result<(), String> {
        match self.preparation.image {
            Some(_) => Ok(()),
            None => Err(format!("a step without an image: expected {IMAGE}")),
        }
    }

    /// The case; a missing image is told at its title, or where the file ends.
    fn close(self, last: usize) -> Result<Case, ScenarioError> {
        let Preparation { image, sets, memory, pokes, channels, names, .. } = self.preparation;
        let Some(image) = image else {
            let line = self.title.map_or(last, |(_, line)| line);
            let problem = format!("no image: expected {IMAGE}");
            return Err(ScenarioError { line, problem });
        };
        let (channels, channel_lines): (Vec<_>, Vec<_>) = channels.into_iter().unzip();
        let stored = self.asks.iter().filter_map(|ask| match ask.what.expected() {
            Some(Expected::Stored { place, bits }) => Some((*place, *bits, ask.line as usize)),
            _ => None,
        });
        let set = sets.iter().map(|set| (set.place, set.bits, set.line));
        for (place, bits, line) in set.chain(stored) {
            let fields = bits.mask != 0xFF && place.role(&[]) == Role::Plain;
            if fields && !matches!(place.role(&channels), Role::Idcr(_)) {
                let problem =
                    format!("{} is no record's IDCR: expected a byte there", place.written());
                return Err(ScenarioError { line, problem });
            }
        }
        let line = self.title.as_ref().map_or(image.1, |(_, line)| *line);
        Ok(Case {
            title: self.title.map(|(title, _)| title),
            line,
            image,
            sets,
            memory,
            pokes,
            channels,
            channel_lines,
            names,
            steps: self.steps,
            asks: self.asks,
        })
    }
}

impl Preparation {
    fn add(&mut self, statement: Statement, line: usize) -> Result<(), String> {
        match statement {
            Statement::Image(image) => {
                if let (Some((_, before)), false) = (&self.image, self.inherited) {
                    return Err(format!("a second image: expected one, that of line {before}"));
                }
                self.image = Some((image, line));
                self.inherited = false;
            }
            Statement::Set { place, bits } => self.sets.push(SetLine { place, bits, line }),
            Statement::Memory(memory) => {
                if let (Some((_, before)), false) = (&self.memory, self.inherited_memory) {
                    return Err(format!("a second memory: expected one, that of line {before}"));
                }
                self.memory = Some((memory, line));
                self.inherited_memory = false;
            }
            Statement::Poke { address, bytes } => {
                self.pokes.push(PokeLine { address, bytes, line });
            }
            Statement::Channel(channel) => self.channels.push((channel, line)),
            Statement::Name(name, source) => return self.names.give(&name, source),
            // `Reading` and `Draft` have taken the others.
            _ => {}
        }
        Ok(())
    }
}

/// What is told of a poke beyond the end of the memory of a line.
fn beyond(first: usize, last: usize, length: usize, line: usize) -> String {
    let place = match first == last {
        true => address(first),
        false => format!("{} to {}", address(first), address(last)),
    };
    let expected = match length {
        0 => "expected a memory, by memory SIZE or memory FILE".to_string(),
        _ => {
            let last = address(length - 1);
            format!("expected addresses of the memory of line {line}, 0000h to {last}")
        }
    };
    format!("poke {place}: {expected}")
}

impl Case {
    /// Stores the `set` bits, and tells the byte that each left. One beyond the image's end is passed over: such an image
    /// is refused for its length.
    pub fn store(&self, image: &mut [u8], mut tell: impl FnMut(&SetLine, u8)) {
        for set in &self.sets {
            if let Some(byte) = image.get_mut(set.place.0) {
                *byte = set.bits.stored_in(*byte);
                tell(set, *byte);
            }
        }
    }

    /// The memory that it starts with, its `poke` bytes stored; those of a file are read by its name. A poke beyond its
    /// end is an error of the file.
    pub fn memory<E: fmt::Display>(
        &self,
        read: impl FnOnce(&str) -> Result<Vec<u8>, E>,
    ) -> Result<Vec<u8>, ScenarioError> {
        let mut memory = match &self.memory {
            None => Vec::new(),
            Some((name, line)) => name.bytes(read).map_err(|error| {
                let name = printable(name.to_string().as_bytes());
                let expected =
                    "expected a file of at most 65,536 bytes, or their number, as 512 or 200h";
                let problem = format!("memory {name}: {error}: {expected}");
                ScenarioError { line: *line, problem }
            })?,
        };
        for PokeLine { address: first, bytes, line } in &self.pokes {
            let end = first.saturating_add(bytes.len());
            let length = memory.len();
            let stored = memory.get_mut(*first..end).ok_or_else(|| {
                let last = first.saturating_add(bytes.len() - 1);
                let made = self.memory.as_ref().map_or(0, |(_, line)| *line);
                ScenarioError { line: *line, problem: beyond(*first, last, length, made) }
            })?;
            stored.copy_from_slice(bytes);
        }
        Ok(memory)
    }

    /// The words of the steps.
    pub fn words(&self) -> Vec<u64> {
        let word = |line: &StepLine| line.operation.step.word();
        self.steps.iter().map(word).collect()
    }

    /// The line of a step, 0 where there is none.
    pub fn line_of(&self, index: usize) -> u32 {
        self.steps.get(index).map_or(0, |step| step.line)
    }

    /// The steps up to the end of a line, which may repeat one.
    pub(crate) fn after_line(&self, line: u32) -> usize {
        self.steps.partition_point(|step| step.line <= line)
    }

    /// The step of a line; those of a `repeat` are all the same.
    pub(crate) fn step_of_line(&self, line: u32) -> Option<&StepLine> {
        let index = self.steps.binary_search_by_key(&line, |step| step.line).ok()?;
        self.steps.get(index)
    }

    /// The step that is arbitration number `count`, from 1, of the steps from one on.
    pub fn arbitration(&self, from: usize, count: u64) -> Option<usize> {
        let count = usize::try_from(count).ok()?.checked_sub(1)?;
        let arbitrates =
            |step: &StepLine| Step::of_word(step.operation.step.word()) == Step::Arbitrate;
        let steps = self.steps.iter().enumerate().skip(from);
        steps.filter(|(_, step)| arbitrates(step)).map(|(index, _)| index).nth(count)
    }

    /// How many expectations it has.
    pub fn expectations(&self) -> usize {
        let expects = |ask: &&Ask| matches!(ask.what, Asked::Expect(_));
        self.asks.iter().filter(expects).count()
    }
}

impl Asked {
    fn expected(&self) -> Option<&Expected> {
        match self {
            Asked::Expect(Expect { what, .. }) => Some(what),
            Asked::Call(_) => None,
        }
    }

    /// The number of the refusal that is expected.
    pub(crate) fn refusal(&self) -> Option<u8> {
        match self.expected()? {
            Expected::Refused { number, .. } => Some(*number),
            _ => None,
        }
    }

    /// Whether it says, and rightly, which pending bits a step erased: by name, or with all the bytes that changed.
    pub(crate) fn tells_erased(&self, came: Came) -> bool {
        match self.expected() {
            Some(what @ (Expected::Erased(_) | Expected::Changed(_))) => what.is_met(came),
            _ => false,
        }
    }
}
