//! The statements of a scenario, and each as it is written.

use crate::expectation::Expect;
use crate::fields::Bits;
use crate::memory::{address, bytes};
use crate::names::{register_name, Place, Role};
use crate::number::number;
use st9::text::hex;
use st9::{Channel, Edge, Source, Step};
use std::fmt;

/// A statement.
#[derive(Clone, Debug, PartialEq, Eq)]
pub enum Statement {
    /// The image to start from.
    Image(ImageName),
    /// Bits of a stored byte before the start.
    Set {
        /// The byte of the image.
        place: Place,
        /// What is stored there.
        bits: Bits,
    },
    /// The memory to start with.
    Memory(MemoryName),
    /// Bytes of the memory before the start.
    Poke {
        /// The address of the first.
        address: usize,
        /// What is stored there.
        bytes: Vec<u8>,
    },
    /// A record of the channel list.
    Channel(Channel),
    /// A name of one's own for a source.
    Name(String, Source),
    /// The start of a case, with its title.
    Case(String),
    /// Another case from where the one before started, and what its title adds.
    Again(Option<String>),
    /// A step.
    Step(Operation),
    /// A step several times.
    Repeat {
        /// How often.
        count: usize,
        /// The step.
        operation: Operation,
    },
    /// A call on a copy of image and memory, over the steps that follow.
    Call(Call),
    /// What the step or the call before it gives.
    Expect(Expect),
}

/// The image that a case starts from.
#[derive(Clone, Debug, PartialEq, Eq)]
pub enum ImageName {
    /// Bytes of one value.
    Fill {
        /// The value.
        byte: u8,
        /// How many.
        length: usize,
    },
    /// Bytes counted from 0, modulo 251: each place has another byte than the sixteen around it and a page away.
    Counted {
        /// How many.
        length: usize,
    },
    /// The bytes of a file.
    File(String),
}

/// The memory that a case starts with.
#[derive(Clone, Debug, PartialEq, Eq)]
pub enum MemoryName {
    /// Bytes of 00h.
    Zero {
        /// How many.
        length: usize,
    },
    /// The bytes of a file.
    File(String),
}

/// A step, and how its register was written.
#[derive(Clone, Copy, Debug, PartialEq, Eq)]
pub struct Operation {
    /// The step.
    pub step: Step,
    /// Whether a read or a write has its register by name.
    pub named: bool,
}

/// A call of the model on a copy of image and memory. All but the view are over the steps that follow, to the end of the case.
#[derive(Clone, Copy, Debug, PartialEq, Eq)]
pub enum Call {
    /// The run.
    Run,
    /// The wait report for a source.
    Wait(Source),
    /// Demand 3's bound for a source, and where that fails at a step the handlers' claim's.
    Bound(Source),
    /// The handlers' claim's bound for a source.
    HandlerBound(Source),
    /// The view of a page.
    View(u32),
}

impl ImageName {
    /// `image zero`.
    pub const ZERO: ImageName = ImageName::Fill { byte: 0, length: st9::IMAGE_LENGTH };

    /// Its bytes; those of a file are read by its name.
    pub fn bytes<E>(&self, read: impl FnOnce(&str) -> Result<Vec<u8>, E>) -> Result<Vec<u8>, E> {
        match self {
            ImageName::Fill { byte, length } => Ok(vec![*byte; *length]),
            ImageName::Counted { length } => {
                Ok((0..*length).map(|index| (index % 251) as u8).collect())
            }
            ImageName::File(name) => read(name),
        }
    }
}

impl MemoryName {
    /// Its bytes; those of a file are read by its name.
    pub fn bytes<E>(&self, read: impl FnOnce(&str) -> Result<Vec<u8>, E>) -> Result<Vec<u8>, E> {
        match self {
            MemoryName::Zero { length } => Ok(vec![0; *length]),
            MemoryName::File(name) => read(name),
        }
    }
}

impl fmt::Display for Statement {
    fn fmt(&self, f: &mut fmt::Formatter<'_>) -> fmt::Result {
        match self {
            Statement::Image(image) => write!(f, "image {image}"),
            Statement::Set { place, bits } => {
                write!(f, "set {} {}", place.written(), bits.written(*place))
            }
            Statement::Memory(memory) => write!(f, "memory {memory}"),
            Statement::Poke { address: first, bytes: stored } => {
                write!(f, "poke {} {}", address(*first), bytes(stored))
            }
            Statement::Channel(channel) => write_channel(f, channel),
            Statement::Name(name, source) => write!(f, "name {name} {}", source_word(*source)),
            Statement::Case(title) => write!(f, "case {title}"),
            Statement::Again(None) => f.write_str("again"),
            Statement::Again(Some(words)) => write!(f, "again {words}"),
            Statement::Step(operation) => operation.fmt(f),
            Statement::Repeat { count, operation } => write!(f, "repeat {count} {operation}"),
            Statement::Call(call) => call.fmt(f),
            Statement::Expect(expect) => write!(f, "expect {}", expect.said),
        }
    }
}

impl fmt::Display for ImageName {
    fn fmt(&self, f: &mut fmt::Formatter<'_>) -> fmt::Result {
        let length = match self {
            ImageName::Fill { length, .. } | ImageName::Counted { length } => *length,
            ImageName::File(name) => return write_file(f, name, is_made(name)),
        };
        match self {
            ImageName::Fill { byte: 0, .. } => f.write_str("zero")?,
            ImageName::Fill { byte, .. } => write!(f, "fill {}", hex(*byte))?,
            _ => f.write_str("counted")?,
        }
        match length {
            st9::IMAGE_LENGTH => Ok(()),
            _ => write!(f, " {length}"),
        }
    }
}

/// Whether a word after `image` means no file.
fn is_made(name: &str) -> bool {
    ["zero", "fill", "counted"].iter().any(|made| name.eq_ignore_ascii_case(made))
}

impl fmt::Display for MemoryName {
    fn fmt(&self, f: &mut fmt::Formatter<'_>) -> fmt::Result {
        match self {
            MemoryName::Zero { length } => write!(f, "{length}"),
            MemoryName::File(name) => write_file(f, name, may_be_size(name.as_bytes())),
        }
    }
}

/// Whether a word after `memory` is meant as a number of bytes, too large ones included.
pub(crate) fn may_be_size(word: &[u8]) -> bool {
    number(word).is_some() || !word.is_empty() && word.iter().all(u8::is_ascii_digit)
}

/// The name of a file; between double quotes where it has blanks or a `#`, or would mean something else.
fn write_file(f: &mut fmt::Formatter<'_>, name: &str, otherwise: bool) -> fmt::Result {
    let special = |byte: u8| byte == b'#' || byte.is_ascii_whitespace();
    match otherwise || name.bytes().any(special) {
        true => write!(f, "\"{name}\""),
        false => f.write_str(name),
    }
}

impl Place {
    /// The byte as a statement writes it: `EIPR`, `R16`, `R240.p9`, `MARK`.
    pub(crate) fn written(self) -> String {
        match (self.role(&[]), self.register()) {
            (Role::Plain, Some((number, Some(page)))) => format!("R{number}.p{page}"),
            _ => self.name(&[]),
        }
    }
}

fn source_word(source: Source) -> String {
    match source.0 {
        0..=7 => source.to_string(),
        number => format!("CH{}", number - 8),
    }
}

fn write_channel(f: &mut fmt::Formatter<'_>, channel: &Channel) -> fmt::Result {
    let Channel { page, idcr, ivr, dcpr, dapr, data, direction } = channel;
    write!(f, "channel page={page} idcr={idcr} ivr={ivr} dcpr={dcpr} dapr={dapr} data={data} ")?;
    match direction {
        0 => f.write_str("in"),
        1 => f.write_str("out"),
        _ => write!(f, "direction={direction}"),
    }
}

/// As the statement of this call is written.
impl fmt::Display for Call {
    fn fmt(&self, f: &mut fmt::Formatter<'_>) -> fmt::Result {
        match self {
            Call::Run => f.write_str("run"),
            Call::Wait(source) => write!(f, "wait {}", source_word(*source)),
            Call::Bound(source) => write!(f, "bound {}", source_word(*source)),
            Call::HandlerBound(source) => write!(f, "handler bound {}", source_word(*source)),
            Call::View(page) => write!(f, "view {page}"),
        }
    }
}

/// As the statement of this step is written.
impl fmt::Display for Operation {
    fn fmt(&self, f: &mut fmt::Formatter<'_>) -> fmt::Result {
        match self.step {
            Step::Read { register } => {
                f.write_str("read ")?;
                self.write_register(f, register)
            }
            Step::Write { register, value } => {
                f.write_str("write ")?;
                self.write_register(f, register)?;
                write!(f, " {}", hex(value))
            }
            Step::Pin { pin, edge } => {
                f.write_str("edge ")?;
                match Source::EXTERNAL.get(pin as usize) {
                    Some(name) => f.write_str(name)?,
                    None => write!(f, "{pin}")?,
                }
                write_edge(f, edge)
            }
            Step::Watchdog => f.write_str("watchdog"),
            Step::Nmi { edge } => {
                f.write_str("nmi")?;
                write_edge(f, edge)
            }
            Step::Request { record } => write!(f, "request {record}"),
            Step::Arbitrate => f.write_str("arbitrate"),
            Step::Return => f.write_str("return"),
            Step::Reset => f.write_str("reset"),
            Step::Word(word) => write!(f, "step 0x{word:016X}"),
        }
    }
}

impl Operation {
    fn write_register(&self, f: &mut fmt::Formatter<'_>, register: u32) -> fmt::Result {
        match register_name(register) {
            Some(name) if self.named => f.write_str(name),
            _ => write!(f, "R{register}"),
        }
    }
}

fn write_edge(f: &mut fmt::Formatter<'_>, edge: Edge) -> fmt::Result {
    match Edge::from(edge.number()) {
        Edge::Falling => f.write_str(" falling"),
        Edge::Rising => f.write_str(" rising"),
        Edge::Number(number) => write!(f, " {number}"),
    }
}
