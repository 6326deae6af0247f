//! Scenarios of the command `st9`: their statements, cases followed and compared with what they expect, the names of
//! registers and bits, and answers in words.
//!
//! A case is followed on any [`Model`]: the command passes the proved one, [`Proved`].

#![forbid(unsafe_code)]
#![deny(missing_docs)]

mod account;
mod answers;
mod bounds;
mod calls;
mod changes;
mod doubt;
mod expect;
mod expectation;
mod fields;
mod file;
mod fold;
mod follow;
mod json;
mod lent;
mod memory;
mod names;
mod notes;
mod number;
mod parse;
mod pending;
mod proved;
mod quote;
mod statement;
mod stored;
mod transfer;
mod why;

pub use account::{Account, Loss, Row};
pub use answers::Report;
pub use bounds::{bound_json, Bounds, Claim, Claimed, List};
pub use calls::{refused_json, waited_json, waited_words, CallAnswer, CallReport, Made, Model};
pub use changes::{changes, Change};
pub use expectation::{Expect, Expected, RefusedAt, Where};
pub use fields::{Bits, Field};
pub use file::{Ask, Asked, Case, PokeLine, Scenario, ScenarioError, SetLine, StepLine};
pub use fold::folded;
pub use follow::{follow, Comparison, End, Event, Followed};
pub use json::Object;
pub use lent::Lent;
pub use memory::{memory_words, stretches, Stretch};
pub use names::{named_registers, Names, Place, Role};
pub use notes::{end_note, note, transfer_note};
pub use number::{number, number_32};
pub use parse::statement;
pub use pending::{Bit, Pending};
pub use proved::Proved;
pub use quote::{printable, quoted};
pub use statement::{Call, ImageName, MemoryName, Operation, Statement};
pub use stored::Stored;
