//! The ST92F150's interrupt and DMA registers: a safe wrapper of a model that is proved against their rules.
//!
//! The caller lends the registers, an image of 1,265 bytes, a channel list and a memory, and has steps done on them:
//! reads, writes, triggers, arbitrations, returns, resets. The memory is what DMA moves bytes into and out of, at most
//! 65,536 of them and `&mut []` where there is none; [`Channel`] has what a transfer does. Each answer says what the
//! rules give, and prints as a short text.
//!
//! "Document 01" is the scope paper: the rules of the part, which docs/PROMISES.md restates one a row, here with its
//! later change that lends a memory. "Demand 3" is the bound on waiting: over triggers, arbitrations and returns an
//! unmasked pending source above the current level is acknowledged by arbitration H + E + 1 at the latest, if the list
//! has so many, H the unmasked sources outranking it that are pending at the start, E the triggers of such sources;
//! [`Premise`] has what else it asks. "The handlers' claim" is the same over lists that also read, and write what
//! leaves the bound's basis ([`Basis`]).
//!
//! In this example over-temperature is INTB0 and the fan INTC0. The fan fails while the handler of over-temperature
//! runs. With the steps to come it has a bound where the handler writes EIPR back without its own bit, and none where
//! it writes 00h.
//!
//! ```
//! use st9::register::{CICR, EIMR, EIPLR, EIPR, EIVR};
//! use st9::{cicr, handler_bound, place, run, step, Edge, Source, Step};
//!
//! fn main() -> Result<(), Box<dyn std::error::Error>> {
//!     let mut image = [0; st9::IMAGE_LENGTH];
//!     image[place(0, CICR)] = cicr::IEN | cicr::CPL; // interrupts enabled, concurrent mode, CPL 7
//!     image[place(0, EIMR)] = 0x14; // INTB0 and INTC0 unmasked
//!     image[place(0, EIPLR)] = 0xE7; // INTB0 at level 2, INTC0 at level 4
//!     image[place(0, EIVR)] = 0x46; // vectors from 40h
//!
//!     let (over_temperature, fan) = (Source::INTB0, Source::INTC0);
//!     let edge = |source: Source| Step::Pin { pin: source.0, edge: Edge::Falling };
//!     step(&mut image, &[], &mut [], edge(over_temperature))?;
//!     let answer = step(&mut image, &[], &mut [], Step::Arbitrate)?; // its handler starts
//!     assert_eq!(answer.to_string(), "acknowledged INTB0, level 2, vector 44h");
//!     let answer = step(&mut image, &[], &mut [], edge(fan))?;
//!     assert_eq!(answer.to_string(), "raised");
//!
//!     let to_come = |kept| [Step::read(EIPR), Step::write(EIPR, kept), Step::Return, Step::Arbitrate];
//!     let bound = handler_bound(&image, &[], fan, &to_come(0x10))?; // without its own bit
//!     assert_eq!(bound.to_string(), "by arbitration 1 at the latest, H 0, E 0");
//!     let bound = handler_bound(&image, &[], fan, &to_come(0x00))?;
//!     assert_eq!(bound.to_string(), "none: the write at step 1 erases the source's pending bit");
//!
//!     let done = run(&mut image, &[], &mut [], &to_come(0x10))?;
//!     assert_eq!(done.to_string(), "done: 4 steps, last answer: acknowledged INTC0, level 4, vector 48h");
//!     Ok(())
//! }
//! ```
//!
//! | Function | What it answers |
//! |---|---|
//! | [`step(image, channels, memory, step)`](fn@step) | one step: an [`Answer`] |
//! | [`run(image, channels, memory, steps)`](fn@run) | steps one after another: [`Done`], with their number and the last answer |
//! | [`wait(image, channels, memory, source, steps)`](fn@wait) | the steps up to the source's acknowledgement: a [`Wait`], with the arbitrations made |
//! | [`bound(image, channels, source, steps)`](fn@bound) | by which arbitration it is acknowledged at the latest, or the [`Premise`] that fails: a [`Bound`] by demand 3 |
//! | [`handler_bound(image, channels, source, steps)`](fn@handler_bound) | the same by the handlers' claim |
//! | [`view(image, page)`](fn@view) | the sixteen bytes of a page |
//! | [`place(page, register)`](fn@place) | the byte of an image that a register has |
//!
//! [`Step`] has the steps, [`Source`] the sources, [`Channel`] the records of a channel list; [`register`] the numbers
//! of the registers, [`cicr`], [`eivr`], [`nicr`] and [`idcr`] their bits. [`words`] has `run`, `wait` and both bounds
//! over words, for lists that are kept and run many times; [`sys`] the C interface as it is.
//!
//! Every image, channel list, memory, number and step gets an answer, and none makes a function panic: only an archive
//! of another version can. A bad one is refused with one of eight numbers ([`Refusal`]), and then every byte stays as
//! it was: an image of another length, a channel list that breaks a rule, a memory over 65,536 bytes, a register, pin,
//! record or source that isn't there, a DMA transfer with a bad pointer or with an address that the register file or
//! the memory does not have, a step of unknown kind. A run that is refused at a step leaves image and memory as the
//! steps before it did; [`RunError`] and [`WaitError`] have its index.
//!
//! The crate links the archive `target/staticlib/libst9.a`, which `tools/staticlib` writes in the repository's root.

#![deny(missing_docs)]
#![deny(unsafe_code)]

mod answer;
mod bound;
mod calls;
mod channel;
mod image;
mod refusal;
mod registers;
mod run;
mod source;
mod step;
#[allow(unsafe_code)]
pub mod sys;
pub mod text;
pub mod words;

pub use answer::{step, Answer, Effect};
pub use bound::{bound, handler_bound, Basis, Bound, Premise};
pub use channel::{Channel, Direction, MOST_CHANNELS, MOST_MEMORY};
pub use image::{place, view, IMAGE_LENGTH, MARK};
pub use refusal::Refusal;
pub use registers::{cicr, eivr, idcr, nicr, register};
pub use run::{run, wait, Done, RunError, Wait, WaitError};
pub use source::Source;
pub use step::{Edge, Step};
