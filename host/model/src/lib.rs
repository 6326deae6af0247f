//! The rules of document 01 and of request §1 in plain safe Rust: the interrupt and DMA registers of an ST9 part, its eight external channels, the top
//! level channel, up to twelve peripheral channels, and a memory that these transfer to and from.
//!
//! This model was written from the papers alone, apart from the proved one, so that the two can be compared. Every image, channel list, memory and step
//! word gets an answer; a refused call or step changes nothing.

#![forbid(unsafe_code)]

mod answers;
mod arbitration;
mod bound;
mod channels;
mod dma;
mod handler;
mod image;
mod registers;
mod steps;
mod triggers;
pub mod word;

pub use answers::{Answer, Basis, Bounded, Effect, Ran, Refusal, Waited};
pub use bound::bound;
pub use channels::{Channel, MOST_CHANNELS};
pub use handler::handler_bound;
pub use image::{paged, IMAGE_LENGTH, MARK, MOST_MEMORY};
pub use registers::view;
pub use steps::{run, step, wait};
