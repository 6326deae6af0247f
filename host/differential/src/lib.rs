//! The exports of the proved library against the plain model, call by call.
//!
//! A [`Pair`] holds an image and a memory twice, one copy lent to the exports and one to the model, and makes each call on both. It compares the flat
//! answers of `include/st9.h` field by field and the images and memories whole, and sees that the channel bytes, the words and the bytes around every
//! lent part stay as they were. [`generate`] makes the images, lists, memories and steps from fixed seeds; [`Tally`] counts what was answered, [`Blocks`]
//! what was met of transfers. [`Plain`] is the model for scenarios.

mod account;
mod blocks;
pub mod flat;
pub mod generate;
mod lent;
mod pair;
pub mod places;
mod plain;
mod random;
mod start;
mod tally;
mod waited;

pub use account::Account;
pub use blocks::Blocks;
pub use pair::Pair;
pub use plain::Plain;
pub use random::Random;
pub use start::Start;
pub use tally::{Call, Tally};
pub use waited::{Alone, Calls, Claim, Waited};
