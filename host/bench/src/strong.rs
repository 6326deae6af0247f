//! The same job in plain safe Rust, written for speed: the baseline that the proved library is held against.
//!
//! It takes the bytes of a channel list, as the library does, and lays them out once a call ([`Tables`]): no step works out again where a register of a
//! record stands. A read or write finds the bits that exist by one look; an arbitration first gathers all IDCRs by OR, and looks for a winner only where
//! something requests.
//!
//! The answers are the plain model's types. They are made in `perform` itself, from what its parts give: an answer handed through another function is
//! packed into a register and taken apart again. `inline` stands where it saves instructions; the benchmark counts them.

#![forbid(unsafe_code)]

mod arbitration;
mod registers;
mod tables;
mod transfer;
mod triggers;

use arbitration::{arbitrate, return_from};
use model::{Answer, Effect, Ran, Refusal, MOST_MEMORY};
use registers::{locate, reset, store};
use st9::IMAGE_LENGTH;
use tables::Tables;
use triggers::{nmi_edge, pin_edge, request, watchdog};

/// An image of the right length.
type Image = [u8; IMAGE_LENGTH];

/// One step.
#[inline(never)]
pub fn step(
    image: &mut [u8],
    list: &[u8],
    memory: &mut [u8],
    word: u64,
) -> Result<Answer, Refusal> {
    let Ok(image) = <&mut Image>::try_from(image) else { return Err(Refusal::BadLength) };
    let mut tables = Tables::none();
    let Some(()) = tables.lay_out(list) else { return Err(Refusal::BadList) };
    if memory.len() > MOST_MEMORY {
        return Err(Refusal::BadMemory);
    }
    perform(image, &tables, memory, word)
}

/// The steps in order, up to the first that is refused.
#[inline(never)]
pub fn run(image: &mut [u8], list: &[u8], memory: &mut [u8], words: &[u64]) -> Ran {
    let Ok(image) = <&mut Image>::try_from(image) else {
        return Ran::RefusedCall(Refusal::BadLength);
    };
    let mut tables = Tables::none();
    let Some(()) = tables.lay_out(list) else { return Ran::RefusedCall(Refusal::BadList) };
    if memory.len() > MOST_MEMORY {
        return Ran::RefusedCall(Refusal::BadMemory);
    }
    let mut last = None;
    for (index, word) in words.iter().enumerate() {
        match perform(image, &tables, memory, *word) {
            Ok(answer) => last = Some(answer),
            Err(refusal) => return Ran::RefusedStep { refusal, index },
        }
    }
    match last {
        None => Ran::NoSteps,
        Some(last) => Ran::Done { steps: words.len(), last },
    }
}

/// Performs the step of a word: kind * 2^48 + trigger * 2^32 + first * 2^8 + second. A refused one changes nothing.
#[inline(always)]
fn perform(
    image: &mut Image,
    tables: &Tables,
    memory: &mut [u8],
    word: u64,
) -> Result<Answer, Refusal> {
    match word >> 48 {
        0 => {
            let (byte, exists) = locate(image, tables, first(word))?;
            Ok(Answer::Byte(image[byte] & exists))
        }
        1 => {
            let (byte, exists) = locate(image, tables, first(word))?;
            Ok(Answer::Written { lost: store(image, byte, second(word) & exists) })
        }
        2 => match (word >> 32) as u16 {
            0 => Ok(maskable(pin_edge(image, first(word), second(word))?)),
            1 => {
                let (maskable, tlip) = watchdog(image);
                Ok(Answer::Triggered { maskable, tlip })
            }
            2 => Ok(top_level(nmi_edge(image, second(word))?)),
            3 => Ok(maskable(request(image, tables, first(word))?)),
            _ => Err(Refusal::UnknownKind),
        },
        3 => arbitrate(image, tables, memory),
        4 => {
            return_from(image);
            Ok(Answer::Returned)
        }
        5 => {
            reset(image);
            Ok(Answer::Reset)
        }
        _ => Err(Refusal::UnknownKind),
    }
}

/// The first field of a word. Each arm takes what it needs: taken before, both fields would be made for every step.
#[inline(always)]
fn first(word: u64) -> u32 {
    (word >> 8) as u32 & 0xFF_FFFF
}

/// The second field of a word.
#[inline(always)]
fn second(word: u64) -> u8 {
    word as u8
}

/// The answer of a trigger that can only set a maskable bit.
#[inline(always)]
fn maskable(effect: Effect) -> Answer {
    Answer::Triggered { maskable: effect, tlip: Effect::NotSelected }
}

/// The answer of a trigger that can only set TLIP.
#[inline(always)]
fn top_level(effect: Effect) -> Answer {
    Answer::Triggered { maskable: Effect::NotSelected, tlip: effect }
}
