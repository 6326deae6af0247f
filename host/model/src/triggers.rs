//! The triggers.

use crate::channels::EXTERNAL_CHANNELS;
use crate::image::{has, Image, CICR, EIPR, EITR, EIVR, IAOS, IP, TLIP, TLIS, TLTEV};
use crate::{Answer, Channel, Effect, Refusal};

/// A trigger of a known kind; its numbers may be out of range.
#[derive(Clone, Copy)]
pub(crate) enum Trigger {
    PinEdge { pin: u32, direction: u8 },
    Watchdog,
    NmiEdge { direction: u8 },
    Request { record: u32 },
}

impl Trigger {
    /// The source whose pending bit the trigger can set; none for NMI.
    pub(crate) fn source(self) -> Option<u32> {
        match self {
            Trigger::PinEdge { pin, .. } => Some(pin),
            Trigger::Watchdog => Some(0),
            Trigger::NmiEdge { .. } => None,
            Trigger::Request { record } => Some(u32::from(EXTERNAL_CHANNELS) + record),
        }
    }
}

/// Performs a trigger. Masks, the mark and CPL don't matter to it.
pub(crate) fn trigger(
    image: &mut Image,
    channels: &[Channel],
    trigger: Trigger,
) -> Result<Answer, Refusal> {
    let (maskable, tlip) = match trigger {
        Trigger::PinEdge { pin, direction } => {
            (pin_edge(image, pin, direction)?, Effect::NotSelected)
        }
        Trigger::Watchdog => watchdog(image),
        Trigger::NmiEdge { direction } => (Effect::NotSelected, nmi_edge(image, direction)?),
        Trigger::Request { record } => (request(image, channels, record)?, Effect::NotSelected),
    };
    Ok(Answer::Triggered { maskable, tlip })
}

/// Pin edge: sets EIPR bit k if the direction matches EITR bit k. Pin 0 counts only with IAOS = 1.
fn pin_edge(image: &mut Image, pin: u32, direction: u8) -> Result<Effect, Refusal> {
    if pin > 7 || direction > 1 {
        return Err(Refusal::BadNumber);
    }
    let connected = pin != 0 || has(image, EIVR, IAOS);
    let matches = image[EITR] >> pin & 1 == direction;
    Ok(raise_if(connected && matches, &mut image[EIPR], 1 << pin))
}

/// Watchdog end of count: sets EIPR bit 0 if IAOS = 0, and TLIP if TLIS = 0.
fn watchdog(image: &mut Image) -> (Effect, Effect) {
    let to_pending = !has(image, EIVR, IAOS);
    let to_top_level = !has(image, EIVR, TLIS);
    (raise_if(to_pending, &mut image[EIPR], 1), raise_if(to_top_level, &mut image[CICR], TLIP))
}

/// NMI edge: sets TLIP if TLIS = 1 and the direction matches TLTEV.
fn nmi_edge(image: &mut Image, direction: u8) -> Result<Effect, Refusal> {
    if direction > 1 {
        return Err(Refusal::BadNumber);
    }
    let matches = has(image, EIVR, TLTEV) == (direction == 1);
    let selected = has(image, EIVR, TLIS) && matches;
    Ok(raise_if(selected, &mut image[CICR], TLIP))
}

/// Channel request k: sets IP of record k.
fn request(image: &mut Image, channels: &[Channel], record: u32) -> Result<Effect, Refusal> {
    let channel = channels.get(record as usize).ok_or(Refusal::BadNumber)?;
    Ok(raise_if(true, &mut image[channel.idcr_place()], IP))
}

/// Sets a pending bit if it is selected, and says what became of it.
fn raise_if(selected: bool, byte: &mut u8, bit: u8) -> Effect {
    if !selected {
        Effect::NotSelected
    } else if *byte & bit != 0 {
        Effect::Merged
    } else {
        *byte |= bit;
        Effect::Raised
    }
}
