//! The triggers.

use super::registers::{CICR, EIPR, EITR, EIVR};
use super::{Image, Tables};
use model::{Effect, Refusal};
use st9::{cicr, eivr, idcr};

/// Pin edge: sets EIPR bit k if the direction matches EITR bit k. Pin 0 counts only with IAOS = 1.
#[inline(always)]
pub fn pin_edge(image: &mut Image, pin: u32, direction: u8) -> Result<Effect, Refusal> {
    if pin > 7 || direction > 1 {
        return Err(Refusal::BadNumber);
    }
    let connected = pin != 0 || image[EIVR] & eivr::IAOS != 0;
    let selected = connected && image[EITR] >> pin & 1 == direction;
    Ok(raise_if(selected, &mut image[EIPR], 1 << pin))
}

/// Watchdog end of count: sets EIPR bit 0 if IAOS = 0, and TLIP if TLIS = 0.
#[inline(always)]
pub fn watchdog(image: &mut Image) -> (Effect, Effect) {
    let eivr = image[EIVR];
    let maskable = raise_if(eivr & eivr::IAOS == 0, &mut image[EIPR], 1);
    let tlip = raise_if(eivr & eivr::TLIS == 0, &mut image[CICR], cicr::TLIP);
    (maskable, tlip)
}

/// NMI edge: sets TLIP if TLIS = 1 and the direction matches TLTEV.
#[inline(always)]
pub fn nmi_edge(image: &mut Image, direction: u8) -> Result<Effect, Refusal> {
    if direction > 1 {
        return Err(Refusal::BadNumber);
    }
    let eivr = image[EIVR];
    let matches = (eivr & eivr::TLTEV != 0) == (direction == 1);
    let selected = eivr & eivr::TLIS != 0 && matches;
    Ok(raise_if(selected, &mut image[CICR], cicr::TLIP))
}

/// Channel request k: sets IP of record k.
#[inline(always)]
pub fn request(image: &mut Image, tables: &Tables, record: u32) -> Result<Effect, Refusal> {
    match tables.idcrs[..tables.count].get(record as usize) {
        Some(place) => Ok(raise_if(true, &mut image[usize::from(*place)], idcr::IP)),
        None => Err(Refusal::BadNumber),
    }
}

/// Sets a pending bit if it is selected, and says what became of it.
#[inline(always)]
fn raise_if(selected: bool, byte: &mut u8, bit: u8) -> Effect {
    if !selected {
        return Effect::NotSelected;
    }
    let merged = *byte & bit != 0;
    *byte |= bit;
    if merged {
        Effect::Merged
    } else {
        Effect::Raised
    }
}
