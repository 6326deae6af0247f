//! Reads, writes, the reset and the view of a page, with the table of the system registers and page 0.

use crate::image::{paged, Image, EIPR, IDCR_BITS, IMAGE_LENGTH, MARK, NICR, PPR, TLNM};
use crate::{Answer, Channel, Refusal};

/// A row of the table: the bits that exist, the bits that reset changes, and what it makes of them.
#[derive(Clone, Copy)]
struct Row {
    exists: u8,
    reset_mask: u8,
    reset_bits: u8,
}

/// All eight bits, kept at reset.
const STORED: Row = Row { exists: 0xFF, reset_mask: 0, reset_bits: 0 };

/// All eight bits, set to a value at reset.
const fn reset_to(value: u8) -> Row {
    Row { exists: 0xFF, reset_mask: 0xFF, reset_bits: value }
}

/// The sixteen system registers, R224 to R239.
const SYSTEM: [Row; 16] = {
    let mut rows = [STORED; 16];
    rows[230 - 224] = reset_to(0x87); // CICR
    rows[234 - 224].exists = 0xFC; // PPR
    rows[235 - 224] = reset_to(0xE0); // MODER
    rows
};

/// The six registers of page 0, R242 to R247.
const PAGE_ZERO: [Row; 6] = [
    reset_to(0x00),                                           // EITR
    reset_to(0x00),                                           // EIPR
    reset_to(0x00),                                           // EIMR
    reset_to(0xFF),                                           // EIPLR
    Row { exists: 0xFF, reset_mask: 0x0F, reset_bits: 0x06 }, // EIVR
    reset_to(0x00),                                           // NICR
];

/// A modelled register: its byte in the image and the bits that exist.
struct Place {
    byte: usize,
    exists: u8,
}

/// Where a register stands with the page that PPR selects. Refusal 3: not modelled there, or over 255.
fn locate(image: &Image, channels: &[Channel], register: u32) -> Result<Place, Refusal> {
    let number = u8::try_from(register).map_err(|_| Refusal::BadRegister)?;
    let byte = usize::from(number);
    match (number, image[PPR] >> 2) {
        (0..=223, _) => Ok(Place { byte, exists: 0xFF }),
        (224..=239, _) => Ok(Place { byte, exists: SYSTEM[byte - 224].exists }),
        (242..=247, 0) => Ok(Place { byte, exists: PAGE_ZERO[byte - 242].exists }),
        (_, page) => locate_in_records(channels, page, number).ok_or(Refusal::BadRegister),
    }
}

/// Where a paged register stands if it is one of the records'.
fn locate_in_records(channels: &[Channel], page: u8, register: u8) -> Option<Place> {
    let owner = channels
        .iter()
        .find(|channel| channel.page == page && channel.registers().contains(&register))?;
    let exists = if register == owner.idcr { IDCR_BITS } else { 0xFF };
    Some(Place { byte: paged(page, register), exists })
}

/// A read: the stored byte with absent bits as 0.
pub(crate) fn read(image: &Image, channels: &[Channel], register: u32) -> Result<Answer, Refusal> {
    let place = locate(image, channels, register)?;
    Ok(Answer::Byte(image[place.byte] & place.exists))
}

/// A write: stores the existing bits and 0 in the absent ones; TLNM is set-only. Answers the EIPR bits that it took from 1 to 0.
pub(crate) fn write(
    image: &mut Image,
    channels: &[Channel],
    register: u32,
    value: u8,
) -> Result<Answer, Refusal> {
    let place = locate(image, channels, register)?;
    let old = image[place.byte];
    let kept = if place.byte == NICR { old & TLNM } else { 0 };
    image[place.byte] = value & place.exists | kept;
    let lost = if place.byte == EIPR { old & !value } else { 0 };
    Ok(Answer::Written { lost })
}

/// A reset: the table's bits, and the mark.
pub(crate) fn reset(image: &mut Image) {
    let system = (224..).zip(&SYSTEM);
    let page_zero = (242..).zip(&PAGE_ZERO);
    for (byte, row) in system.chain(page_zero) {
        let stored: u8 = image[byte];
        image[byte] = stored & !row.reset_mask | row.reset_bits;
    }
    image[MARK] = 0;
}

/// The sixteen bytes of a page as stored, whatever PPR holds. Refused with 1, then with 3 for a page over 63.
pub fn view(image: &[u8], page: u32) -> Result<&[u8], Refusal> {
    if image.len() != IMAGE_LENGTH {
        return Err(Refusal::BadLength);
    }
    match u8::try_from(page) {
        Ok(page @ 0..=63) => Ok(&image[paged(page, 240)..][..16]),
        _ => Err(Refusal::BadRegister),
    }
}
