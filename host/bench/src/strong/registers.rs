//! Where the named registers stand; what reads and writes do to a byte, and the reset.

use super::{Image, Tables};
use model::Refusal;
use st9::{eivr, nicr, place, register, MARK};

pub const CICR: usize = place(0, register::CICR);
pub const PPR: usize = place(0, register::PPR);
pub const MODER: usize = place(0, register::MODER);
pub const EITR: usize = place(0, register::EITR);
pub const EIPR: usize = place(0, register::EIPR);
pub const EIMR: usize = place(0, register::EIMR);
pub const EIPLR: usize = place(0, register::EIPLR);
pub const EIVR: usize = place(0, register::EIVR);
pub const NICR: usize = place(0, register::NICR);

/// R240 of page 0, the first of the pages' registers, which is not modelled.
const R240: usize = place(0, 240);

/// The bits that exist without any record: those of R0 to R239 and of R242 to R247 of page 0.
pub static WITHOUT_RECORDS: [u8; MARK] = {
    let mut exists = [0; MARK];
    let mut byte = 0;
    while byte <= NICR {
        exists[byte] = if byte < R240 || byte >= EITR { 0xFF } else { 0 };
        byte += 1;
    }
    exists[PPR] = 0xFC;
    exists
};

/// The byte of a register and the bits of it that exist, with the page that PPR selects. Refusal 3: not modelled there, or over 255.
#[inline(always)]
pub fn locate(image: &Image, tables: &Tables, register: u32) -> Result<(usize, u8), Refusal> {
    let byte = match register as usize {
        low @ ..R240 => low,
        paged @ ..=255 => 16 * usize::from(image[PPR] >> 2) + paged,
        _ => R240,
    };
    match tables.exists[byte] {
        0 => Err(Refusal::BadRegister),
        exists => Ok((byte, exists)),
    }
}

/// Stores the existing bits of a written value; TLNM is set-only. Gives the EIPR bits that it took from 1 to 0.
#[inline(always)]
pub fn store(image: &mut Image, byte: usize, value: u8) -> u8 {
    let old = image[byte];
    let kept = if byte == NICR { old & nicr::TLNM } else { 0 };
    image[byte] = value | kept;
    if byte == EIPR {
        old & !value
    } else {
        0
    }
}

/// A reset: the table's bits, and the mark.
#[inline(always)]
pub fn reset(image: &mut Image) {
    image[CICR] = 0x87;
    image[MODER] = 0xE0;
    image[EITR] = 0x00;
    image[EIPR] = 0x00;
    image[EIMR] = 0x00;
    image[EIPLR] = 0xFF;
    image[EIVR] = image[EIVR] & eivr::VECTOR | eivr::TLIS | eivr::IAOS;
    image[NICR] = 0x00;
    image[MARK] = 0;
}
