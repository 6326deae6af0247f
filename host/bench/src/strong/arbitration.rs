//! Arbitration, the acknowledgement and the return.

use super::registers::{CICR, EIMR, EIPLR, EIPR, EIVR, NICR};
use super::transfer::transfer;
use super::{Image, Tables};
use model::{Answer, Refusal};
use st9::{cicr, eivr, idcr, nicr, MARK};

/// The external channels, which stand before the records.
const EXTERNAL_CHANNELS: u32 = 8;

/// The vector of the top level.
const TOP_LEVEL_VECTOR: u8 = 0x04;

/// A request is one number, and the least wins: its rank (2 times the level, plus 1 for an interrupt) times this, plus its source.
const RANK: u32 = 32;

/// No request: more than any.
const NONE: u32 = 16 * RANK;

/// The ranks from which on a request is not eligible: its level number must be below CPL, and an interrupt needs IEN.
#[derive(Clone, Copy)]
struct Limits {
    dma: u8,
    interrupt: u8,
}

/// An arbitration: the mark, then the top level; then the winner, if an external channel requests or some IP is set.
#[inline(always)]
pub fn arbitrate(image: &mut Image, tables: &Tables, memory: &mut [u8]) -> Result<Answer, Refusal> {
    if image[MARK] != 0 {
        return Ok(Answer::Nothing);
    }
    let cicr = image[CICR];
    if cicr & cicr::TLIP != 0 && top_level_enabled(cicr, image[NICR]) {
        image[CICR] = cicr & !cicr::TLIP;
        image[MARK] = 1;
        return Ok(Answer::TopLevel { vector: TOP_LEVEL_VECTOR });
    }
    let externals = image[EIPR] & image[EIMR];
    let idcrs = tables.idcrs.iter().fold(0, |bits, place| bits | image[usize::from(*place)]);
    let no_record = idcrs & idcr::IP == 0 || idcrs & (idcr::DM | idcr::IM) == 0;
    if externals == 0 && no_record {
        return Ok(Answer::Nothing);
    }
    match winner(image, tables, cicr, externals, idcrs) {
        NONE => Ok(Answer::Nothing),
        request => serve(image, tables, memory, cicr, request),
    }
}

/// The top level is enabled by TLNM, or by TLI and IEN.
#[inline(always)]
fn top_level_enabled(cicr: u8, nicr: u8) -> bool {
    const BOTH: u8 = cicr::TLI | cicr::IEN;
    nicr & nicr::TLNM != 0 || cicr & BOTH == BOTH
}

/// The first eligible request, where `externals` request and `idcrs` has the bits that some IDCR has: they can rule all records out.
#[inline(never)]
fn winner(image: &Image, tables: &Tables, cicr: u8, externals: u8, idcrs: u8) -> u32 {
    let dma = 2 * (cicr & cicr::CPL);
    let limits = Limits { dma, interrupt: if cicr & cicr::IEN != 0 { dma } else { 0 } };
    let mut best = NONE;
    if limits.interrupt != 0 {
        best = best_external(image, externals, limits);
    }
    let interrupts = idcrs & idcr::IM != 0 && limits.interrupt != 0;
    if idcrs & idcr::IP != 0 && (idcrs & idcr::DM != 0 || interrupts) {
        best = best.min(best_record(image, tables, limits));
    }
    best
}

/// The first eligible request of the external channels, one after another of those that request.
#[inline(always)]
fn best_external(image: &Image, externals: u8, limits: Limits) -> u32 {
    let eiplr = image[EIPLR];
    let mut best = NONE;
    let mut left = externals;
    while left != 0 {
        let k = left.trailing_zeros();
        left &= left - 1;
        let level = 2 * u32::from(eiplr >> (k & 6) & 3) + k % 2;
        let rank = 2 * level + 1;
        if rank < limits.interrupt.into() {
            best = best.min(RANK * rank + k);
        }
    }
    best
}

/// The first eligible request of the records.
#[inline(always)]
fn best_record(image: &Image, tables: &Tables, limits: Limits) -> u32 {
    let mut best = NONE;
    for (source, place) in (EXTERNAL_CHANNELS..).zip(&tables.idcrs[..tables.count]) {
        let bits = image[usize::from(*place)];
        if bits & idcr::IP == 0 {
            continue;
        }
        let dma = 2 * (bits & idcr::PRL);
        let rank = if bits & idcr::DM != 0 {
            if dma >= limits.dma {
                continue;
            }
            dma
        } else {
            if bits & idcr::IM == 0 || dma + 1 >= limits.interrupt {
                continue;
            }
            dma + 1
        };
        best = best.min(RANK * u32::from(rank) + source);
    }
    best
}

/// Serves the winner: DMA by a transfer, an interrupt by its acknowledgement.
#[inline(always)]
fn serve(
    image: &mut Image,
    tables: &Tables,
    memory: &mut [u8],
    cicr: u8,
    request: u32,
) -> Result<Answer, Refusal> {
    let (rank, number) = (request / RANK, request % RANK);
    let source = number as u8;
    if rank % 2 == 0 {
        let record = &tables.records[(number - EXTERNAL_CHANNELS) as usize];
        let ended = transfer(image, memory, record)?;
        return Ok(Answer::Transferred { source, ended });
    }
    let level = (rank / 2) as u8;
    let vector = clear_pending(image, tables, number);
    enter(image, cicr, level);
    Ok(Answer::Interrupt { source, level, vector })
}

/// Clears the pending bit of an acknowledged source; gives its vector.
#[inline(always)]
fn clear_pending(image: &mut Image, tables: &Tables, source: u32) -> u8 {
    if source < EXTERNAL_CHANNELS {
        image[EIPR] &= !(1 << source);
        (image[EIVR] & eivr::VECTOR) + 2 * source as u8
    } else {
        let record = &tables.records[(source - EXTERNAL_CHANNELS) as usize];
        image[usize::from(record.idcr)] &= !idcr::IP;
        image[usize::from(record.ivr)] & !1
    }
}

/// CICR and NICR of an acknowledgement: in nested mode CPL is kept in HL and becomes the level; IEN is cleared.
#[inline(always)]
fn enter(image: &mut Image, mut cicr: u8, level: u8) {
    if cicr & cicr::IAM != 0 {
        // No HL bit stands for level 7: bit 7 of NICR is TLNM.
        if cicr & cicr::CPL < 7 {
            image[NICR] |= 1 << (cicr & cicr::CPL);
        }
        cicr = cicr & !cicr::CPL | level;
    }
    image[CICR] = cicr & !cicr::IEN;
}

/// A return: from the top level only the mark is cleared; otherwise IEN is set and, in nested mode, the smallest HL bit becomes CPL (7 if none is set).
#[inline(always)]
pub fn return_from(image: &mut Image) {
    if image[MARK] != 0 {
        image[MARK] = 0;
        return;
    }
    let mut cicr = image[CICR];
    if cicr & cicr::IAM != 0 {
        let held = image[NICR];
        // TLNM's place, bit 7, stops the search where no HL bit is set.
        let level = (held | nicr::TLNM).trailing_zeros() as u8;
        if level < 7 {
            image[NICR] = held & !(1 << level);
        }
        cicr = cicr & !cicr::CPL | level;
    }
    image[CICR] = cicr | cicr::IEN;
}
