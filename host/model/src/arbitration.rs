//! Arbitration, the acknowledgements and the return.

use crate::channels::{external_level, EXTERNAL_CHANNELS};
use crate::dma;
use crate::image::{
    current_level, has, in_service, paged, Image, CICR, CPL, DM, EIMR, EIPR, EIVR, HL, IAM, IEN,
    IM, IP, MARK, NICR, PRL, TLI, TLIP, TLNM, VECTOR,
};
use crate::{Answer, Channel, Refusal};

/// The vector of the top level.
const TOP_LEVEL_VECTOR: u8 = 0x04;

/// What is requested. At one level DMA comes first.
#[derive(Clone, Copy, PartialEq, Eq, PartialOrd, Ord)]
enum Service {
    Dma,
    Interrupt,
}

/// A request. The order of the fields is the order of arbitration: the smallest wins.
#[derive(Clone, Copy, PartialEq, Eq, PartialOrd, Ord)]
struct Request {
    level: u8,
    service: Service,
    source: u8,
}

/// An arbitration: the mark, then the top level, then the first eligible request.
pub(crate) fn arbitrate(
    image: &mut Image,
    channels: &[Channel],
    memory: &mut [u8],
) -> Result<Answer, Refusal> {
    if in_service(image) {
        return Ok(Answer::Nothing);
    }
    if top_level_wins(image) {
        image[CICR] &= !TLIP;
        image[MARK] = 1;
        return Ok(Answer::TopLevel { vector: TOP_LEVEL_VECTOR });
    }
    match winner(image, channels) {
        None => Ok(Answer::Nothing),
        Some(request) => match request.service {
            Service::Interrupt => Ok(acknowledge(image, channels, request)),
            Service::Dma => serve(image, channels, memory, request.source),
        },
    }
}

/// The top level wins if TLIP is set and (TLNM, or TLI and IEN).
fn top_level_wins(image: &Image) -> bool {
    let enabled = has(image, NICR, TLNM) || (has(image, CICR, TLI) && has(image, CICR, IEN));
    enabled && has(image, CICR, TLIP)
}

/// The first eligible request by level, then DMA before interrupt, then position.
fn winner(image: &Image, channels: &[Channel]) -> Option<Request> {
    let external = best_external(image);
    let record = best_record(image, channels);
    match (external, record) {
        (Some(one), Some(other)) => Some(one.min(other)),
        (one, other) => one.or(other),
    }
}

/// The first eligible request of the external channels.
fn best_external(image: &Image) -> Option<Request> {
    if !has(image, CICR, IEN) {
        return None;
    }
    let requesting = image[EIPR] & image[EIMR];
    if requesting == 0 {
        return None;
    }
    (0..EXTERNAL_CHANNELS)
        .filter(|k| requesting >> k & 1 == 1)
        .map(|k| Request {
            level: external_level(image, k),
            service: Service::Interrupt,
            source: k,
        })
        .filter(|request| request.level < current_level(image))
        .min()
}

/// The first eligible request of the records.
fn best_record(image: &Image, channels: &[Channel]) -> Option<Request> {
    (EXTERNAL_CHANNELS..)
        .zip(channels)
        .filter_map(|(source, channel)| record_request(image, channel, source))
        .min()
}

/// The eligible request of one record: DMA if DM = 1, whatever IEN is; an interrupt if DM = 0, IM = 1 and IEN = 1.
fn record_request(image: &Image, channel: &Channel, source: u8) -> Option<Request> {
    let idcr = image[channel.idcr_place()];
    let level = idcr & PRL;
    if idcr & IP == 0 || level >= current_level(image) {
        return None;
    }
    let service = if idcr & DM != 0 {
        Service::Dma
    } else if idcr & IM != 0 && has(image, CICR, IEN) {
        Service::Interrupt
    } else {
        return None;
    };
    Some(Request { level, service, source })
}

/// Interrupt won: in nested mode CPL is kept in HL and becomes the winner's level; then the pending bit and IEN are cleared.
fn acknowledge(image: &mut Image, channels: &[Channel], request: Request) -> Answer {
    let Request { level, source, .. } = request;
    if has(image, CICR, IAM) {
        // No HL bit stands for level 7: bit 7 of NICR is TLNM.
        image[NICR] |= 1 << current_level(image) & HL;
        image[CICR] = image[CICR] & !CPL | level;
    }
    image[CICR] &= !IEN;
    let vector = if source < EXTERNAL_CHANNELS {
        image[EIPR] &= !(1 << source);
        (image[EIVR] & VECTOR) + 2 * source
    } else {
        let channel = &channels[usize::from(source - EXTERNAL_CHANNELS)];
        image[channel.idcr_place()] &= !IP;
        image[paged(channel.page, channel.ivr)] & !1
    };
    Answer::Interrupt { source, level, vector }
}

/// DMA won: the transfer of the record.
fn serve(
    image: &mut Image,
    channels: &[Channel],
    memory: &mut [u8],
    source: u8,
) -> Result<Answer, Refusal> {
    let channel = &channels[usize::from(source - EXTERNAL_CHANNELS)];
    let ended = dma::transfer(image, memory, channel)?;
    Ok(Answer::Transferred { source, ended })
}

/// A return: from the top level only the mark is cleared; otherwise IEN is set and, in nested mode, the smallest HL bit becomes CPL (7 if none is set).
pub(crate) fn return_from(image: &mut Image) {
    if in_service(image) {
        image[MARK] = 0;
        return;
    }
    image[CICR] |= IEN;
    if has(image, CICR, IAM) {
        let held = image[NICR] & HL;
        let level = if held == 0 { 7 } else { held.trailing_zeros() as u8 };
        image[NICR] &= !(held & held.wrapping_neg());
        image[CICR] = image[CICR] & !CPL | level;
    }
}
