//! The transfer of one byte: in the register file, or between a peripheral and the memory.

use crate::image::{paged, Image, DM, IM, IP, LAST_FILE_REGISTER, LAST_PAIR};
use crate::{Channel, Refusal};

/// Moves one byte of a record and answers whether the block ended. Bit 0 of DCPR chooses the register file (1) or the memory (0).
pub(crate) fn transfer(
    image: &mut Image,
    memory: &mut [u8],
    channel: &Channel,
) -> Result<bool, Refusal> {
    let dcpr = image[paged(channel.page, channel.dcpr)];
    let ended = if dcpr & 1 == 1 {
        transfer_in_file(image, channel, dcpr)?
    } else {
        transfer_in_memory(image, memory, channel, dcpr)?
    };
    settle(&mut image[channel.idcr_place()], ended);
    Ok(ended)
}

/// The register file, with an odd DCPR. Refused with 6: pair or address over 223.
fn transfer_in_file(image: &mut Image, channel: &Channel, dcpr: u8) -> Result<bool, Refusal> {
    // The pair is R(dcpr - 1) and R(dcpr): with its first even, both or neither are over 223.
    if dcpr > LAST_FILE_REGISTER {
        return Err(Refusal::BadPointer);
    }
    let (pointer, counter) = (usize::from(dcpr - 1), usize::from(dcpr));
    let (address, count) = (image[pointer], image[counter]);
    if address > LAST_FILE_REGISTER {
        return Err(Refusal::BadPointer);
    }
    let data = paged(channel.page, channel.data);
    if channel.direction == 0 {
        image[usize::from(address)] = image[data];
    } else {
        image[data] = image[usize::from(address)];
    }
    // After the move, so that the new address and counter stand where it hit them.
    let left = count.wrapping_sub(1);
    image[pointer] = address + 1;
    image[counter] = left;
    Ok(left == 0)
}

/// The memory, with an even DCPR: it names the counter's pair, and DAPR with bit 0 cleared the address's. Refused with 6 (either pointer over 222), then
/// with 5 (the address is not below the memory's length).
fn transfer_in_memory(
    image: &mut Image,
    memory: &mut [u8],
    channel: &Channel,
    dcpr: u8,
) -> Result<bool, Refusal> {
    let dapr = image[paged(channel.page, channel.dapr)] & !1;
    if dcpr > LAST_PAIR || dapr > LAST_PAIR {
        return Err(Refusal::BadPointer);
    }
    let (address, count) = (pair(image, dapr), pair(image, dcpr));
    let cell = memory.get_mut(usize::from(address)).ok_or(Refusal::BadAddress)?;
    let data = &mut image[paged(channel.page, channel.data)];
    if channel.direction == 0 {
        *cell = *data;
    } else {
        *data = *cell;
    }
    let left = count.wrapping_sub(1);
    set_pair(image, dapr, address.wrapping_add(1));
    // Last, so that the counter stands where the pairs coincide.
    set_pair(image, dcpr, left);
    Ok(left == 0)
}

/// The 16 bits of the pair that begins at a register, high byte first.
fn pair(image: &Image, first: u8) -> u16 {
    let first = usize::from(first);
    u16::from_be_bytes([image[first], image[first + 1]])
}

/// Stores 16 bits in the pair likewise.
fn set_pair(image: &mut Image, first: u8, value: u16) {
    let first = usize::from(first);
    image[first..first + 2].copy_from_slice(&value.to_be_bytes());
}

/// IDCR after a transfer: at the end of the block DM is cleared and IP becomes IM; otherwise IP is cleared.
fn settle(idcr: &mut u8, ended: bool) {
    if ended {
        *idcr &= !DM;
    }
    if !(ended && *idcr & IM != 0) {
        *idcr &= !IP;
    }
}
