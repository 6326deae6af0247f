//! The transfer of one byte.

use super::tables::Record;
use super::Image;
use model::Refusal;
use st9::idcr;

/// The last register that a transfer may reach, and the first of the last pair.
const LAST_FILE_REGISTER: u8 = 223;
const LAST_PAIR: u8 = 222;

/// Moves one byte of a record and answers whether the block ended. Bit 0 of DCPR chooses the register file (1) or the memory (0).
pub fn transfer(image: &mut Image, memory: &mut [u8], record: &Record) -> Result<bool, Refusal> {
    let dcpr = image[usize::from(record.dcpr)];
    let ended = if dcpr & 1 != 0 {
        in_file(image, record, dcpr)?
    } else {
        in_memory(image, memory, record, dcpr)?
    };
    settle(&mut image[usize::from(record.idcr)], ended);
    Ok(ended)
}

/// Refused with 6: pair or address over 223.
fn in_file(image: &mut Image, record: &Record, dcpr: u8) -> Result<bool, Refusal> {
    if dcpr > LAST_FILE_REGISTER {
        return Err(Refusal::BadPointer);
    }
    let pointer = usize::from(dcpr & !1);
    let (address, count) = (image[pointer], image[pointer + 1]);
    if address > LAST_FILE_REGISTER {
        return Err(Refusal::BadPointer);
    }
    let (file, data) = (usize::from(address), usize::from(record.data));
    if record.direction == 0 {
        image[file] = image[data];
    } else {
        image[data] = image[file];
    }
    // After the move, so that the new address and counter stand where it hit them.
    let left = count.wrapping_sub(1);
    image[pointer] = address + 1;
    image[pointer + 1] = left;
    Ok(left == 0)
}

/// Refused with 6 (either pointer over 222), then with 5 (the address is not below the memory's length).
fn in_memory(
    image: &mut Image,
    memory: &mut [u8],
    record: &Record,
    dcpr: u8,
) -> Result<bool, Refusal> {
    let dapr = image[usize::from(record.dapr)] & !1;
    if dcpr.max(dapr) > LAST_PAIR {
        return Err(Refusal::BadPointer);
    }
    let (counter, pointer) = (usize::from(dcpr), usize::from(dapr));
    let address = u16::from_be_bytes([image[pointer], image[pointer + 1]]);
    let count = u16::from_be_bytes([image[counter], image[counter + 1]]);
    let Some(byte) = memory.get_mut(usize::from(address)) else { return Err(Refusal::BadAddress) };
    let data = &mut image[usize::from(record.data)];
    if record.direction == 0 {
        *byte = *data;
    } else {
        *data = *byte;
    }
    [image[pointer], image[pointer + 1]] = address.wrapping_add(1).to_be_bytes();
    // Last, so that the counter stands where the pairs coincide.
    let left = count.wrapping_sub(1);
    [image[counter], image[counter + 1]] = left.to_be_bytes();
    Ok(left == 0)
}

/// IDCR after a transfer: at the end of the block DM is cleared and IP becomes IM; otherwise IP is cleared.
fn settle(byte: &mut u8, ended: bool) {
    let unmasked = *byte & idcr::IM != 0;
    *byte &= !idcr::IP;
    if ended {
        *byte &= !idcr::DM;
        *byte |= if unmasked { idcr::IP } else { 0 };
    }
}
