//! The channel list, checked and laid out.

use super::registers::WITHOUT_RECORDS;
use st9::{idcr, MARK, MOST_CHANNELS};

/// The bytes of a record in the list: page, IDCR, IVR, DCPR, DAPR, data, direction.
const RECORD: usize = 7;

/// The bits of IDCR that exist.
const IDCR_BITS: u8 = idcr::IP | idcr::DM | idcr::IM | idcr::PRL;

/// Where a record's registers stand in the image, and its direction.
#[derive(Clone, Copy, Default)]
pub struct Record {
    pub idcr: u16,
    pub ivr: u16,
    pub dcpr: u16,
    pub dapr: u16,
    pub data: u16,
    /// As wide as the others, so that the records are cleared as one block.
    pub direction: u16,
}

/// What the steps of a call look up.
pub struct Tables {
    /// The byte of each record's IDCR, apart from the rest because an arbitration goes over all twelve. Where there is no record it is the mark's: an
    /// arbitration that comes so far has found it 0.
    pub idcrs: [u16; MOST_CHANNELS],
    pub records: [Record; MOST_CHANNELS],
    pub count: usize,
    /// The bits that exist in each byte before the mark, 0 where no register is modelled.
    pub exists: [u8; MARK],
}

impl Tables {
    /// The tables of a list without records.
    #[inline]
    pub fn none() -> Tables {
        Tables {
            idcrs: [MARK as u16; MOST_CHANNELS],
            records: [Record::default(); MOST_CHANNELS],
            count: 0,
            exists: WITHOUT_RECORDS,
        }
    }

    /// Lays a list out in place (tables that are returned are copied); none where it breaks a rule.
    #[inline]
    pub fn lay_out(&mut self, list: &[u8]) -> Option<()> {
        let records = list.chunks_exact(RECORD);
        self.count = records.len();
        if self.count > MOST_CHANNELS || !records.remainder().is_empty() {
            return None;
        }
        for ((bytes, idcr), record) in records.zip(&mut self.idcrs).zip(&mut self.records) {
            *record = laid_out(bytes, &mut self.exists)?;
            *idcr = record.idcr;
        }
        Some(())
    }
}

/// A record, whose registers exist from now on; none where it breaks a rule.
#[inline]
fn laid_out(bytes: &[u8], exists: &mut [u8; MARK]) -> Option<Record> {
    let &[page, idcr, ivr, dcpr, dapr, data, direction] = bytes else { return None };
    let paged = idcr & ivr & dcpr & dapr & data >= 240;
    if !(1..=63).contains(&page) || direction > 1 || !paged {
        return None;
    }
    let place = |register: u8| 16 * u16::from(page) + u16::from(register);
    // What exists already at a register of this record is another's, or one of its own twice.
    let mut taken = 0;
    let mut add = |register: u8, bits: u8| {
        let byte = &mut exists[usize::from(place(register))];
        taken |= *byte;
        *byte = bits;
    };
    [ivr, dcpr, dapr, data].into_iter().for_each(|register| add(register, 0xFF));
    add(idcr, IDCR_BITS);
    if taken != 0 {
        return None;
    }
    Some(Record {
        idcr: place(idcr),
        ivr: place(ivr),
        dcpr: place(dcpr),
        dapr: place(dapr),
        data: place(data),
        direction: direction.into(),
    })
}
