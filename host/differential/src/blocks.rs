//! What was met of transfers, judged by the bytes that an arbitration finds: apart from the model's own way, and in more detail.

use crate::{places, Calls};
use model::{paged, Channel, MOST_MEMORY};
use st9::sys;
use std::collections::BTreeMap;

/// What a transfer, or its refusal, can be.
#[derive(Clone, Copy, Debug, PartialEq, Eq, PartialOrd, Ord)]
pub enum Seen {
    /// Served: in the register file, into memory, out of it. All that follows is about memory.
    InFile,
    Into,
    OutOf,
    /// Both pointers name one pair; of these, those with DAPR odd, and those with the block ended or the counter wrapped.
    SamePair,
    SamePairOdd,
    SamePairEnded,
    SamePairWrapped,
    /// The address, the counter and both become 0000h and FFFFh.
    AddressWraps,
    CounterWraps,
    BothWrap,
    /// A carry or a borrow between the bytes of a pair.
    AddressCarries,
    CounterBorrows,
    /// The block ends with IM = 0, with IM = 1; the counter's low byte alone becomes 0.
    EndsMasked,
    EndsUnmasked,
    LowByteEnds,
    /// The address is the memory's last; the memory has one byte, and as many as it may.
    LastByte,
    OneByte,
    MostBytes,
    /// A pointer of 222.
    LastCounterPair,
    LastAddressPair,
    /// Refused with 6: in the register file; for DCPR, DAPR or both; where the address is not below the length too.
    FileRefused,
    DcprRefused,
    DaprRefused,
    BothRefused,
    PointerFirst,
    /// Refused with 5: no memory, the address at its length, above it; pairs that coincide.
    EmptyRefused,
    LengthRefused,
    AddressRefused,
    SamePairRefused,
}

impl Seen {
    /// The last, with which all are counted.
    const LAST: Seen = Seen::SamePairRefused;
}

/// How often each was met.
#[derive(Debug, Default)]
pub struct Blocks(BTreeMap<Seen, u64>);

impl Blocks {
    /// Does a step and counts it.
    pub fn follow(&mut self, calls: &mut impl Calls, word: u64) -> sys::Answer {
        let is_arbitration = word >> 48 == 3;
        let before = if is_arbitration { calls.image().to_vec() } else { Vec::new() };
        let answer = calls.step(word);
        if is_arbitration {
            self.count(&before, calls.channels(), calls.memory().len(), answer);
        }
        answer
    }

    /// Counts an arbitration by the image that it found. Panics where the answer is not that of the record whose DMA comes first there.
    fn count(&mut self, before: &[u8], channels: &[Channel], length: usize, answer: sys::Answer) {
        if answer.kind != sys::TRANSFERRED && !matches!(answer.refusal, 5 | 6) {
            return;
        }
        let record = places::first_dma(before, channels).expect("a record that requests DMA");
        if answer.kind == sys::TRANSFERRED {
            assert_eq!(answer.first, 8 + record as u64);
        }
        let (refusal, seen) = seen(before, &channels[record], length);
        assert_eq!(answer.refusal, refusal, "record {record}");
        for one in seen {
            *self.0.entry(one).or_default() += 1;
        }
    }

    /// The transfers in memory.
    pub fn in_memory(&self) -> u64 {
        [Seen::Into, Seen::OutOf].iter().filter_map(|one| self.0.get(one)).sum()
    }

    /// Panics unless each was met so often.
    pub fn assert_all_met(&self, least: u64) {
        assert_eq!(self.0.len(), Seen::LAST as usize + 1, "{self:?}");
        assert!(self.0.values().all(|count| *count >= least), "{self:?}");
    }
}

/// The refusal of a record's transfer, 0 where it is served, and what there is to be seen of it.
fn seen(image: &[u8], channel: &Channel, length: usize) -> (u64, Vec<Seen>) {
    let at = |register: u8| image[paged(channel.page, register)];
    let (dcpr, dapr) = (at(channel.dcpr), at(channel.dapr));
    if dcpr % 2 == 1 {
        let good = dcpr < 224 && image[usize::from(dcpr) - 1] < 224;
        return if good { (0, vec![Seen::InFile]) } else { (6, vec![Seen::FileRefused]) };
    }
    let same = dcpr == dapr & 0xFE;
    match (word_at(image, dcpr), word_at(image, dapr & 0xFE)) {
        (None, None) => (6, vec![Seen::BothRefused]),
        (Some(_), None) => (6, vec![Seen::DaprRefused]),
        (None, Some(address)) if address < length => (6, vec![Seen::DcprRefused]),
        (None, Some(_)) => (6, vec![Seen::DcprRefused, Seen::PointerFirst]),
        (Some(_), Some(address)) if address >= length => (5, beyond(address, length, same)),
        (Some(counter), Some(address)) => {
            let ends = match at(channel.idcr) & 0x08 {
                0 => Seen::EndsMasked,
                _ => Seen::EndsUnmasked,
            };
            let into = channel.direction == 0;
            let conditions = [
                (into, Seen::Into),
                (!into, Seen::OutOf),
                (same, Seen::SamePair),
                (same && dapr % 2 == 1, Seen::SamePairOdd),
                (same && counter == 1, Seen::SamePairEnded),
                (same && counter == 0, Seen::SamePairWrapped),
                (address == 0xFFFF && !same, Seen::AddressWraps),
                (counter == 0, Seen::CounterWraps),
                (address == 0xFFFF && counter == 0, Seen::BothWrap),
                (address % 256 == 255 && address != 0xFFFF && !same, Seen::AddressCarries),
                (counter % 256 == 0 && counter != 0, Seen::CounterBorrows),
                (counter == 1, ends),
                (counter % 256 == 1 && counter != 1, Seen::LowByteEnds),
                (address + 1 == length, Seen::LastByte),
                (length == 1, Seen::OneByte),
                (length == MOST_MEMORY, Seen::MostBytes),
                (dcpr == 222, Seen::LastCounterPair),
                (dapr & 0xFE == 222, Seen::LastAddressPair),
            ];
            (0, conditions.into_iter().filter(|(holds, _)| *holds).map(|(_, one)| one).collect())
        }
    }
}

/// What there is to be seen of an address that is not below the length.
fn beyond(address: usize, length: usize, same: bool) -> Vec<Seen> {
    let first = match length {
        0 => Seen::EmptyRefused,
        _ if address == length => Seen::LengthRefused,
        _ => Seen::AddressRefused,
    };
    if same {
        vec![first, Seen::SamePairRefused]
    } else {
        vec![first]
    }
}

/// The 16 bits of a pair of the register file, high byte first.
fn word_at(image: &[u8], first: u8) -> Option<usize> {
    let first = usize::from(first);
    (first <= 222).then(|| 256 * usize::from(image[first]) + usize::from(image[first + 1]))
}
