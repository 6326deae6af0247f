//! The pending bits of an image: those of the sources, and TLIP.

use crate::names::Names;
use st9::{register, Channel, Source};

const TLIP: u8 = 0x40;
const IP: u8 = 0x20;

/// The sources of the longest channel list: eight external channels and twelve records.
pub(crate) const MOST_SOURCES: usize = 8 + st9::MOST_CHANNELS;

/// A pending bit.
#[derive(Clone, Copy, Debug, PartialEq, Eq, PartialOrd, Ord)]
pub enum Bit {
    /// The EIPR or IP bit of a source.
    Of(Source),
    /// That of the top level.
    Tlip,
}

/// A set of pending bits: bit k is that of source k, the last that of TLIP.
#[derive(Clone, Copy, Debug, Default, PartialEq, Eq)]
pub struct Pending(u32);

impl Bit {
    /// Its place in a table of the sources, TLIP last.
    pub(crate) fn index(self) -> usize {
        match self {
            Bit::Of(source) => (source.0 as usize).min(MOST_SOURCES - 1),
            Bit::Tlip => MOST_SOURCES,
        }
    }

    pub(crate) fn at(index: usize) -> Bit {
        match index {
            MOST_SOURCES => Bit::Tlip,
            _ => Bit::Of(Source(index as u32)),
        }
    }

    /// `INTB0`, `channel 0`, `TLIP`, with the own name of a source.
    pub fn told(self, names: &Names) -> String {
        match self {
            Bit::Of(source) => names.told(source),
            Bit::Tlip => "TLIP".to_string(),
        }
    }

    /// The same where the bit itself is meant: `IP of channel 0`.
    pub(crate) fn told_as_bit(self, names: &Names) -> String {
        match self {
            Bit::Of(source) if source.0 >= 8 => format!("IP of {}", self.told(names)),
            _ => self.told(names),
        }
    }
}

impl Pending {
    /// Those that are set in an image under a channel list; bytes that the image does not have count as 0.
    pub fn of(image: &[u8], channels: &[Channel]) -> Pending {
        let byte = |place: usize| image.get(place).copied().unwrap_or_default();
        let mut set = u32::from(byte(register::EIPR.into()));
        for (record, channel) in channels.iter().take(st9::MOST_CHANNELS).enumerate() {
            let idcr = byte(st9::place(channel.page, channel.idcr));
            set |= u32::from(idcr & IP != 0) << (8 + record);
        }
        let tlip = byte(register::CICR.into()) & TLIP != 0;
        Pending(set | u32::from(tlip) << MOST_SOURCES)
    }

    /// Those of this set that are not in another.
    pub fn without(self, other: Pending) -> Pending {
        Pending(self.0 & !other.0)
    }

    /// Whether a bit is in this set.
    pub fn has(self, bit: Bit) -> bool {
        self.has_index(bit.index())
    }

    pub(crate) fn has_index(self, index: usize) -> bool {
        self.0 >> index & 1 == 1
    }

    /// Whether no bit is in it.
    pub fn is_empty(self) -> bool {
        self.0 == 0
    }

    /// The bits in the order of the sources, TLIP last.
    pub fn bits(self) -> impl Iterator<Item = Bit> {
        (0..=MOST_SOURCES).map(Bit::at).filter(move |bit| self.has(*bit))
    }
}

#[cfg(test)]
mod tests {
    use super::*;

    fn these(bits: &[Bit]) -> Pending {
        Pending(bits.iter().fold(0, |set, bit| set | 1 << bit.index()))
    }

    #[test]
    fn sets() {
        let channel =
            Channel { page: 9, idcr: 240, ivr: 241, dcpr: 242, dapr: 243, data: 244, direction: 0 };
        let mut image = [0; st9::IMAGE_LENGTH];
        assert!(Pending::of(&image, &[channel]).is_empty());
        image[243] = 0x82;
        image[230] = 0x40;
        image[st9::place(9, 240)] = 0x20;
        let bits = [Bit::Of(Source(1)), Bit::Of(Source(7)), Bit::Of(Source(8)), Bit::Tlip];
        let pending = Pending::of(&image, &[channel]);
        assert_eq!(pending.bits().collect::<Vec<_>>(), bits);
        assert_eq!(pending, these(&bits));
        assert_eq!(pending.without(these(&bits[1..])), these(&bits[..1]));
    }
}
