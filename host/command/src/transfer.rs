//! The DMA transfer that an arbitration comes to, told from the registers before it.

use crate::lent::Lent;
use crate::memory::address;
use crate::names::{Names, Place};
use st9::text::{counted, hex};
use st9::{idcr, Channel, Refusal, Source};

/// The last register of the register file.
const LAST: u8 = 223;

/// A record's pointers as they stand in an image.
struct Pointers<'a> {
    image: &'a [u8],
    dcpr: u8,
    dapr: u8,
}

impl Pointers<'_> {
    fn of<'a>(image: &'a [u8], channel: &Channel) -> Pointers<'a> {
        let byte = |register: u8| byte(image, Place::of(channel.page, register).0);
        Pointers { image, dcpr: byte(channel.dcpr), dapr: byte(channel.dapr) }
    }

    /// The address in the memory; none where the transfer is one of the register file, or a pointer is too large.
    fn address(&self) -> Option<usize> {
        let memory = self.dcpr & 1 == 0 && self.dcpr <= LAST && self.dapr <= LAST;
        let pair = usize::from(self.dapr & !1);
        let word = [byte(self.image, pair), byte(self.image, pair + 1)];
        memory.then(|| u16::from_be_bytes(word).into())
    }

    /// The pointer that is too large: DCPR's pair, DAPR's, or the address in the register file.
    fn too_large(&self) -> Option<String> {
        let pair = |name: &str, stored: u8| {
            let (first, second) = (stored & !1, stored | 1);
            let names = format!("{name} {} names R{first} and R{second}", hex(stored));
            (stored > LAST).then_some(names)
        };
        let of_dcpr = pair("DCPR", self.dcpr);
        if self.dcpr & 1 == 0 {
            return of_dcpr.or_else(|| pair("DAPR", self.dapr));
        }
        let first = self.dcpr & !1;
        let file = byte(self.image, first.into());
        let address = format!("address {} in R{first}", hex(file));
        of_dcpr.or((file > LAST).then_some(address))
    }
}

fn byte(image: &[u8], place: usize) -> u8 {
    image.get(place).copied().unwrap_or_default()
}

/// The byte of the memory that a transfer of a record moves; none where it is one of the register file.
pub(crate) fn memory_address(image: &[u8], channel: &Channel) -> Option<usize> {
    Pointers::of(image, channel).address()
}

/// Why an arbitration was refused with 5 or 6: the winner's address or pointer.
pub(crate) fn refused(
    refusal: Refusal,
    lent: &Lent,
    channels: &[Channel],
    names: &Names,
) -> Option<String> {
    let (record, channel) = winner(&lent.image, channels)?;
    let pointers = Pointers::of(&lent.image, channel);
    let why = match refusal {
        Refusal::Address => {
            let has = match lent.memory.len() as u64 {
                0 => "no memory is lent".to_string(),
                length => format!("the memory has {}", counted(length, "byte")),
            };
            format!("address {}, and {has}", address(pointers.address()?))
        }
        Refusal::Pointer => pointers.too_large()?,
        _ => return None,
    };
    Some(format!("{}: {why}", names.told(Source::channel(record as u32))))
}

/// The record whose transfer is refused. It was eligible, so that every request for DMA at its level or a higher one
/// is: the first of the highest level has won.
fn winner<'a>(image: &[u8], channels: &'a [Channel]) -> Option<(usize, &'a Channel)> {
    let idcr = |channel: &Channel| byte(image, Place::of(channel.page, channel.idcr).0);
    let requests = |channel: &Channel| idcr(channel) & (idcr::IP | idcr::DM) == idcr::IP | idcr::DM;
    let records = channels.iter().enumerate();
    records
        .filter(|(_, channel)| requests(channel))
        .min_by_key(|(_, channel)| idcr(channel) & idcr::PRL)
}
