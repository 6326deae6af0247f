//! What a list that is laid out once a call could get wrong (request §3): every register of every page; and every choice of IP, DM and IM of three records
//! and of EIPR and EIMR of two external channels, at eighteen choices of CICR and levels. With `--nocapture` the counts are printed.

use differential::{generate, Pair, Random};
use model::{paged, word, Channel, IMAGE_LENGTH};
use st9::{idcr, register, sys};
use std::collections::HashSet;

/// The lists whose registers are all read and written.
const LISTS: usize = 400;

/// What was met of registers of pages.
#[derive(Debug, Default)]
struct Registers {
    /// Lists in which records share a page, and lists of twelve records on pages of their own.
    shared: usize,
    apart: usize,
    /// Reads and writes that were answered, and those refused with 3: on a page with records, on one without, on page 0.
    answered: usize,
    beside_records: usize,
    without_records: usize,
    on_page_0: usize,
}

#[test]
fn every_register_of_every_page() {
    let mut random = Random::new(31);
    let mut met = Registers::default();
    for number in 0..LISTS {
        let count = random.below(13) as usize;
        let mut channels = generate::list(&mut random, count);
        if number % 4 == 0 {
            channels = each_on_a_page_of_its_own(&mut random);
        }
        let pages: HashSet<u8> = channels.iter().map(|channel| channel.page).collect();
        met.shared += usize::from(pages.len() < channels.len());
        met.apart += usize::from(pages.len() == 12);
        let image = generate::image(&mut random, &channels, 0);
        let list = generate::bytes(&channels);
        let mut pair = Pair::new(format!("list {number}"), &image, &list, &[]);
        for page in 0..64 {
            pair.step(word::write(register::PPR.into(), 4 * page));
            for number in 240..=255 {
                let value = random.byte();
                for step in [word::read(number), word::write(number, value)] {
                    let answer = pair.step(step);
                    let of = match (answer.refusal, page, pages.contains(&page)) {
                        (0, ..) => &mut met.answered,
                        (_, 0, _) => &mut met.on_page_0,
                        (.., true) => &mut met.beside_records,
                        (.., false) => &mut met.without_records,
                    };
                    *of += 1;
                }
            }
        }
    }
    println!("{met:?}");
    let Registers { shared, apart, answered, beside_records, without_records, on_page_0 } = met;
    assert_eq!(answered + beside_records + without_records + on_page_0, 2 * 16 * 64 * LISTS);
    assert_eq!(on_page_0, 2 * 10 * LISTS);
    for count in [shared, apart, answered, beside_records, without_records] {
        assert!(count > LISTS / 10);
    }
}

/// Twelve records, no two on one page, their registers anywhere on it.
fn each_on_a_page_of_its_own(random: &mut Random) -> Vec<Channel> {
    let first = random.between(1, 52);
    let record = |k: u8| {
        let at = |q: u8| 240 + (first + 3 * k + 5 * q) % 16;
        Channel {
            page: first + k,
            idcr: at(0),
            ivr: at(1),
            dcpr: at(2),
            dapr: at(3),
            data: at(4),
            direction: k % 2,
        }
    };
    (0..12).map(record).collect()
}

/// What was met of arbitrations.
#[derive(Debug, Default)]
struct Arbitrations {
    /// None: nothing is pending; all that is pending is masked; the bits gathered over all records would allow a request, no record has them together;
    /// something requests, but nothing is eligible.
    nothing_pending: usize,
    masked: usize,
    bits_of_several: usize,
    not_eligible: usize,
    /// A winner: an external channel, a record's interrupt, a transfer.
    external: usize,
    record: usize,
    transfer: usize,
}

#[test]
fn every_request_of_three_records_and_two_channels() {
    let channels = three_records();
    let list = generate::bytes(&channels);
    let mut met = Arbitrations::default();
    let mut made = 0;
    for cicr in [0x80, 0x87, 0x90, 0x91, 0x96, 0x97] {
        for (eiplr, levels) in [(0xFF, [6, 6, 6]), (0xFD, [0, 7, 3]), (0x00, [1, 0, 0])] {
            for externals in 0..16 {
                for bits in 0..512 {
                    let (eipr, eimr) = (externals % 4, externals / 4);
                    let idcrs = [0, 1, 2]
                        .map(|k| ((bits >> (3 * k)) % 8) << 3 | levels[k])
                        .map(|b| b as u8);
                    let image = image(cicr, eiplr, eipr, eimr, &channels, idcrs);
                    let name = format!("CICR {cicr:02X}h, EIPLR {eiplr:02X}h, {externals}, {bits}");
                    let answer = Pair::new(name, &image, &list, &[]).step(word::arbitrate());
                    *met.of(answer, eipr, eipr & eimr, idcrs) += 1;
                    made += 1;
                }
            }
        }
    }
    println!("{met:?}");
    assert_eq!(made, 6 * 3 * 16 * 512);
    assert!(met.counts().iter().all(|count| *count > 100));
    assert_eq!(met.counts().iter().sum::<usize>(), made);
}

impl Arbitrations {
    /// The count that an answer goes to, by what is pending, what of the external channels requests, and the IDCRs.
    fn of(&mut self, answer: sys::Answer, eipr: u8, requesting: u8, idcrs: [u8; 3]) -> &mut usize {
        let may = |b: u8| b & idcr::IP != 0 && b & (idcr::DM | idcr::IM) != 0;
        let gathered = idcrs.into_iter().fold(0, |a, b| a | b);
        match (answer.kind, answer.first) {
            (sys::INTERRUPT, 0..8) => &mut self.external,
            (sys::INTERRUPT, _) => &mut self.record,
            (sys::TRANSFERRED, _) => &mut self.transfer,
            (sys::NOTHING, _) if eipr == 0 && gathered & idcr::IP == 0 => &mut self.nothing_pending,
            (sys::NOTHING, _) if requesting == 0 && !may(gathered) => &mut self.masked,
            (sys::NOTHING, _) if requesting == 0 && !idcrs.into_iter().any(may) => {
                &mut self.bits_of_several
            }
            (sys::NOTHING, _) => &mut self.not_eligible,
            _ => panic!("{answer:?}"),
        }
    }

    fn counts(&self) -> [usize; 7] {
        let none = [self.nothing_pending, self.masked, self.bits_of_several, self.not_eligible];
        let [a, b, c, d] = none;
        [a, b, c, d, self.external, self.record, self.transfer]
    }
}

/// The first and the third record share page 9; the second is on page 63.
fn three_records() -> Vec<Channel> {
    let record = |page, first: u8| Channel {
        page,
        idcr: first,
        ivr: first + 1,
        dcpr: first + 2,
        dapr: first + 3,
        data: first + 4,
        direction: 0,
    };
    vec![record(9, 240), record(63, 251), record(9, 245)]
}

/// An image with these bytes; a transfer has the pair R16, R17, five bytes from R20 on.
fn image(cicr: u8, eiplr: u8, eipr: u8, eimr: u8, channels: &[Channel], idcrs: [u8; 3]) -> Vec<u8> {
    let mut image = vec![0; IMAGE_LENGTH];
    let named = [
        (register::CICR, cicr),
        (register::EIPLR, eiplr),
        (register::EIPR, eipr),
        (register::EIMR, eimr),
        (16, 20),
        (17, 5),
    ];
    for (register, byte) in named {
        image[usize::from(register)] = byte;
    }
    for (channel, idcr) in channels.iter().zip(idcrs) {
        image[paged(channel.page, channel.idcr)] = idcr;
        image[paged(channel.page, channel.dcpr)] = 0x11;
    }
    image
}
