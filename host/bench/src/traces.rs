//! The situations, each a trace whose steps leave it as it is, but the mixed one. None of the steps is refused.

use crate::shift::Shift;
use differential::generate;
use model::{paged, word, Channel, IMAGE_LENGTH};
use st9::register::{CICR, EIMR, EIPLR, EIPR, EIVR, PPR};
use st9::{cicr, idcr, place};

/// The steps of a trace that is one run, and of one in single calls.
const STEPS: usize = 30_000;
const SINGLE_STEPS: usize = 3_000;

/// How the steps are done.
#[derive(Clone, Copy)]
pub enum Calls {
    /// All in one run.
    Run,
    /// Each by a call of its own, which checks the channel list anew.
    Single,
}

/// What is lent beside the channel list, and changed by the steps.
#[derive(Clone)]
pub struct Lent {
    pub image: Vec<u8>,
    pub memory: Vec<u8>,
}

/// A start and the steps from it.
pub struct Trace {
    pub name: &'static str,
    pub note: String,
    pub lent: Lent,
    pub channels: Vec<Channel>,
    /// The bytes of the channels.
    pub list: Vec<u8>,
    pub words: Vec<u64>,
    pub calls: Calls,
}

/// The rows of the tables. The last two are the same but for the memory, and compared.
pub const SITUATIONS: [fn() -> Trace; 14] = [
    nothing_requests,
    all_masked,
    one_masked,
    last_record,
    without_arbitration,
    all_twenty,
    read,
    write,
    mixed,
    single_arbitration,
    single_arbitration_without_records,
    single_read_without_records,
    transfers_of_registers,
    transfers_of_memory,
];

/// Twelve records, four pages with three each.
pub fn channels() -> Vec<Channel> {
    let record = |k: u8| {
        let first = 240 + 5 * (k % 3);
        Channel {
            page: 9 + k / 3,
            idcr: first,
            ivr: first + 1,
            dcpr: first + 2,
            dapr: first + 3,
            data: first + 4,
            direction: k % 2,
        }
    };
    (0..12).map(record).collect()
}

/// Interrupts enabled at CPL 7 in concurrent mode, all external channels unmasked and none pending, every record with this IDCR.
fn image_with(channels: &[Channel], idcr: u8) -> Vec<u8> {
    let mut image = vec![0; IMAGE_LENGTH];
    image[place(0, CICR)] = cicr::GCEN | cicr::IEN | 7;
    image[place(0, EIMR)] = 0xFF;
    image[place(0, EIPLR)] = 0xE4;
    image[place(0, EIVR)] = 0x46;
    for channel in channels {
        image[paged(channel.page, channel.idcr)] = idcr;
    }
    image
}

/// The same, every record without a request, its interrupt unmasked at level 6.
pub fn quiet_image(channels: &[Channel]) -> Vec<u8> {
    image_with(channels, idcr::IM | 6)
}

/// A run with the twelve records and no memory.
fn run(name: &'static str, note: &str, image: Vec<u8>, words: Vec<u64>) -> Trace {
    let channels = channels();
    let list = generate::bytes(&channels);
    let lent = Lent { image, memory: Vec::new() };
    Trace { name, note: note.to_string(), lent, channels, list, words, calls: Calls::Run }
}

/// A trigger, the arbitration that acknowledges its source, and the return, which sets IEN again.
fn rounds(trigger: u64) -> Vec<u64> {
    let round = [trigger, word::arbitrate(), word::return_from()];
    round.repeat(STEPS / round.len())
}

fn nothing_requests() -> Trace {
    let note = "arbitrations, interrupts enabled, all unmasked, nothing pending";
    let words = vec![word::arbitrate(); STEPS];
    run("nothing requests", note, quiet_image(&channels()), words)
}

fn all_masked() -> Trace {
    let note = "arbitrations, every record with IP = 1, DM = IM = 0, no external channel pending";
    let words = vec![word::arbitrate(); STEPS];
    run("twelve pending, all masked", note, image_with(&channels(), idcr::IP | 6), words)
}

/// A pending record that is masked beside records that are unmasked and not pending: nothing requests, but their bits together look as if.
fn one_masked() -> Trace {
    let note =
        "arbitrations, the last record with IP = 1, DM = IM = 0, the others with IP = 0, IM = 1";
    let channels = channels();
    let mut image = quiet_image(&channels);
    image[paged(channels[11].page, channels[11].idcr)] = idcr::IP | 6;
    run("one pending, masked, beside eleven idle", note, image, vec![word::arbitrate(); STEPS])
}

fn last_record() -> Trace {
    let note = "[request 11, arbitrate, return] repeated, interrupt of the last record at level 6, CPL 7; all three steps count";
    run("last record", note, quiet_image(&channels()), rounds(word::request(11)))
}

/// The round of the last record without its arbitration: three times the row before less twice this one is the arbitration alone.
fn without_arbitration() -> Trace {
    let note = "[request 11, return] repeated";
    let round = [word::request(11), word::return_from()];
    run(
        "last record, without the arbitration",
        note,
        quiet_image(&channels()),
        round.repeat(STEPS / 2),
    )
}

/// The level of an odd external channel is odd, so with EIPLR FFh four of the twenty are at level 7. Source 0 comes first and wins each time: its own
/// trigger must be the one that is repeated, for a request of record 11 would let the others be served one by one.
fn all_twenty() -> Trace {
    let note = "[edge of pin 0, arbitrate, return] repeated, CPL 7; all twenty request at each arbitration, the records and the even external channels at \
                level 6, the odd ones at 7, which is as near as they come and not eligible; source 0 wins";
    let mut image = image_with(&channels(), idcr::IP | idcr::IM | 6);
    image[place(0, EIPLR)] = 0xFF;
    image[place(0, EIPR)] = 0xFE;
    run("all twenty at level 6", note, image, rounds(word::pin_edge(0, 0)))
}

/// An image in which PPR selects the page of the last record, and the record's data register.
fn last_register() -> (Vec<u8>, u32) {
    let channels = channels();
    let last = channels[11];
    let mut image = quiet_image(&channels);
    image[place(0, PPR)] = last.page << 2;
    (image, last.data.into())
}

fn read() -> Trace {
    let (image, register) = last_register();
    let words = vec![word::read(register); STEPS];
    run("read of the last record's register", "its data register", image, words)
}

fn write() -> Trace {
    let (image, register) = last_register();
    let words = vec![word::write(register, 0x5A); STEPS];
    run("write of the last record's register", "its data register", image, words)
}

fn mixed() -> Trace {
    let words = Shift::words(STEPS);
    let note = format!("a shift of all kinds of steps; {}", shares(&words));
    run("mixed", &note, Shift::image(), words)
}

/// How many steps of each kind there are, in words.
fn shares(words: &[u64]) -> String {
    let names = ["reads", "writes", "triggers", "arbitrations", "returns", "resets"];
    let share = |(kind, name): (u64, &str)| {
        let count = words.iter().filter(|word| **word >> 48 == kind).count();
        format!("{name} {:.2} %", 100.0 * count as f64 / words.len() as f64)
    };
    let shares: Vec<String> = (0..).zip(names).map(share).collect();
    shares.join(", ")
}

/// A step in single calls where nothing requests.
fn single(name: &'static str, channels: Vec<Channel>, word: u64) -> Trace {
    Trace {
        name,
        note: "single calls, nothing requests".to_string(),
        lent: Lent { image: quiet_image(&channels), memory: Vec::new() },
        list: generate::bytes(&channels),
        channels,
        words: vec![word; SINGLE_STEPS],
        calls: Calls::Single,
    }
}

fn single_arbitration() -> Trace {
    single("one call: arbitration, twelve records", channels(), word::arbitrate())
}

fn single_arbitration_without_records() -> Trace {
    single("one call: arbitration, no record", Vec::new(), word::arbitrate())
}

fn single_read_without_records() -> Trace {
    single("one call: read of R20, no record", Vec::new(), word::read(20))
}

/// The transfers of a trace of them, and how many are done before R16 and R17 are written again.
const TRANSFERS: usize = 1_000_000;
const ROUND: usize = 125;

/// The record of those traces, the last whose direction is 0, into the register file or the memory.
const MOVING: u32 = 10;

/// Requests of a record and arbitrations that serve it, a transfer each. R16 and R17 are its pair in the register file, so that the address must go back
/// before it is over 223; with memory they are its counter, and the address, which goes round by itself, is R18 and R19. Neither counter comes to 0, so
/// that DM stays set: the steps are the same, and so is the image but for DCPR.
fn transfers(name: &'static str, note: &str, dcpr: u8, memory: Vec<u8>) -> Trace {
    let moving = channels()[MOVING as usize];
    let mut image = quiet_image(&channels());
    let pointers = [(moving.idcr, idcr::DM | 6), (moving.dcpr, dcpr), (moving.dapr, 18)];
    for (register, byte) in pointers.into_iter().chain([(moving.data, 0x5A)]) {
        image[paged(moving.page, register)] = byte;
    }
    let mut round = vec![word::write(16, 32), word::write(17, 200)];
    round.extend([word::request(MOVING), word::arbitrate()].repeat(ROUND));
    let trace = run(name, note, image, round.repeat(TRANSFERS / ROUND));
    Trace { lent: Lent { memory, ..trace.lent }, ..trace }
}

fn transfers_of_registers() -> Trace {
    let note = "[write R16, write R17, 125 times [request 10, arbitrate]] 8,000 times, DMA of that record at level 6 into R32 and on";
    transfers("a million transfers, register file", note, 17, Vec::new())
}

fn transfers_of_memory() -> Trace {
    let note = "the same steps, its DCPR even: into a memory of 65,536 bytes, round and round";
    transfers("a million transfers, memory", note, 16, vec![0; st9::MOST_MEMORY])
}
