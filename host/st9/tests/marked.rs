//! Document 01's marked examples C01 to C13 through the safe wrapper, and transfers with a memory; whole images and
//! memories are compared.

use st9::register::{CICR, EIMR, EIPLR, EIPR, EIVR, MODER, NICR};
use st9::{place, step, Answer, Channel, Edge, Effect, Refusal, Source, Step, IMAGE_LENGTH, MARK};

const IDCR: usize = place(9, 240);
const DCPR: usize = place(9, 242);
const DAPR: usize = place(9, 243);
const DATA: usize = place(9, 244);

const RECORD: Channel =
    Channel { page: 9, idcr: 240, ivr: 241, dcpr: 242, dapr: 243, data: 244, direction: 0 };

/// An image, a channel list and a memory that steps are done on.
struct Part {
    image: Vec<u8>,
    channels: Vec<Channel>,
    memory: Vec<u8>,
}

impl Part {
    /// EIVR 46h and the registers given, all else 0.
    fn new(registers: &[(u8, u8)]) -> Part {
        let (image, channels, memory) = (vec![0; IMAGE_LENGTH], Vec::new(), Vec::new());
        let mut part = Part { image, channels, memory };
        part.image[place(0, EIVR)] = 0x46;
        part.put(registers);
        part
    }

    fn put(&mut self, registers: &[(u8, u8)]) {
        for (register, byte) in registers {
            self.image[place(0, *register)] = *byte;
        }
    }

    /// C09's record, with its IDCR and the pair R16 and R17.
    fn with_record(mut self, idcr: u8, address: u8, counter: u8) -> Part {
        self.channels.push(RECORD);
        for (register, byte) in [(240, idcr), (242, 0x11), (244, 0x5A)] {
            self.image[place(9, register)] = byte;
        }
        self.put(&[(16, address), (17, counter)]);
        self
    }

    /// The same with the counter's pair R16 and R17, the address's R18 and R19, and a memory of so many bytes A5h.
    fn with_memory(mut self, idcr: u8, counter: u16, address: u16, length: usize) -> Part {
        let (counter, address) = (counter.to_be_bytes(), address.to_be_bytes());
        self = self.with_record(idcr, counter[0], counter[1]);
        self.put(&[(18, address[0]), (19, address[1])]);
        self.image[DCPR] = 0x10;
        self.image[DAPR] = 0x12;
        self.memory = vec![0xA5; length];
        self
    }

    /// Does a step, and checks its answer and that it changed the bytes given and no other.
    fn check(&mut self, done: Step, answer: Result<Answer, Refusal>, changed: &[(usize, u8)]) {
        self.check_both(done, answer, changed, &[]);
    }

    /// The same, with the bytes of the memory that it changed.
    fn check_both(
        &mut self,
        done: Step,
        answer: Result<Answer, Refusal>,
        changed: &[(usize, u8)],
        moved: &[(usize, u8)],
    ) {
        let (mut image, mut memory) = (self.image.clone(), self.memory.clone());
        changed.iter().for_each(|(index, byte)| image[*index] = *byte);
        moved.iter().for_each(|(index, byte)| memory[*index] = *byte);
        assert_eq!(step(&mut self.image, &self.channels, &mut self.memory, done), answer);
        assert_eq!(self.image, image);
        assert!(self.memory == memory);
    }
}

fn interrupt(source: Source, level: u8, vector: u8) -> Result<Answer, Refusal> {
    Ok(Answer::Interrupt { source, level, vector })
}

const fn byte_of(register: u8) -> usize {
    place(0, register)
}

#[test]
fn c01_reset() {
    let mut part = Part::new(&[(EIVR, 0)]);
    let changed =
        [(byte_of(CICR), 0x87), (byte_of(MODER), 0xE0), (byte_of(EIPLR), 0xFF), (byte_of(EIVR), 6)];
    part.check(Step::Reset, Ok(Answer::Reset), &changed);
}

#[test]
fn c02_raised_then_merged() {
    let mut part = Part::new(&[]);
    let edge = Step::Pin { pin: 1, edge: Edge::Falling };
    let told = |maskable| Ok(Answer::Triggered { maskable, tlip: Effect::NotSelected });
    part.check(edge, told(Effect::Raised), &[(byte_of(EIPR), 0x02)]);
    part.check(edge, told(Effect::Merged), &[]);
}

#[test]
fn c03_c04_one_after_the_other() {
    let mut part = Part::new(&[(CICR, 0x97), (EIPR, 0x03), (EIMR, 0x03), (EIPLR, 0xFC)]);
    let (cicr, eipr) = (byte_of(CICR), byte_of(EIPR));
    part.check(Step::Arbitrate, interrupt(Source::INTA0, 0, 0x40), &[(cicr, 0x87), (eipr, 0x02)]);
    part.check(Step::Return, Ok(Answer::Returned), &[(cicr, 0x97)]);
    part.check(Step::Arbitrate, interrupt(Source::INTA1, 1, 0x42), &[(cicr, 0x87), (eipr, 0x00)]);
}

#[test]
fn c05_nested() {
    let mut part = Part::new(&[(CICR, 0x9C), (EIPR, 0x01), (EIMR, 0x01), (EIPLR, 0xFC)]);
    let (cicr, eipr, nicr) = (byte_of(CICR), byte_of(EIPR), byte_of(NICR));
    let changed = [(cicr, 0x88), (eipr, 0x00), (nicr, 0x10)];
    part.check(Step::Arbitrate, interrupt(Source::INTA0, 0, 0x40), &changed);
    part.check(Step::Return, Ok(Answer::Returned), &[(cicr, 0x9C), (nicr, 0x00)]);
}

#[test]
fn c06_c07_levels() {
    let mut part = Part::new(&[(CICR, 0x97), (EIPLR, 0xFF), (EIMR, 0xFF), (EIPR, 0x80)]);
    part.check(Step::Arbitrate, Ok(Answer::Nothing), &[]);
    part.put(&[(EIPR, 0x40)]);
    let changed = [(byte_of(CICR), 0x87), (byte_of(EIPR), 0)];
    part.check(Step::Arbitrate, interrupt(Source::INTD0, 6, 0x4C), &changed);

    let mut part = Part::new(&[(CICR, 0x92), (EIPLR, 0xFD), (EIPR, 0x01), (EIMR, 0x01)]);
    part.check(Step::Arbitrate, Ok(Answer::Nothing), &[]);
    part.put(&[(CICR, 0x93)]);
    let changed = [(byte_of(CICR), 0x83), (byte_of(EIPR), 0)];
    part.check(Step::Arbitrate, interrupt(Source::INTA0, 2, 0x40), &changed);
}

#[test]
fn c08_top_level() {
    let mut part = Part::new(&[(CICR, 0xC7), (NICR, 0x80)]);
    let top_level = Ok(Answer::TopLevel { vector: 0x04 });
    part.check(Step::Arbitrate, top_level, &[(byte_of(CICR), 0x87), (MARK, 1)]);
    part.check(Step::Arbitrate, Ok(Answer::Nothing), &[]);
    part.check(Step::Return, Ok(Answer::Returned), &[(MARK, 0)]);
}

#[test]
fn c09_c10_transfers() {
    let source = Source::channel(0);
    let idcr = place(9, 240);
    let mut part = Part::new(&[(CICR, 0x87)]).with_record(0x3A, 20, 1);
    let ended = Ok(Answer::Transferred { source, ended: true });
    part.check(Step::Arbitrate, ended, &[(20, 0x5A), (16, 21), (17, 0), (idcr, 0x2A)]);

    let mut part = Part::new(&[(CICR, 0x87)]).with_record(0x32, 223, 0);
    let moved = Ok(Answer::Transferred { source, ended: false });
    part.check(Step::Arbitrate, moved, &[(223, 0x5A), (16, 224), (17, 255), (idcr, 0x12)]);
    let raised = Answer::Triggered { maskable: Effect::Raised, tlip: Effect::NotSelected };
    part.check(Step::Request { record: 0 }, Ok(raised), &[(idcr, 0x32)]);
    part.check(Step::Arbitrate, Err(Refusal::Pointer), &[]);
}

#[test]
fn c11_dma_first() {
    let registers = [(CICR, 0x97), (EIPLR, 0xFD), (EIPR, 0x01), (EIMR, 0x01)];
    let mut part = Part::new(&registers).with_record(0x3A, 20, 1);
    let ended = Ok(Answer::Transferred { source: Source::channel(0), ended: true });
    let changed = [(20, 0x5A), (16, 21), (17, 0), (place(9, 240), 0x2A)];
    part.check(Step::Arbitrate, ended, &changed);
}

#[test]
fn c12_c13_writes() {
    let mut part = Part::new(&[(EIPR, 0x03), (NICR, 0x80)]);
    let eipr = Step::write(EIPR, 0x01);
    part.check(eipr, Ok(Answer::Written { erased: 0x02 }), &[(byte_of(EIPR), 0x01)]);
    let nicr = Step::write(NICR, 0x00);
    part.check(nicr, Ok(Answer::Written { erased: 0x00 }), &[]);
}

fn moved(ended: bool) -> Result<Answer, Refusal> {
    Ok(Answer::Transferred { source: Source::channel(0), ended })
}

/// An arbitration of C09's record with its DMA in memory, after a change of the image.
fn transfer(part: Part, change: impl FnOnce(&mut Part)) -> (Part, Result<Answer, Refusal>) {
    let mut part = part;
    change(&mut part);
    let answer = step(&mut part.image, &part.channels, &mut part.memory, Step::Arbitrate);
    (part, answer)
}

/// C09 with memory: the byte, the address, the counter, the end of the block; and the last byte but one.
#[test]
fn into_memory() {
    let mut part = Part::new(&[(CICR, 0x87)]).with_memory(0x3A, 1, 5, 6);
    let changed = [(17, 0), (19, 6), (IDCR, 0x2A)];
    part.check_both(Step::Arbitrate, moved(true), &changed, &[(5, 0x5A)]);
    let mut part = Part::new(&[(CICR, 0x87)]).with_memory(0x3A, 0x0100, 0x01FF, 0x200);
    let changed = [(16, 0), (17, 0xFF), (18, 2), (19, 0), (IDCR, 0x1A)];
    part.check_both(Step::Arbitrate, moved(false), &changed, &[(0x1FF, 0x5A)]);
}

#[test]
fn out_of_memory() {
    let mut part = Part::new(&[(CICR, 0x87)]).with_memory(0x32, 2, 5, 6);
    part.channels[0].direction = 1;
    part.memory[5] = 0xC3;
    let changed = [(17, 1), (19, 6), (IDCR, 0x12), (DATA, 0xC3)];
    part.check_both(Step::Arbitrate, moved(false), &changed, &[]);
}

/// Both wrap at 16 bits; a counter of 0 is 65,536 transfers.
#[test]
fn memory_wraps() {
    let mut part = Part::new(&[(CICR, 0x87)]).with_memory(0x3A, 0, 0xFFFF, st9::MOST_MEMORY);
    let changed = [(16, 0xFF), (17, 0xFF), (18, 0), (19, 0), (IDCR, 0x1A)];
    part.check_both(Step::Arbitrate, moved(false), &changed, &[(0xFFFF, 0x5A)]);
}

/// Where the pairs coincide, the byte goes to the address read first, and the counter stands. DAPR's bit 0 is nothing.
#[test]
fn memory_pairs_coincide() {
    let mut part = Part::new(&[(CICR, 0x87)]).with_memory(0x3A, 5, 0, 6);
    part.image[DAPR] = 0x11;
    part.check_both(Step::Arbitrate, moved(false), &[(17, 4), (IDCR, 0x1A)], &[(5, 0x5A)]);
}

/// 6 before 5: either pointer over 222; then an address that the memory does not have. Nothing changes.
#[test]
fn memory_refused() {
    let part = || Part::new(&[(CICR, 0x87)]).with_memory(0x3A, 1, 6, 6);
    let refused = |dcpr: u8, dapr: u8, length: usize| {
        let (part, answer) = transfer(part(), |part| {
            (part.image[DCPR], part.image[DAPR]) = (dcpr, dapr);
            part.memory.truncate(length);
        });
        let idcr = part.image[IDCR];
        assert!(answer.is_ok() || idcr == 0x3A && part.memory.iter().all(|byte| *byte == 0xA5));
        answer.err()
    };
    let rows = [
        (0x10, 0x12, 6, Some(Refusal::Address)),
        (0x10, 0x12, 0, Some(Refusal::Address)),
        (0x10, 0xDE, 6, None),
        (0x10, 0xDF, 6, None),
        (0xDE, 0x20, 6, None),
        (0x10, 0xE0, 6, Some(Refusal::Pointer)),
        (0x10, 0xE1, 6, Some(Refusal::Pointer)),
        (0xE0, 0x10, 0, Some(Refusal::Pointer)),
        (0xFE, 0x12, 0, Some(Refusal::Pointer)),
        (0xE0, 0xE0, 6, Some(Refusal::Pointer)),
    ];
    for (dcpr, dapr, length, refusal) in rows {
        assert_eq!(refused(dcpr, dapr, length), refusal, "{dcpr:02X} {dapr:02X} {length}");
    }
}
