//! The readings of request §1, blocks into memory. The numbers are those of the list of open points.

use model::*;

const CICR: usize = 230;
const EIPR: usize = 243;
const EIMR: usize = 244;
const EIPLR: usize = 245;
const NICR: usize = 247;
const IDCR: usize = 16 * 9 + 240;
const DCPR: usize = IDCR + 2;
const DAPR: usize = IDCR + 3;
const DATA: usize = IDCR + 4;

/// Page 9, R240 to R244, from the peripheral into memory.
const RECORD: Channel =
    Channel { page: 9, idcr: 240, ivr: 241, dcpr: 242, dapr: 243, data: 244, direction: 0 };

/// The same the other way.
const SENDING: Channel = Channel { direction: 1, ..RECORD };

/// CPL 7; the record requests DMA at level 2 with IM = 0, its counter in R16 and R17, its address in R18 and R19, its data 5Ah.
fn image(counter: u16, address: u16) -> Vec<u8> {
    let mut image = vec![0; IMAGE_LENGTH];
    let [high, low] = counter.to_be_bytes();
    let [address_high, address_low] = address.to_be_bytes();
    for (place, byte) in [
        (CICR, 0x87),
        (IDCR, 0x32),
        (DCPR, 0x10),
        (DAPR, 0x12),
        (DATA, 0x5A),
        (16, high),
        (17, low),
        (18, address_high),
        (19, address_low),
    ] {
        image[place] = byte;
    }
    image
}

/// The same with other pointers.
fn image_at(dcpr: u8, dapr: u8) -> Vec<u8> {
    let mut image = image(5, 0);
    (image[DCPR], image[DAPR]) = (dcpr, dapr);
    image
}

/// Bytes by their places.
type Stored<'a> = &'a [(usize, u8)];

/// A copy with these bytes stored.
fn with(bytes: &[u8], stored: Stored) -> Vec<u8> {
    let mut bytes = bytes.to_vec();
    for &(place, byte) in stored {
        bytes[place] = byte;
    }
    bytes
}

/// Asserts that an arbitration serves the record and what it leaves, whole.
fn served(
    (image, memory): (&[u8], &[u8]),
    channel: Channel,
    ended: bool,
    (stored, moved): (Stored, Stored),
) {
    let (mut after, mut memory_after) = (image.to_vec(), memory.to_vec());
    let answer = step(&mut after, &[channel], &mut memory_after, word::arbitrate());
    assert_eq!(answer, Answer::Transferred { source: 8, ended });
    assert_eq!(after, with(image, stored));
    assert_eq!(memory_after, with(memory, moved));
}

/// Asserts that an arbitration is refused and changes nothing.
fn refused(image: &[u8], memory: &[u8], refusal: Refusal) {
    for channel in [RECORD, SENDING] {
        let (mut after, mut memory_after) = (image.to_vec(), memory.to_vec());
        let answer = step(&mut after, &[channel], &mut memory_after, word::arbitrate());
        assert_eq!(answer, Answer::Refused(refusal));
        assert_eq!((after.as_slice(), memory_after.as_slice()), (image, memory));
    }
}

#[test]
fn from_the_peripheral() {
    let stored = [(17, 4), (19, 3), (IDCR, 0x12)];
    served((&image(5, 2), &[1, 2, 3, 4]), RECORD, false, (&stored, &[(2, 0x5A)]));
}

/// 1.7: memory is only read.
#[test]
fn to_the_peripheral() {
    let stored = [(17, 4), (19, 3), (IDCR, 0x12), (DATA, 3)];
    served((&image(5, 2), &[1, 2, 3, 4]), SENDING, false, (&stored, &[]));
}

/// High byte first in both pairs, with a carry and a borrow.
#[test]
fn both_bytes_of_a_pair() {
    let stored = [(16, 0x0F), (17, 0xFF), (18, 0x13), (19, 0x00), (IDCR, 0x12)];
    served((&image(0x1000, 0x12FF), &[7; 0x1300]), RECORD, false, (&stored, &[(0x12FF, 0x5A)]));
}

/// 1.1: the register path is refused with 6 only, whatever DAPR and the memory are.
#[test]
fn odd_dcpr_is_the_register_file() {
    let mut file = image_at(0x11, 0xFF);
    (file[16], file[17]) = (20, 1);
    let stored = [(16, 21), (17, 0), (20, 0x5A), (IDCR, 0x02)];
    served((&file, &[]), RECORD, true, (&stored, &[]));
    served((&file, &[9; 30]), RECORD, true, (&stored, &[]));
    refused(&image_at(0xE1, 0x12), &[9], Refusal::BadPointer);
    (file[16], file[17]) = (224, 1);
    refused(&file, &[9; 300], Refusal::BadPointer);
}

/// 1.1 and 1.2: either pointer over 222 is 6, before 5. Bit 0 of DAPR is ignored.
#[test]
fn pointers() {
    for (dcpr, dapr) in [(0xE0, 0x12), (0x10, 0xE0), (0x10, 0xE1), (0xE0, 0xE1), (0xFE, 0xFF)] {
        refused(&image_at(dcpr, dapr), &[], Refusal::BadPointer);
        refused(&image_at(dcpr, dapr), &[1], Refusal::BadPointer);
    }
    refused(&image_at(0x10, 0x12), &[], Refusal::BadAddress);
    let served_at = |dcpr, dapr, stored| {
        served((&image_at(dcpr, dapr), &[1]), RECORD, false, (stored, &[(0, 0x5A)]));
    };
    served_at(0xDE, 0x12, &[(222, 0xFF), (223, 0xFF), (19, 1), (IDCR, 0x12)]);
    for dapr in [0xDE, 0xDF] {
        served_at(0x10, dapr, &[(17, 4), (223, 1), (IDCR, 0x12)]);
    }
    served_at(0x10, 0x13, &[(17, 4), (19, 1), (IDCR, 0x12)]);
    served_at(0x00, 0x01, &[(0, 0xFF), (1, 0xFF), (IDCR, 0x12)]);
}

/// 1.3: where the pairs coincide the word read is address and counter, and the counter stands.
#[test]
fn coinciding_pairs() {
    for dapr in [0x10, 0x11] {
        let same = |counter| with(&image(counter, 0), &[(DAPR, dapr)]);
        let stored = [(17, 4), (IDCR, 0x12)];
        served((&same(5), &[9; 6]), RECORD, false, (&stored, &[(5, 0x5A)]));
        served((&same(1), &[9; 6]), RECORD, true, (&[(17, 0), (IDCR, 0x02)], &[(1, 0x5A)]));
        let wrapped = [(16, 0xFF), (17, 0xFF), (IDCR, 0x12)];
        served((&same(0), &[9; 6]), RECORD, false, (&wrapped, &[(0, 0x5A)]));
        refused(&same(6), &[9; 6], Refusal::BadAddress);
    }
}

/// 1.4: both wrap at 16 bits; a memory of 65,536 bytes makes every address good.
#[test]
fn wraps() {
    let memory = [3; MOST_MEMORY];
    let address = [(17, 1), (18, 0), (19, 0), (IDCR, 0x12)];
    served((&image(2, 0xFFFF), &memory), RECORD, false, (&address, &[(0xFFFF, 0x5A)]));
    let counter = [(16, 0xFF), (17, 0xFF), (19, 8), (IDCR, 0x12)];
    served((&image(0, 7), &memory), RECORD, false, (&counter, &[(7, 0x5A)]));
    let both = [(16, 0xFF), (17, 0xFF), (18, 0), (19, 0), (IDCR, 0x12), (DATA, 3)];
    served((&image(0, 0xFFFF), &memory), SENDING, false, (&both, &[]));
    // The low byte alone doesn't end a block.
    let low = [(17, 0), (19, 8), (IDCR, 0x12)];
    served((&image(0x0101, 7), &memory), RECORD, false, (&low, &[(7, 0x5A)]));
}

#[test]
fn addresses_and_the_length() {
    for length in [1, 2, 300, 65_535, 65_536_usize] {
        let last = (length - 1) as u16;
        let [high, low] = last.wrapping_add(1).to_be_bytes();
        let stored = [(17, 4), (18, high), (19, low), (IDCR, 0x12)];
        let memory = vec![9; length];
        served((&image(5, last), &memory), RECORD, false, (&stored, &[(length - 1, 0x5A)]));
        if length < MOST_MEMORY {
            refused(&image(5, last + 1), &memory, Refusal::BadAddress);
            refused(&image(5, 0xFFFF), &memory, Refusal::BadAddress);
        }
    }
    refused(&image(5, 0), &[], Refusal::BadAddress);
}

/// 1.8: the end of a block as in the register file. IDCR's absent bits stay.
#[test]
fn end_of_a_block() {
    for (idcr, after) in [(0x32, 0x02), (0x3A, 0x2A), (0xF2, 0xC2), (0xFA, 0xEA)] {
        let stored = [(17, 0), (19, 1), (IDCR, after)];
        let start = with(&image(1, 0), &[(IDCR, idcr)]);
        served((&start, &[9]), RECORD, true, (&stored, &[(0, 0x5A)]));
        let stored = [(17, 1), (19, 1), (IDCR, idcr & !0x20)];
        let start = with(&image(2, 0), &[(IDCR, idcr)]);
        served((&start, &[9]), RECORD, false, (&stored, &[(0, 0x5A)]));
    }
}

/// The mark, the top level and a better request come before the refusals of a winner.
#[test]
fn only_the_winner_is_refused() {
    let bad = image(5, 0);
    for (stored, answer) in [
        (vec![(MARK, 7)], Answer::Nothing),
        (vec![(CICR, 0xC7), (NICR, 0x80)], Answer::TopLevel { vector: 4 }),
        (vec![(CICR, 0x82)], Answer::Nothing),
        (
            vec![(CICR, 0x97), (EIPR, 1), (EIMR, 1), (EIPLR, 0xFC)],
            Answer::Interrupt { source: 0, level: 0, vector: 0 },
        ),
    ] {
        let mut image = with(&bad, &stored);
        assert_eq!(step(&mut image, &[RECORD], &mut [], word::arbitrate()), answer);
    }
    // At one level DMA comes first, and is refused.
    let first = [(CICR, 0x97), (EIPR, 1), (EIMR, 1), (EIPLR, 0xFD)];
    refused(&with(&bad, &first), &[], Refusal::BadAddress);
}

/// One word of each kind, and one of none.
fn words() -> Vec<u64> {
    let triggers = [word::pin_edge(1, 0), word::watchdog(), word::nmi_edge(0), word::request(0)];
    let others = [word::read(0), word::write(0, 1), word::arbitrate(), word::return_from()];
    [&triggers[..], &others, &[word::reset(), word::word(9, 0, 0, 0)]].concat()
}

/// 1.5, 1.5a and X-2: a memory over 65,536 bytes is 8 in each call, whatever its steps, after 1 and 2.
#[test]
fn a_memory_over_the_limit() {
    let start = image(5, 0);
    for length in [65_537, 65_538, 131_072] {
        let mut memory = vec![9; length];
        let mut image = start.clone();
        for word in words() {
            let answer = step(&mut image, &[RECORD], &mut memory, word);
            assert_eq!(answer, Answer::Refused(Refusal::BadMemory));
            let ran = run(&mut image, &[RECORD], &mut memory, &[word]);
            assert_eq!(ran, Ran::RefusedCall(Refusal::BadMemory));
        }
        assert_eq!(run(&mut image, &[], &mut memory, &[]), Ran::RefusedCall(Refusal::BadMemory));
        for source in [0, 8, 9, 99] {
            let waited = wait(&mut image, &[RECORD], &mut memory, source, &[]);
            assert_eq!(waited, Waited::RefusedCall(Refusal::BadMemory));
        }
        assert_eq!((image, memory), (start.clone(), vec![9; length]));
    }
}

#[test]
fn one_and_two_before_eight() {
    let mut memory = vec![9; 65_537];
    let mut good = image(5, 0);
    let mut check = |image: &mut [u8], channels: &[Channel], refusal| {
        let answer = step(image, channels, &mut memory, word::arbitrate());
        assert_eq!(answer, Answer::Refused(refusal));
        assert_eq!(run(image, channels, &mut memory, &[]), Ran::RefusedCall(refusal));
        let waited = wait(image, channels, &mut memory, 99, &[]);
        assert_eq!(waited, Waited::RefusedCall(refusal));
    };
    check(&mut good[1..], &[RECORD], Refusal::BadLength);
    check(&mut good[1..], &[RECORD, RECORD], Refusal::BadLength);
    check(&mut good, &[RECORD, RECORD], Refusal::BadList);
    check(&mut good, &[RECORD], Refusal::BadMemory);
}

/// 1.5: without steps, or with steps that use none, a good memory changes nothing.
#[test]
fn steps_beside_a_memory() {
    for length in [0, 1, MOST_MEMORY] {
        let mut memory = vec![9; length];
        for word in words().into_iter().filter(|word| *word != word::arbitrate()) {
            let (mut beside, mut alone) = (image(5, 0), image(5, 0));
            let answer = step(&mut beside, &[RECORD], &mut memory, word);
            assert_eq!(answer, step(&mut alone, &[RECORD], &mut [], word));
            assert_eq!(beside, alone);
        }
        assert_eq!(run(&mut image(5, 0), &[], &mut memory, &[]), Ran::NoSteps);
        let unknown_source = wait(&mut image(5, 0), &[RECORD], &mut memory, 9, &[]);
        assert_eq!(unknown_source, Waited::RefusedCall(Refusal::BadNumber));
        assert_eq!(memory, vec![9; length]);
    }
}

/// 1.6: what the steps before the refused one moved stays. The last request sets IP again.
#[test]
fn refused_midway() {
    let words = [word::arbitrate(), word::request(0), word::arbitrate(), word::request(0)];
    let start = image(5, 0);
    let after = with(&start, &[(17, 3), (19, 2)]);
    for (last, refusal) in
        [(word::read(256), Refusal::BadRegister), (word::arbitrate(), Refusal::BadAddress)]
    {
        let list = [&words[..], &[last]].concat();
        let (mut image, mut memory) = (start.clone(), [9; 2]);
        let refused = Ran::RefusedStep { refusal, index: 4 };
        assert_eq!(run(&mut image, &[RECORD], &mut memory, &list), refused);
        assert_eq!((image, memory), (after.clone(), [0x5A; 2]));
        let (mut image, mut memory) = (start.clone(), [9; 2]);
        let refused = Waited::RefusedStep { refusal, index: 4, arbitrations: 2 };
        assert_eq!(wait(&mut image, &[RECORD], &mut memory, 8, &list), refused);
        assert_eq!((image, memory), (after.clone(), [0x5A; 2]));
    }
}

/// A block of two bytes with IM = 1: its interrupt comes after it, and only that acknowledges.
#[test]
fn a_wait_over_a_block() {
    let mut image = with(&image(2, 0), &[(IDCR, 0x3A), (CICR, 0x97)]);
    let mut memory = [9; 2];
    let words = [word::arbitrate(), word::request(0), word::arbitrate(), word::arbitrate()];
    let waited = wait(&mut image, &[RECORD], &mut memory, 8, &words);
    assert_eq!(waited, Waited::Acknowledged { arbitrations: 3 });
    assert_eq!((image[IDCR], image[17], image[19], memory), (0x0A, 0, 2, [0x5A; 2]));
}

/// 65,536 transfers of a counter of 0: each byte once, the address back at its start.
#[test]
fn a_whole_memory() {
    let mut image = with(&image(0, 7), &[(IDCR, 0x3A)]);
    let mut memory = vec![0; MOST_MEMORY];
    for done in 1..=MOST_MEMORY {
        let answer = step(&mut image, &[RECORD], &mut memory, word::arbitrate());
        let ended = done == MOST_MEMORY;
        assert_eq!(answer, Answer::Transferred { source: 8, ended });
        if !ended {
            step(&mut image, &[RECORD], &mut memory, word::request(0));
        }
    }
    assert_eq!(memory, vec![0x5A; MOST_MEMORY]);
    assert_eq!((&image[16..20], image[IDCR]), (&[0, 0, 0, 7][..], 0x2A));
}

/// 1.9: the bounds take no memory, and an enabled DMA is a premise that fails whatever it points to.
#[test]
fn bounds_take_no_memory() {
    let start = with(&image(5, 0), &[(CICR, 0x97), (EIPR, 1), (EIMR, 1)]);
    let words = [word::arbitrate()];
    assert_eq!(bound(&start, &[RECORD], 0, &words), Bounded::DmaEnabled);
    let off = with(&start, &[(IDCR, 0x22)]);
    let within = Bounded::Within { outranking: 0, triggers: 0, bound: 1 };
    assert_eq!(bound(&off, &[RECORD], 0, &words), within);
    assert_eq!(handler_bound(&off, &[RECORD], 0, &words), within);
}
