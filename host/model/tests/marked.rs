//! The marked examples C01 to C13 of document 01. Unless said, other bytes are 0 and EIVR is 46h.

use model::{paged, word, Answer, Channel, Effect, Refusal, IMAGE_LENGTH, MARK};

const CICR: usize = 230;
const MODER: usize = 235;
const EITR: usize = 242;
const EIPR: usize = 243;
const EIMR: usize = 244;
const EIPLR: usize = 245;
const EIVR: usize = 246;
const NICR: usize = 247;

/// C09's record: page 9, R240 to R244, to the register file.
const RECORD: Channel =
    Channel { page: 9, idcr: 240, ivr: 241, dcpr: 242, dapr: 243, data: 244, direction: 0 };

/// A zero image with EIVR 46h and these bytes.
fn image(bytes: &[(usize, u8)]) -> Vec<u8> {
    let mut image = vec![0; IMAGE_LENGTH];
    image[EIVR] = 0x46;
    for &(place, byte) in bytes {
        image[place] = byte;
    }
    image
}

/// C09's bytes, with the record's IDCR, the address in R16 and the counter in R17.
fn dma_image(idcr: u8, address: u8, counter: u8) -> Vec<u8> {
    image(&[
        (CICR, 0x87),
        (paged(9, 240), idcr),
        (paged(9, 242), 0x11),
        (paged(9, 244), 0x5A),
        (16, address),
        (17, counter),
    ])
}

/// A step with no memory: none of the examples has one.
fn step(image: &mut [u8], channels: &[Channel], word: u64) -> Answer {
    model::step(image, channels, &mut [], word)
}

fn arbitrate(image: &mut [u8], channels: &[Channel]) -> Answer {
    step(image, channels, word::arbitrate())
}

fn interrupt(source: u8, level: u8, vector: u8) -> Answer {
    Answer::Interrupt { source, level, vector }
}

fn triggered(maskable: Effect) -> Answer {
    Answer::Triggered { maskable, tlip: Effect::NotSelected }
}

/// The image after C03's arbitration.
fn after_c03() -> Vec<u8> {
    let mut image = image(&[(CICR, 0x97), (EIPR, 0x03), (EIMR, 0x03), (EIPLR, 0xFC)]);
    assert_eq!(arbitrate(&mut image, &[]), interrupt(0, 0, 0x40));
    image
}

#[test]
fn c01_reset_of_a_zero_image() {
    let mut image = vec![0; IMAGE_LENGTH];
    assert_eq!(step(&mut image, &[], word::reset()), Answer::Reset);
    let mut expected = vec![0; IMAGE_LENGTH];
    for (place, byte) in [(CICR, 0x87), (MODER, 0xE0), (EIPLR, 0xFF), (EIVR, 0x06)] {
        expected[place] = byte;
    }
    assert_eq!(image, expected);
}

#[test]
fn c02_pin_twice() {
    let mut image = image(&[(EITR, 0x00)]);
    let edge = word::pin_edge(1, 0);
    assert_eq!(step(&mut image, &[], edge), triggered(Effect::Raised));
    assert_eq!(image[EIPR], 0x02);
    assert_eq!(step(&mut image, &[], edge), triggered(Effect::Merged));
    assert_eq!(image[EIPR], 0x02);
}

#[test]
fn c03_one_of_two_pending() {
    let image = after_c03();
    assert_eq!((image[EIPR], image[CICR]), (0x02, 0x87));
}

#[test]
fn c04_return_then_the_other() {
    let mut image = after_c03();
    assert_eq!(step(&mut image, &[], word::return_from()), Answer::Returned);
    assert_eq!(image[CICR], 0x97);
    assert_eq!(arbitrate(&mut image, &[]), interrupt(1, 1, 0x42));
}

#[test]
fn c05_nested() {
    let mut image = image(&[(CICR, 0x9C), (EIPR, 0x01), (EIMR, 0x01), (EIPLR, 0xFC)]);
    assert_eq!(arbitrate(&mut image, &[]), interrupt(0, 0, 0x40));
    assert_eq!((image[NICR], image[CICR]), (0x10, 0x88));
    assert_eq!(step(&mut image, &[], word::return_from()), Answer::Returned);
    assert_eq!((image[NICR], image[CICR]), (0x00, 0x9C));
}

#[test]
fn c06_level_seven_and_six() {
    let start = [(CICR, 0x97), (EIPLR, 0xFF), (EIMR, 0xFF)];
    let mut image = image(&start);
    image[EIPR] = 0x80;
    assert_eq!(arbitrate(&mut image, &[]), Answer::Nothing);
    image[EIPR] = 0x40;
    assert_eq!(arbitrate(&mut image, &[]), interrupt(6, 6, 0x4C));
}

#[test]
fn c07_level_against_cpl() {
    let start = [(EIPLR, 0xFD), (EIPR, 0x01), (EIMR, 0x01)];
    let mut image = image(&start);
    image[CICR] = 0x92;
    assert_eq!(arbitrate(&mut image, &[]), Answer::Nothing);
    image[CICR] = 0x93;
    assert_eq!(arbitrate(&mut image, &[]), interrupt(0, 2, 0x40));
}

#[test]
fn c08_top_level() {
    let mut image = image(&[(CICR, 0xC7), (NICR, 0x80)]);
    assert_eq!(arbitrate(&mut image, &[]), Answer::TopLevel { vector: 0x04 });
    assert_eq!((image[CICR], image[MARK]), (0x87, 1));
    assert_eq!(arbitrate(&mut image, &[]), Answer::Nothing);
    assert_eq!(step(&mut image, &[], word::return_from()), Answer::Returned);
    assert_eq!((image[CICR], image[MARK]), (0x87, 0));
}

#[test]
fn c09_the_last_byte_of_a_block() {
    let mut image = dma_image(0x3A, 20, 1);
    let answer = arbitrate(&mut image, &[RECORD]);
    assert_eq!(answer, Answer::Transferred { source: 8, ended: true });
    assert_eq!((image[20], image[16], image[17]), (0x5A, 21, 0));
    assert_eq!(image[paged(9, 240)], 0x2A);
}

#[test]
fn c10_a_counter_of_zero_and_the_end_of_the_file() {
    let mut image = dma_image(0x32, 223, 0);
    let answer = arbitrate(&mut image, &[RECORD]);
    assert_eq!(answer, Answer::Transferred { source: 8, ended: false });
    assert_eq!((image[223], image[16], image[17]), (0x5A, 224, 255));
    assert_eq!(image[paged(9, 240)], 0x12);
    let request = step(&mut image, &[RECORD], word::request(0));
    assert_eq!(request, triggered(Effect::Raised));
    let before = image.clone();
    assert_eq!(arbitrate(&mut image, &[RECORD]), Answer::Refused(Refusal::BadPointer));
    assert_eq!(image, before);
}

#[test]
fn c11_dma_first() {
    let mut image = dma_image(0x3A, 20, 1);
    for (place, byte) in [(CICR, 0x97), (EIPLR, 0xFD), (EIPR, 0x01), (EIMR, 0x01)] {
        image[place] = byte;
    }
    let answer = arbitrate(&mut image, &[RECORD]);
    assert!(matches!(answer, Answer::Transferred { source: 8, .. }));
    assert_eq!(image[EIPR], 0x01);
}

#[test]
fn c12_a_write_that_loses_a_bit() {
    let mut image = image(&[(EIPR, 0x03)]);
    let answer = step(&mut image, &[], word::write(243, 0x01));
    assert_eq!(answer, Answer::Written { lost: 0x02 });
    assert_eq!(image[EIPR], 0x01);
}

#[test]
fn c13_tlnm_is_set_only() {
    let mut image = image(&[(NICR, 0x80)]);
    let answer = step(&mut image, &[], word::write(247, 0x00));
    assert_eq!(answer, Answer::Written { lost: 0 });
    assert_eq!(image[NICR], 0x80);
}
