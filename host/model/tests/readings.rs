//! The readings of what document 01 leaves open, each with the example that tells it from another. The letters are those of the list of open points. No
//! memory is lent: its readings are in `memory.rs`.

use model::*;

const CICR: usize = 230;
const PPR: usize = 234;
const EITR: usize = 242;
const EIPR: usize = 243;
const EIMR: usize = 244;
const EIPLR: usize = 245;
const EIVR: usize = 246;
const NICR: usize = 247;

const RECORD: Channel = record(9);

/// A record with R240 to R244 of a page, to the register file.
const fn record(page: u8) -> Channel {
    Channel { page, idcr: 240, ivr: 241, dcpr: 242, dapr: 243, data: 244, direction: 0 }
}

/// A zero image with these bytes.
fn image(bytes: &[(usize, u8)]) -> Vec<u8> {
    let mut image = vec![0; IMAGE_LENGTH];
    for &(place, byte) in bytes {
        image[place] = byte;
    }
    image
}

/// An image with the record's IDCR and DCPR, its data register 5Ah, and R16 and R17.
fn dma_image(idcr: u8, dcpr: u8, address: u8, counter: u8) -> Vec<u8> {
    image(&[
        (CICR, 0x87),
        (paged(9, 240), idcr),
        (paged(9, 242), dcpr),
        (paged(9, 244), 0x5A),
        (16, address),
        (17, counter),
    ])
}

fn step(image: &mut [u8], channels: &[Channel], word: u64) -> Answer {
    model::step(image, channels, &mut [], word)
}

fn run(image: &mut [u8], channels: &[Channel], words: &[u64]) -> Ran {
    model::run(image, channels, &mut [], words)
}

fn wait(image: &mut [u8], channels: &[Channel], source: u32, words: &[u64]) -> Waited {
    model::wait(image, channels, &mut [], source, words)
}

fn arbitrate(image: &mut [u8], channels: &[Channel]) -> Answer {
    step(image, channels, word::arbitrate())
}

fn returned(image: &mut [u8]) {
    assert_eq!(step(image, &[], word::return_from()), Answer::Returned);
}

fn served(source: u8, ended: bool) -> Answer {
    Answer::Transferred { source, ended }
}

fn triggered(maskable: Effect, tlip: Effect) -> Answer {
    Answer::Triggered { maskable, tlip }
}

/// Asserts that a step is refused with a number and leaves the image.
fn refused(image: &mut [u8], channels: &[Channel], word: u64, refusal: Refusal) {
    let before = image.to_vec();
    assert_eq!(step(image, channels, word), Answer::Refused(refusal));
    assert_eq!(image, before);
}

/// A and B10: what breaks a list, whatever the step.
#[test]
fn a_lists() {
    let bad = |channel: Channel| {
        refused(&mut image(&[]), &[channel], word::return_from(), Refusal::BadList)
    };
    bad(Channel { direction: 2, ..RECORD });
    bad(Channel { ivr: 240, ..RECORD });
    bad(Channel { page: 0, ..RECORD });
    bad(Channel { page: 64, ..RECORD });
    bad(Channel { dapr: 239, ..RECORD });
    let thirteen: Vec<Channel> = (1..=13).map(record).collect();
    let word = word::return_from();
    refused(&mut image(&[]), &thirteen, word, Refusal::BadList);
    refused(&mut image(&[]), &[RECORD, RECORD], word, Refusal::BadList);
    assert_eq!(step(&mut image(&[]), &thirteen[..12], word), Answer::Returned);
    assert_eq!(step(&mut image(&[]), &[record(57)], word), Answer::Returned);
    refused(&mut [0; 1264], &thirteen, word, Refusal::BadLength);
    refused(&mut [0; 1266], &[], word, Refusal::BadLength);
}

#[test]
fn a7_any_nonzero_mark() {
    let mut image = image(&[(MARK, 2), (CICR, 0xF7), (NICR, 0x80)]);
    assert_eq!(arbitrate(&mut image, &[]), Answer::Nothing);
    assert_eq!(image[MARK], 2);
    returned(&mut image);
    assert_eq!((image[MARK], image[CICR]), (0, 0xF7));
}

#[test]
fn b1_absent_bits_of_idcr() {
    let mut acknowledged = dma_image(0xEA, 0x11, 20, 1);
    acknowledged[CICR] = 0x97;
    acknowledged[paged(9, 241)] = 0x35;
    let answer = arbitrate(&mut acknowledged, &[RECORD]);
    // D20: IVR with bit 0 cleared.
    assert_eq!(answer, Answer::Interrupt { source: 8, level: 2, vector: 0x34 });
    assert_eq!(acknowledged[paged(9, 240)], 0xCA);
    let mut ended = dma_image(0xF2, 0x11, 20, 1);
    assert_eq!(arbitrate(&mut ended, &[RECORD]), served(8, true));
    assert_eq!(ended[paged(9, 240)], 0xC2);
}

#[test]
fn b2_reset_and_ppr() {
    let mut image = image(&[(PPR, 0xFF), (EIVR, 0x59), (MARK, 7)]);
    assert_eq!(step(&mut image, &[], word::reset()), Answer::Reset);
    assert_eq!((image[PPR], image[EIVR], image[MARK]), (0xFF, 0x56, 0));
    assert_eq!(step(&mut image, &[], word::read(234)), Answer::Byte(0xFC));
    let answer = step(&mut image, &[], word::write(234, 0xFF));
    assert_eq!(answer, Answer::Written { lost: 0 });
    assert_eq!(image[PPR], 0xFC);
}

#[test]
fn b3_r243_of_a_record() {
    let mut image = image(&[(PPR, 0x27), (paged(9, 243), 0xFF), (EIPR, 0xFF)]);
    let answer = step(&mut image, &[RECORD], word::write(243, 0));
    assert_eq!(answer, Answer::Written { lost: 0 });
    assert_eq!((image[paged(9, 243)], image[EIPR]), (0, 0xFF));
}

#[test]
fn b4_a_write_sets_pending_bits() {
    let mut image = image(&[(EIPR, 0x01)]);
    let answer = step(&mut image, &[], word::write(243, 0x03));
    assert_eq!(answer, Answer::Written { lost: 0 });
    assert_eq!(image[EIPR], 0x03);
}

#[test]
fn b5_tlnm() {
    let mut image = image(&[]);
    step(&mut image, &[], word::write(247, 0xFF));
    assert_eq!(image[NICR], 0xFF);
    step(&mut image, &[], word::write(247, 0x00));
    assert_eq!(image[NICR], 0x80);
}

#[test]
fn b6_ppr_afresh() {
    let mut image = image(&[(EIPR, 0x5C)]);
    let words = [word::write(234, 0x24), word::write(243, 0), word::write(234, 0), word::read(243)];
    let done = Ran::Done { steps: 4, last: Answer::Byte(0x5C) };
    assert_eq!(run(&mut image, &[RECORD], &words), done);
}

#[test]
fn b8_not_modelled() {
    let mut page_zero = image(&[]);
    for register in [240, 241, 248, 255, 256, 0xFF_FFFF] {
        refused(&mut page_zero, &[RECORD], word::read(register), Refusal::BadRegister);
    }
    let mut other = image(&[(PPR, 0x28)]);
    for register in 240..=255 {
        refused(&mut other, &[RECORD], word::write(register, 1), Refusal::BadRegister);
    }
    for register in 0..240 {
        assert_eq!(step(&mut page_zero, &[], word::read(register)), Answer::Byte(0));
    }
}

#[test]
fn b11_views() {
    assert_eq!(view(&[0; 1264], 64), Err(Refusal::BadLength));
    let image = image(&[(paged(9, 240), 0xFF), (paged(63, 255), 7)]);
    assert_eq!(view(&image, 64), Err(Refusal::BadRegister));
    assert_eq!(view(&image, 255), Err(Refusal::BadRegister));
    assert_eq!(view(&image, 256), Err(Refusal::BadRegister));
    assert_eq!(view(&image, 9).unwrap()[0], 0xFF);
    assert_eq!(view(&image, 63).unwrap(), &image[1248..1264]);
}

#[test]
fn b14_a_write_to_idcr() {
    let mut image = image(&[(PPR, 0x24), (paged(9, 240), 0xFF)]);
    assert_eq!(step(&mut image, &[RECORD], word::read(240)), Answer::Byte(0x3F));
    let lost = Answer::Written { lost: 0 };
    assert_eq!(step(&mut image, &[RECORD], word::write(240, 0xC0)), lost);
    assert_eq!(image[paged(9, 240)], 0x00);
    assert_eq!(step(&mut image, &[RECORD], word::write(240, 0xFF)), lost);
    assert_eq!(image[paged(9, 240)], 0x3F);
}

#[test]
fn c1_watchdog_sets_both() {
    use Effect::*;
    let mut image = image(&[(EIVR, 0x40)]);
    assert_eq!(step(&mut image, &[], word::watchdog()), triggered(Raised, Raised));
    assert_eq!((image[EIPR], image[CICR]), (0x01, 0x40));
    assert_eq!(step(&mut image, &[], word::watchdog()), triggered(Merged, Merged));
}

#[test]
fn c2_not_selected_and_refused() {
    use Effect::*;
    let mut image = image(&[]);
    let none = triggered(NotSelected, NotSelected);
    assert_eq!(step(&mut image, &[], word::pin_edge(0, 0)), none);
    assert_eq!(step(&mut image, &[], word::pin_edge(1, 1)), none);
    assert_eq!(step(&mut image, &[], word::nmi_edge(0)), none);
    refused(&mut image, &[], word::nmi_edge(2), Refusal::BadNumber);
    refused(&mut image, &[], word::pin_edge(8, 0), Refusal::BadNumber);
    refused(&mut image, &[], word::pin_edge(0, 2), Refusal::BadNumber);
    refused(&mut image, &[], word::word(2, 4, 9, 0), Refusal::UnknownKind);
    refused(&mut image, &[], word::word(6, 0, 0, 0), Refusal::UnknownKind);
}

#[test]
fn c3_requests_name_positions() {
    let mut image = image(&[]);
    let raised = triggered(Effect::Raised, Effect::NotSelected);
    assert_eq!(step(&mut image, &[RECORD], word::request(0)), raised);
    for record in [1, 8] {
        refused(&mut image, &[RECORD], word::request(record), Refusal::BadNumber);
    }
}

#[test]
fn d1_the_mark_before_refusals() {
    let mut image = dma_image(0x32, 0x10, 20, 1);
    image[MARK] = 1;
    assert_eq!(arbitrate(&mut image, &[RECORD]), Answer::Nothing);
}

#[test]
fn d3_tlip_with_ien() {
    for (cicr, after) in [(0xF7, Some(0xB7)), (0xE7, None), (0xD7, None)] {
        let mut image = image(&[(CICR, cicr)]);
        let answer = arbitrate(&mut image, &[]);
        match after {
            Some(after) => {
                assert_eq!(answer, Answer::TopLevel { vector: 4 });
                assert_eq!((image[CICR], image[MARK]), (after, 1));
            }
            None => assert_eq!(answer, Answer::Nothing),
        }
    }
}

#[test]
fn d4_an_ineligible_request_hides_nothing() {
    let mut image = dma_image(0x35, 0x11, 20, 9);
    image[EIPR] = 1;
    image[EIMR] = 1;
    assert_eq!(arbitrate(&mut image, &[RECORD]), served(8, false));
}

#[test]
fn d8_refusals_look_at_the_winner_only() {
    let channels = [RECORD, record(10)];
    let mut image = dma_image(0x32, 0x11, 20, 9);
    image[paged(10, 240)] = 0x33;
    assert_eq!(arbitrate(&mut image, &channels), served(8, false));
    refused(&mut image, &channels, word::arbitrate(), Refusal::BadAddress);
}

#[test]
fn d9_dcpr_edges() {
    let mut last_pair = dma_image(0x32, 0xDF, 0, 0);
    assert_eq!(arbitrate(&mut last_pair, &[RECORD]), served(8, false));
    // Even ones are over 222 on the memory path, where 6 comes before 5.
    for dcpr in [0xE1, 0xE0, 0xFE, 0xFF] {
        let mut image = dma_image(0x32, dcpr, 0, 0);
        refused(&mut image, &[RECORD], word::arbitrate(), Refusal::BadPointer);
    }
}

#[test]
fn d10_the_move_hits_the_pair() {
    for (address, after) in [(16, (17, 4)), (17, (18, 4))] {
        let mut image = dma_image(0x32, 0x11, address, 5);
        assert_eq!(arbitrate(&mut image, &[RECORD]), served(8, false));
        assert_eq!((image[16], image[17]), after);
    }
}

#[test]
fn d11_the_old_bytes_are_sent() {
    let sending = Channel { direction: 1, ..RECORD };
    for (address, sent) in [(16, 16), (17, 5)] {
        let mut image = dma_image(0x32, 0x11, address, 5);
        assert_eq!(arbitrate(&mut image, &[sending]), served(8, false));
        assert_eq!(image[paged(9, 244)], sent);
        assert_eq!((image[16], image[17]), (address + 1, 4));
    }
}

#[test]
fn d14_end_of_block_without_im() {
    let mut image = dma_image(0x32, 0x11, 20, 1);
    assert_eq!(arbitrate(&mut image, &[RECORD]), served(8, true));
    assert_eq!(image[paged(9, 240)], 0x02);
}

#[test]
fn d17_no_hl_bit_for_seven() {
    let mut image = image(&[(CICR, 0x9F), (EIPR, 1), (EIMR, 1)]);
    assert!(matches!(arbitrate(&mut image, &[]), Answer::Interrupt { .. }));
    assert_eq!((image[NICR], image[CICR]), (0, 0x88));
}

#[test]
fn d19_equal_levels_in_list_order() {
    let channels = [record(20), RECORD];
    let mut image = image(&[(CICR, 0x97), (paged(20, 240), 0x2B), (paged(9, 240), 0x2B)]);
    for source in [8, 9] {
        assert!(
            matches!(arbitrate(&mut image, &channels), Answer::Interrupt { source: s, .. } if s == source)
        );
        returned(&mut image);
    }
}

#[test]
fn e_returns() {
    let mut top_level = image(&[(MARK, 1), (CICR, 0x8B), (NICR, 0x05)]);
    returned(&mut top_level);
    assert_eq!((top_level[CICR], top_level[NICR]), (0x8B, 0x05));
    let mut idle = image(&[(CICR, 0x8B)]);
    returned(&mut idle);
    assert_eq!(idle[CICR], 0x9F);
    let mut concurrent = image(&[(CICR, 0x83), (NICR, 0x30)]);
    returned(&mut concurrent);
    assert_eq!((concurrent[CICR], concurrent[NICR]), (0x93, 0x30));
    let mut nested = image(&[(CICR, 0x88), (NICR, 0xB4)]);
    returned(&mut nested);
    assert_eq!((nested[CICR], nested[NICR]), (0x9A, 0xB0));
    returned(&mut nested);
    assert_eq!((nested[CICR], nested[NICR]), (0x9C, 0xA0));
}

#[test]
fn f_runs() {
    let mut image = image(&[]);
    assert_eq!(run(&mut image, &[], &[]), Ran::NoSteps);
    let words = [word::return_from(), word::read(256)];
    let refused = Ran::RefusedStep { refusal: Refusal::BadRegister, index: 1 };
    assert_eq!(run(&mut image, &[], &words), refused);
    assert_eq!(image[CICR], 0x10);
    let short = run(&mut image[1..], &[], &[]);
    assert_eq!(short, Ran::RefusedCall(Refusal::BadLength));
}

#[test]
fn f_waits() {
    let unknown = word::word(9, 0, 0, 0);
    let arbitration = word::arbitrate();
    let start = image(&[(CICR, 0x97), (EIPR, 1), (EIMR, 1)]);
    let waited = |source, words: &[u64]| wait(&mut start.clone(), &[RECORD], source, words);
    assert_eq!(waited(0, &[arbitration, unknown]), Waited::Acknowledged { arbitrations: 1 });
    assert_eq!(
        waited(1, &[arbitration, unknown]),
        Waited::RefusedStep { refusal: Refusal::UnknownKind, index: 1, arbitrations: 1 }
    );
    assert_eq!(waited(1, &[arbitration; 3]), Waited::Ended { arbitrations: 3 });
    assert_eq!(waited(9, &[unknown]), Waited::RefusedCall(Refusal::BadNumber));
    assert_eq!(waited(8, &[]), Waited::Ended { arbitrations: 0 });
}

#[test]
fn f9_a_transfer_is_no_acknowledgement() {
    let mut image = dma_image(0x3A, 0x11, 20, 1);
    image[CICR] = 0x97;
    let words = [word::arbitrate(); 3];
    assert_eq!(wait(&mut image, &[RECORD], 8, &words), Waited::Acknowledged { arbitrations: 2 });
}

/// EIPLR 00h: INTB1 is at level 1, and INTA0, INTB0, INTC0, INTD0 at level 0, INTA1 at level 1 outrank it.
fn waiting() -> Vec<u8> {
    image(&[(CICR, 0x97), (EIPR, 0x09), (EIMR, 0x0F), (EIPLR, 0x00)])
}

fn within(outranking: usize, triggers: usize) -> Bounded {
    Bounded::Within { outranking, triggers, bound: outranking + triggers + 1 }
}

#[test]
fn g_bounds() {
    let bounded = |words: &[u64]| bound(&waiting(), &[RECORD], 3, words);
    assert_eq!(bounded(&[]), within(1, 0));
    // E counts after the acknowledgement, merged triggers and neither masked, lower nor refused ones.
    let words = [
        word::arbitrate(),
        word::return_from(),
        word::arbitrate(),
        word::pin_edge(2, 0),
        word::pin_edge(2, 0),
        word::pin_edge(4, 0),
        word::pin_edge(3, 0),
        word::request(0),
        word::pin_edge(9, 0),
        word::read(256),
    ];
    assert_eq!(bounded(&words), within(1, 2));
    let disabled = Bounded::InterruptsDisabled { index: 1 };
    assert_eq!(bounded(&[word::arbitrate(); 3]), disabled);
    let other = [word::arbitrate(), word::arbitrate(), word::read(0)];
    assert_eq!(bounded(&other), Bounded::OtherStep { index: 2 });
}

/// Those about the start are the same for both bounds.
#[test]
fn g_premises_in_order() {
    let mut image = waiting();
    image[CICR] = 0x39;
    image[EIPR] = 0;
    image[EIMR] = 0;
    image[MARK] = 5;
    image[paged(9, 240)] = 0x10;
    let bounded = |image: &[u8]| both_bounds(image, &[RECORD], 3, &[word::reset()]);
    assert_eq!(bounded(&image), Bounded::Nested);
    image[CICR] = 0x31;
    assert_eq!(bounded(&image), Bounded::DmaEnabled);
    image[paged(9, 240)] = 0;
    assert_eq!(bounded(&image), Bounded::TopLevelEnabled);
    image[CICR] = 0x11;
    image[NICR] = 0x80;
    assert_eq!(bounded(&image), Bounded::TopLevelEnabled);
    image[NICR] = 0;
    assert_eq!(bounded(&image), Bounded::TopLevelInService);
    image[MARK] = 0;
    assert_eq!(bounded(&image), Bounded::NotPending);
    image[EIPR] = 8;
    assert_eq!(bounded(&image), Bounded::Masked);
    image[EIMR] = 8;
    assert_eq!(bounded(&image), Bounded::LevelNotAbove);
    image[CICR] = 0x12;
    assert_eq!(bounded(&image), Bounded::OtherStep { index: 0 });
    let refused = |image: &[u8], channels: &[Channel], source, refusal| {
        assert_eq!(both_bounds(image, channels, source, &[]), Bounded::Refused(refusal));
    };
    refused(&image, &[RECORD], 9, Refusal::BadNumber);
    refused(&image, &[RECORD], 256 + 3, Refusal::BadNumber);
    refused(&image, &[RECORD, RECORD], 10, Refusal::BadList);
    refused(&image[1..], &[RECORD, RECORD], 10, Refusal::BadLength);
}

/// The answer of both bounds, which is the same.
fn both_bounds(image: &[u8], channels: &[Channel], source: u32, words: &[u64]) -> Bounded {
    let answer = bound(image, channels, source, words);
    assert_eq!(handler_bound(image, channels, source, words), answer);
    answer
}

#[test]
fn g5_watchdog_is_a_trigger_of_source_zero() {
    for (eivr, triggers) in [(0x40, 1), (0x42, 0)] {
        let mut image = waiting();
        image[EIVR] = eivr;
        image[EITR] = 0xFF;
        let bounded = bound(&image, &[], 3, &[word::watchdog(), word::pin_edge(0, 0)]);
        assert_eq!(bounded, Bounded::Within { outranking: 1, triggers, bound: 2 + triggers });
    }
}

/// The handlers' bound of INTB1, on page 0.
fn handled(words: &[u64]) -> Bounded {
    handler_bound(&waiting(), &[RECORD], 3, words)
}

fn changed(basis: Basis, index: usize) -> Bounded {
    Bounded::Changed { basis, index }
}

#[test]
fn h_handlers_may_read_and_write() {
    assert_eq!(handled(&[]), within(1, 0));
    let handler = [
        word::read(243),
        word::write(243, 0x08),
        word::return_from(),
        word::read(230),
        word::arbitrate(),
    ];
    assert_eq!(handled(&handler), within(1, 0));
    assert_eq!(bound(&waiting(), &[RECORD], 3, &handler), Bounded::OtherStep { index: 0 });
}

/// E counts the bits of outranking unmasked sources that a write raises from 0, not the writes.
#[test]
fn h_bits_that_writes_raise() {
    let eipr = |value| word::write(243, value);
    assert_eq!(handled(&[eipr(0x0D)]), within(1, 1));
    assert_eq!(handled(&[eipr(0x0F)]), within(1, 2));
    assert_eq!(handled(&[eipr(0x0F), eipr(0x0F)]), within(1, 2));
    // One that was pending, erased and raised again: H counts it and E does.
    assert_eq!(handled(&[eipr(0x08), eipr(0x09)]), within(1, 1));
    assert_eq!(handled(&[eipr(0x0F), eipr(0x08), eipr(0x0F)]), within(1, 5));
    // Masked ones.
    assert_eq!(handled(&[eipr(0xF9)]), within(1, 0));
    // INTC1 is unmasked at the same level, but after INTB1.
    let mut lower = waiting();
    lower[EIMR] = 0x2F;
    assert_eq!(handler_bound(&lower, &[], 3, &[eipr(0x29)]), within(1, 0));
}

#[test]
fn h_bits_that_writes_of_idcr_raise() {
    let words = [
        word::write(234, 0x24),
        word::write(240, 0x28),
        word::write(240, 0x08),
        word::write(240, 0xE8),
        word::write(240, 0x28),
    ];
    for (idcr, events) in [(0x08, 2), (0x28, 1)] {
        let mut image = waiting();
        image[paged(9, 240)] = idcr;
        let outranking = 1 + usize::from(idcr >> 5);
        assert_eq!(handler_bound(&image, &[RECORD], 3, &words), within(outranking, events));
    }
    // A masked record, and one at level 1, which comes after INTB1.
    for idcr in [0x00, 0x09] {
        let mut image = waiting();
        image[paged(9, 240)] = idcr;
        let words = [word::write(234, 0x24), word::write(240, 0x20 | idcr)];
        assert_eq!(handler_bound(&image, &[RECORD], 3, &words), within(1, 0));
    }
}

#[test]
fn h_triggers_count_as_in_a_bound() {
    let [raised, merged] = [word::pin_edge(2, 0); 2];
    assert_eq!(handled(&[raised, merged]), within(1, 2));
    assert_eq!(handled(&[word::write(243, 0x0D), merged]), within(1, 2));
    let none = [word::pin_edge(2, 1), word::pin_edge(4, 0), word::pin_edge(3, 0), word::request(0)];
    assert_eq!(handled(&none), within(1, 0));
    // Which edge selects is looked at when the edge comes.
    assert_eq!(handled(&[word::write(242, 0x04), word::pin_edge(2, 1)]), within(1, 1));
    let iaos = [word::watchdog(), word::write(246, 0x02), word::watchdog(), word::pin_edge(0, 0)];
    assert_eq!(handled(&iaos), within(1, 2));
}

/// E is counted up to the acknowledgement, and no step after it is looked at.
#[test]
fn h_only_up_to_the_acknowledgement() {
    let acknowledged = [
        word::pin_edge(1, 0),
        word::arbitrate(),
        word::return_from(),
        word::write(243, 0x0A),
        word::arbitrate(),
        word::return_from(),
        word::arbitrate(),
    ];
    assert_eq!(handled(&acknowledged), within(1, 1));
    let later = [
        word::pin_edge(2, 0),
        word::write(243, 0x07),
        word::arbitrate(),
        word::write(230, 0x3F),
        word::write(244, 0x00),
        word::reset(),
    ];
    for step in later {
        assert_eq!(handled(&[&acknowledged[..], &[step]].concat()), within(1, 1));
    }
    // Without an acknowledgement the whole list counts.
    let unserved = [&acknowledged[..6], &later[..2]].concat();
    assert_eq!(handled(&unserved), changed(Basis::Pending, 7));
    assert_eq!(handled(&unserved[..7]), within(1, 2));
}

#[test]
fn h_interrupts_disabled_in_a_handler() {
    let arbitrations = [word::arbitrate(); 2];
    assert_eq!(handled(&arbitrations), Bounded::InterruptsDisabled { index: 1 });
    let enabled = [word::arbitrate(), word::write(230, 0x97), word::arbitrate()];
    assert_eq!(handled(&enabled), within(1, 0));
    let disabled = [word::write(230, 0x87), word::arbitrate(), word::reset()];
    assert_eq!(handled(&disabled), Bounded::InterruptsDisabled { index: 1 });
    let mut start = waiting();
    start[CICR] = 0x87;
    let words = [word::write(243, 0x0F), word::return_from(), word::arbitrate()];
    assert_eq!(handler_bound(&start, &[], 3, &words), within(1, 2));
}

/// The step that comes first, unlike in a bound.
#[test]
fn h_the_first_step_that_breaks_a_premise() {
    let other = Bounded::OtherStep { index: 2 };
    let disabled = Bounded::InterruptsDisabled { index: 1 };
    let words = [word::arbitrate(), word::arbitrate(), word::reset()];
    assert_eq!(bound(&waiting(), &[], 3, &words), other);
    assert_eq!(handled(&words), disabled);
    let words = [word::read(0), word::write(0, 0), word::reset(), word::write(243, 0)];
    assert_eq!(handled(&words), other);
    let words = [word::arbitrate(), word::write(243, 0), word::arbitrate(), word::reset()];
    assert_eq!(handled(&words), changed(Basis::Pending, 1));
}

/// Refused steps change nothing and count nowhere.
#[test]
fn h_refused_steps_are_passed_over() {
    let words = [
        word::write(240, 0x00),
        word::write(256, 0x00),
        word::read(248),
        word::pin_edge(8, 0),
        word::pin_edge(2, 2),
        word::request(1),
        word::word(2, 4, 2, 0),
        word::word(6, 0, 0, 0),
    ];
    assert_eq!(handled(&words), within(1, 0));
    let last = [&words[..], &[word::write(243, 0x00)]].concat();
    assert_eq!(handled(&last), changed(Basis::Pending, 8));
}

#[test]
fn h_each_basis() {
    use Basis::*;
    let after = |register, value| handled(&[word::read(register), word::write(register, value)]);
    for (register, value, basis) in [
        (243, 0x01, Pending),
        (243, 0xF7, Pending),
        (230, 0x9F, Mode),
        (230, 0x96, CurrentLevel),
        (230, 0x90, CurrentLevel),
        (230, 0xB7, TopLevel),
        (247, 0x80, TopLevel),
        (244, 0x8F, Mask),
        (244, 0x07, Mask),
        (245, 0x40, Level),
        (245, 0x01, Level),
    ] {
        assert_eq!(after(register, value), changed(basis, 1), "R{register} {value:02X}h");
    }
    let record = |value| handled(&[word::write(234, 0x24), word::write(240, value)]);
    for (value, basis) in [(0x08, Mask), (0x10, DmaEnable), (0x04, Level)] {
        assert_eq!(record(value), changed(basis, 1), "IDCR {value:02X}h");
    }
}

/// Where one write changes several the first is answered; those of a record's own source with its IP too.
#[test]
fn h_the_order_of_the_bases() {
    use Basis::*;
    for (value, basis) in [(0x2A, Mode), (0x30, CurrentLevel), (0x37, TopLevel)] {
        assert_eq!(handled(&[word::write(230, value)]), changed(basis, 0), "CICR {value:02X}h");
    }
    let mut image = waiting();
    image[PPR] = 0x24;
    image[paged(9, 240)] = 0x2B;
    let ours = |value| handler_bound(&image, &[RECORD], 8, &[word::write(240, value)]);
    for (value, basis) in
        [(0x14, Pending), (0x0B, Pending), (0x34, Mask), (0x3C, DmaEnable), (0x2C, Level)]
    {
        assert_eq!(ours(value), changed(basis, 0), "IDCR {value:02X}h");
    }
    // H: INTA0 and INTB1 pending.
    assert_eq!(ours(0xEB), within(2, 0));
}

/// Writes that leave all of it, whatever else they change.
#[test]
fn h_harmless_writes() {
    let harmless = |page: u8, register: u32, value: u8| {
        let words = [word::write(234, 4 * page), word::write(register, value)];
        assert_eq!(handled(&words), within(1, 0), "page {page} R{register} {value:02X}h");
    };
    for value in 0..=255 {
        for register in (0..240).filter(|register| *register != 230) {
            harmless(0, register, value);
        }
        // CICR with GCEN, TLIP and IEN, EIPR without outranking sources, EITR, EIVR, NICR without TLNM.
        harmless(0, 230, value & 0xD0 | 0x07);
        harmless(0, 243, value & 0xF8 | 0x09);
        harmless(0, 242, value);
        harmless(0, 246, value);
        harmless(0, 247, value & 0x7F);
        // A record's IDCR with IP and absent bits, and its other registers, R243 to R244 among them.
        harmless(9, 240, value & 0xE0);
        for register in 241..=244 {
            harmless(9, register, value);
        }
    }
    harmless(0, 244, 0x0F);
    harmless(0, 245, 0x00);
}

/// TLIP alone takes no arbitration: the top level stays disabled.
#[test]
fn h_tlip_raised_by_a_write() {
    let words = [word::write(230, 0xD7), word::arbitrate(), word::return_from(), word::arbitrate()];
    assert_eq!(handled(&words), within(1, 0));
    let waited = wait(&mut waiting(), &[RECORD], 3, &words);
    assert_eq!(waited, Waited::Acknowledged { arbitrations: 2 });
}
