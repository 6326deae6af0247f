//! Every answer as it is printed. The texts are written by hand; nothing here calls the model.

use st9::{
    Answer, Basis, Bound, Done, Effect, Premise, Refusal, RunError, Source, Wait, WaitError,
};
use std::fmt::Display;

/// Each value beside its text, which columns pad as they pad a string.
fn assert_texts<T: Display, const N: usize>(expected: [(T, &str); N]) {
    for (value, text) in expected {
        assert_eq!(value.to_string(), text);
        assert_eq!(format!("{value:>90}"), format!("{text:>90}"));
    }
}

#[test]
fn sources() {
    assert_texts([
        (Source(0), "INTA0"),
        (Source(1), "INTA1"),
        (Source(2), "INTB0"),
        (Source(3), "INTB1"),
        (Source(4), "INTC0"),
        (Source(5), "INTC1"),
        (Source(6), "INTD0"),
        (Source(7), "INTD1"),
        (Source(8), "channel 0"),
        (Source(19), "channel 11"),
        (Source(u32::MAX), "channel 4294967287"),
        (Source::channel(u32::MAX), "channel 4294967287"),
    ]);
    let (external, record) = (Source::INTB0, Source::channel(0));
    assert_eq!(format!("{external:<10}|{record:<10}|"), "INTB0     |channel 0 |");
}

#[test]
fn steps() {
    assert_texts([
        (Answer::Byte(0x14), "byte 14h"),
        (Answer::Byte(0x0A), "byte 0Ah"),
        (Answer::Written { erased: 0x00 }, "written, nothing erased from EIPR"),
        (Answer::Written { erased: 0x14 }, "erased 14h: INTB0, INTC0"),
        (Answer::Written { erased: 0x80 }, "erased 80h: INTD1"),
        (
            Answer::Written { erased: 0xFF },
            "erased FFh: INTA0, INTA1, INTB0, INTB1, INTC0, INTC1, INTD0, INTD1",
        ),
        (Answer::Nothing, "none"),
        (Answer::TopLevel { vector: 0x04 }, "acknowledged the top level, vector 04h"),
        (
            Answer::Interrupt { source: Source::INTB0, level: 2, vector: 0x44 },
            "acknowledged INTB0, level 2, vector 44h",
        ),
        (
            Answer::Interrupt { source: Source::channel(11), level: 6, vector: 0xFE },
            "acknowledged channel 11, level 6, vector FEh",
        ),
        (
            Answer::Transferred { source: Source::channel(0), ended: false },
            "DMA of channel 0: one byte moved",
        ),
        (
            Answer::Transferred { source: Source::channel(0), ended: true },
            "DMA of channel 0: one byte moved, block ended",
        ),
        (Answer::Returned, "returned"),
        (Answer::Reset, "reset"),
    ]);
}

#[test]
fn triggers() {
    use Effect::{Merged, NotSelected, Raised};
    let triggered = |maskable, tlip| Answer::Triggered { maskable, tlip };
    assert_texts([
        (triggered(NotSelected, NotSelected), "not selected"),
        (triggered(Raised, NotSelected), "raised"),
        (triggered(Merged, NotSelected), "merged"),
        (triggered(NotSelected, Raised), "raised TLIP"),
        (triggered(NotSelected, Merged), "merged TLIP"),
        (triggered(Raised, Raised), "raised; raised TLIP"),
        (triggered(Raised, Merged), "raised; merged TLIP"),
        (triggered(Merged, Raised), "merged; raised TLIP"),
        (triggered(Merged, Merged), "merged; merged TLIP"),
    ]);
    assert_texts([(NotSelected, "not selected"), (Raised, "raised"), (Merged, "merged")]);
}

#[test]
fn runs() {
    let done = |steps, last| Done { steps, last };
    assert_texts([
        (done(0, None), "done: 0 steps, last answer: none (the list is empty)"),
        (done(1, Some(Answer::Nothing)), "done: 1 step, last answer: none"),
        (done(2, Some(Answer::Byte(0x14))), "done: 2 steps, last answer: byte 14h"),
        (
            done(3, Some(Answer::Written { erased: 0x10 })),
            "done: 3 steps, last answer: erased 10h: INTC0",
        ),
    ]);
    assert_texts([
        (
            RunError::Call(Refusal::ImageLength),
            "refused with 1 (image length is not 1,265), before any step",
        ),
        (
            RunError::Step { refusal: Refusal::UnknownKind, index: 0 },
            "refused with 7 at step 0 (step or trigger kind unknown)",
        ),
        (
            RunError::Step { refusal: Refusal::Pointer, index: 2 },
            "refused with 6 at step 2 (the DMA winner has n or a over 223, or a pointer over 222 (memory))",
        ),
        (
            RunError::Call(Refusal::Memory),
            "refused with 8 (the memory is over 65,536 bytes), before any step",
        ),
    ]);
}

#[test]
fn waits() {
    let ended = |arbitrations| Wait::Ended { arbitrations };
    assert_texts([
        (Wait::Acknowledged { arbitrations: 1 }, "acknowledged by arbitration 1"),
        (Wait::Acknowledged { arbitrations: 3 }, "acknowledged by arbitration 3"),
        (ended(0), "not acknowledged, the list ended after 0 arbitrations"),
        (ended(1), "not acknowledged, the list ended after 1 arbitration"),
        (ended(2), "not acknowledged, the list ended after 2 arbitrations"),
    ]);
    let refused = |arbitrations| {
        let refusal = Refusal::UnknownKind;
        WaitError::Step { refusal, index: 3, arbitrations }
    };
    assert_texts([
        (
            WaitError::Call(Refusal::ChannelList),
            "refused with 2 (channel list breaks a rule), before any step",
        ),
        (
            refused(0),
            "refused with 7 at step 3, after 0 arbitrations (step or trigger kind unknown)",
        ),
        (
            refused(1),
            "refused with 7 at step 3, after 1 arbitration (step or trigger kind unknown)",
        ),
        (
            refused(2),
            "refused with 7 at step 3, after 2 arbitrations (step or trigger kind unknown)",
        ),
    ]);
}

#[test]
fn bounds() {
    let within = |outranking, triggers, bound| Bound::Within { outranking, triggers, bound };
    assert_texts([
        (within(0, 0, 1), "by arbitration 1 at the latest, H 0, E 0"),
        (within(1, 2, 4), "by arbitration 4 at the latest, H 1, E 2"),
    ]);
    assert_texts([
        (Bound::Fails(Premise::Nested), "none: nested mode (IAM = 1)"),
        (Bound::Fails(Premise::DmaEnabled), "none: a channel has DMA enabled (DM = 1)"),
        (Bound::Fails(Premise::TopLevelEnabled), "none: top level enabled (TLNM or TLI is 1)"),
        (Bound::Fails(Premise::TopLevelInService), "none: top level in service (the mark is set)"),
        (Bound::Fails(Premise::NotPending), "none: the source is not pending"),
        (Bound::Fails(Premise::Masked), "none: the source is masked"),
        (
            Bound::Fails(Premise::LevelNotAbove),
            "none: the source's level is not above the current one",
        ),
        (
            Bound::Fails(Premise::OtherStep { index: 0 }),
            "none: a step that is no trigger, arbitration or return at step 0",
        ),
        (
            Bound::Fails(Premise::InterruptsDisabled { index: 2 }),
            "none: an arbitration with interrupts disabled (IEN = 0) at step 2",
        ),
    ]);
}

#[test]
fn changes() {
    let expected = [
        (Basis::Pending, "erases", "the source's pending bit"),
        (Basis::Mode, "changes", "the mode (IAM)"),
        (Basis::CurrentLevel, "changes", "the current level (CPL)"),
        (Basis::TopLevel, "changes", "the top level's enables (TLI or TLNM)"),
        (Basis::Mask, "changes", "a source's mask"),
        (Basis::DmaEnable, "changes", "a channel's DMA enable (DM)"),
        (Basis::Level, "changes", "a source's level"),
    ];
    for (basis, does, text) in expected {
        let premise = Premise::Changed { basis, index: 4 };
        assert_texts([(basis, text)]);
        assert_texts([(premise, &format!("a write that {does} {text}"))]);
        let bound = format!("none: the write at step 4 {does} {text}");
        assert_texts([(Bound::Fails(premise), &bound)]);
    }
}

#[test]
fn premises() {
    assert_texts([
        (Premise::Masked, "the source is masked"),
        (Premise::OtherStep { index: 2 }, "a step that is no trigger, arbitration or return"),
        (
            Premise::InterruptsDisabled { index: 2 },
            "an arbitration with interrupts disabled (IEN = 0)",
        ),
    ]);
}

#[test]
fn refusals() {
    let expected = [
        "image length is not 1,265",
        "channel list breaks a rule",
        "register read or written not modelled or over 255; viewed page over 63",
        "pin over 7, direction over 1, record or source number that isn't there",
        "the DMA winner has a memory address not below the memory's length",
        "the DMA winner has n or a over 223, or a pointer over 222 (memory)",
        "step or trigger kind unknown",
        "the memory is over 65,536 bytes",
    ];
    assert_eq!(Refusal::ALL.len(), expected.len());
    for (number, meaning) in (1..).zip(expected) {
        let refusal = Refusal::from_number(number).expect("a refusal");
        assert_eq!(u64::from(refusal.number()), number);
        assert_eq!(Refusal::ALL[number as usize - 1], refusal);
        assert_texts([(refusal, meaning)]);
        assert_eq!(refusal.with_number(), format!("refused with {number} ({meaning})"));
    }
    assert_eq!(Refusal::from_number(0), None);
    assert_eq!(Refusal::from_number(9), None);
}
