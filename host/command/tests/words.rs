//! Answers in words: nothing here calls the model.

use scenario::{statement, Bounds, Claim, Claimed, Lent, List, Names, Report, Statement, StepLine};
use st9::Effect::{Merged, NotSelected, Raised};
use st9::{Answer, Basis, Bound, Channel, Effect, Premise, Refusal, Source};

const CHANNEL: Channel =
    Channel { page: 9, idcr: 240, ivr: 241, dcpr: 242, dapr: 243, data: 244, direction: 0 };

type Image = [u8; st9::IMAGE_LENGTH];

/// CICR 97h, PPR selects page 0.
fn page_0() -> Image {
    let mut image = [0; st9::IMAGE_LENGTH];
    image[230] = 0x97;
    image
}

/// CICR 07h, PPR selects page 9 (its absent bits are not 0), the top level in service.
fn page_9() -> Image {
    let mut image = [0; st9::IMAGE_LENGTH];
    image[230] = 0x07;
    image[234] = 0x26;
    image[st9::MARK] = 2;
    image
}

fn step(line: &str) -> StepLine {
    match statement(line.as_bytes(), &Names::default()) {
        Ok(Some(Statement::Step(operation))) => StepLine { operation, line: 12 },
        other => panic!("{line} is no step: {other:?}"),
    }
}

fn told(line: &str, image: Image, answer: Result<Answer, Refusal>) -> String {
    told_between(line, image, image, answer)
}

fn told_between(
    line: &str,
    before: Image,
    after: Image,
    answer: Result<Answer, Refusal>,
) -> String {
    let step = step(line);
    let (before, after, names) = (&lent(before), &lent(after), &Names::default());
    Report { index: 4, step, answer, before, after, channels: &[CHANNEL], names }.words()
}

/// An image beside a memory of sixteen bytes.
fn lent(image: Image) -> Lent {
    Lent { image: image.to_vec(), memory: vec![0; 16] }
}

/// The image with a byte replaced.
fn with(mut image: Image, place: usize, byte: u8) -> Image {
    image[place] = byte;
    image
}

#[test]
fn reads() {
    let idcr = "byte 2Ah (IP, IM, PRL 2) (IDCR of channel 0, R240 page 9: PPR selects it)";
    let expected = [
        ("read EIPR", page_0(), 0x14, "byte 14h (INTB0, INTC0)"),
        ("read EIPR", page_0(), 0x00, "byte 00h"),
        ("read R243", page_0(), 0x04, "byte 04h (INTB0) (EIPR R243 page 0)"),
        ("read CICR", page_9(), 0x97, "byte 97h (GCEN, IEN, CPL 7)"),
        ("read R16", page_9(), 0x05, "byte 05h"),
        ("read R240", page_9(), 0x2A, idcr),
        ("step 0xF300", page_0(), 0x04, "byte 04h (INTB0) (EIPR R243 page 0)"),
    ];
    for (line, before, byte, words) in expected {
        assert_eq!(told(line, before, Ok(Answer::Byte(byte))), words, "{line}");
    }
}

#[test]
fn writes() {
    let dapr = "written (DAPR of channel 0, R243 page 9: PPR selects it)";
    let eipr = with(page_0(), 243, 0x14);
    let idcr = "erased IP of channel 0 (IDCR of channel 0, R240 page 9: PPR selects it)";
    let absent = "written (stored 24h: absent bits are 0)";
    let expected = [
        ("write EIPR 0", eipr, with(eipr, 243, 0), 0x14, "erased 14h: INTB0, INTC0"),
        ("write EIPR 14h", eipr, eipr, 0x00, "written"),
        ("write EIPR 34h", eipr, with(eipr, 243, 0x34), 0, "written (sets INTC1 pending)"),
        (
            "write EIPR 20h",
            eipr,
            with(eipr, 243, 0x20),
            0x14,
            "erased 14h: INTB0, INTC0 (sets INTC1 pending)",
        ),
        ("write EIPR 0", page_9(), page_9(), 0x00, dapr),
        ("write R16 0", page_9(), page_9(), 0x00, "written"),
        ("write CICR 17h", with(page_0(), 230, 0x57), with(page_0(), 230, 0x17), 0, "erased TLIP"),
        (
            "write CICR 57h",
            with(page_0(), 230, 0x17),
            with(page_0(), 230, 0x57),
            0,
            "written (sets TLIP pending)",
        ),
        ("write R240 0", with(page_9(), 384, 0x20), page_9(), 0, idcr),
        (
            "write NICR 0",
            with(page_0(), 247, 0x80),
            with(page_0(), 247, 0x80),
            0,
            "written (stored 80h: TLNM stays set)",
        ),
        ("write PPR 27h", page_0(), with(page_0(), 234, 0x24), 0, absent),
    ];
    for (line, before, after, erased, words) in expected {
        let answer = Ok(Answer::Written { erased });
        assert_eq!(told_between(line, before, after, answer), words, "{line}");
    }
}

#[test]
fn refused_steps() {
    let words =
        "refused with 3 (register read or written not modelled or over 255; viewed page over 63)";
    let refused = Err(Refusal::Register);
    let selected = format!("{words} (R246 page 9: PPR selects it)");
    assert_eq!(told("read EIVR", page_9(), refused), selected);
    assert_eq!(told("read R256", page_9(), refused), words);
    let (image, names) = (&lent(page_0()), &Names::default());
    let step = step("read R256");
    let report = Report {
        index: 4,
        step,
        answer: refused,
        before: image,
        after: image,
        channels: &[],
        names,
    };
    assert_eq!(report.line(3), format!("  4  read R256             {words}"));
}

#[test]
fn triggers() {
    let falling = "EITR bit 2 is 0: falling edges";
    let expected: [(&str, u8, Effect, Effect, &str); 12] = [
        ("edge INTB0 falling", 0x46, Raised, NotSelected, "raised INTB0"),
        ("edge 7 rising", 0x46, Merged, NotSelected, "merged INTD1 (already pending)"),
        (
            "edge INTB0 rising",
            0x46,
            NotSelected,
            NotSelected,
            &format!("INTB0 not selected ({falling})"),
        ),
        (
            "edge INTA0 rising",
            0x44,
            NotSelected,
            NotSelected,
            "INTA0 not selected (IAOS 0: the watchdog is the source of INTA0)",
        ),
        (
            "edge INTA0 rising",
            0x46,
            NotSelected,
            NotSelected,
            "INTA0 not selected (EITR bit 0 is 0: falling edges)",
        ),
        (
            "watchdog",
            0x44,
            Raised,
            NotSelected,
            "raised INTA0; TLIP not selected (TLIS 1: NMI is the source of TLIP)",
        ),
        ("watchdog", 0x40, Raised, Merged, "raised INTA0; merged TLIP (already pending)"),
        ("nmi rising", 0x4C, NotSelected, Raised, "raised TLIP"),
        (
            "nmi falling",
            0x4C,
            NotSelected,
            NotSelected,
            "TLIP not selected (TLTEV 1: rising edges)",
        ),
        (
            "nmi falling",
            0x40,
            NotSelected,
            NotSelected,
            "TLIP not selected (TLIS 0: the watchdog is the source of TLIP)",
        ),
        ("request 0", 0x46, Merged, NotSelected, "merged channel 0 (already pending)"),
        (
            "step 0x0002000100000000",
            0x42,
            NotSelected,
            Raised,
            "INTA0 not selected (IAOS 1: pin 0 is the source of INTA0); raised TLIP",
        ),
    ];
    for (line, eivr, maskable, tlip, words) in expected {
        let answer = Ok(Answer::Triggered { maskable, tlip });
        assert_eq!(told(line, with(page_0(), 246, eivr), answer), words, "{line}");
    }
}

#[test]
fn arbitrations_and_resets() {
    let source = Source::channel(0);
    let interrupt = Answer::Interrupt { source, level: 2, vector: 0x34 };
    let moved = Answer::Transferred { source, ended: false };
    let ended = Answer::Transferred { source, ended: true };
    let top_level = Answer::TopLevel { vector: 4 };
    let expected = [
        (top_level, "acknowledged the top level, vector 04h"),
        (interrupt, "acknowledged channel 0, level 2, vector 34h"),
        (moved, "DMA of channel 0: one byte moved"),
        (ended, "DMA of channel 0: one byte moved, block ended"),
    ];
    // DCPR of the record is odd: its transfers are those of the register file.
    let image = with(page_0(), 386, 0x11);
    for (answer, words) in expected {
        assert_eq!(told("arbitrate", image, Ok(answer)), words);
    }
    assert_eq!(told("reset", page_0(), Ok(Answer::Reset)), "reset");
}

#[test]
fn arbitrations_that_find_nothing() {
    let both = with(with(page_0(), 243, 0x18), 245, 0xE7);
    let all = with(with(with(both, 244, 0x08), 230, 0x57), 384, 0x22);
    let dma = with(page_0(), 384, 0x35);
    let expected = [
        (page_0(), "nothing is pending; IEN 1, CPL 7"),
        (page_9(), "the top level is in service; nothing is pending"),
        (both, "pending: INTB1 masked, INTC0 masked; IEN 1, CPL 7"),
        (with(both, 244, 0x18), "pending: INTB1 at level 3, INTC0 at level 4; IEN 1, CPL 7"),
        (
            all,
            "pending: INTB1 at level 3, INTC0 masked, channel 0 masked, TLIP with TLNM 0, TLI 0; IEN 1, CPL 7",
        ),
        (dma, "pending: channel 0 for DMA at level 5; IEN 1, CPL 7"),
        (with(both, st9::MARK, 1), "the top level is in service; pending: INTB1 masked, INTC0 masked"),
    ];
    for (before, why) in expected {
        let words = format!("none ({why})");
        assert_eq!(told("arbitrate", before, Ok(Answer::Nothing)), words);
    }
}

/// What a return restored: IAM before it decides.
#[test]
fn returns() {
    let image = |cicr: u8, nicr: u8| with(with(page_0(), 230, cicr), 247, nicr);
    let expected = [
        (image(0x87, 0), image(0x97, 0), "IEN 0 -> 1"),
        (image(0x97, 0), image(0x97, 0), "IEN 1 as before"),
        (image(0x8A, 0x90), image(0x9C, 0x80), "IEN 0 -> 1, CPL 2 -> 4: HL4 cleared"),
        (image(0x8A, 0x80), image(0x9F, 0x80), "IEN 0 -> 1, CPL 2 -> 7: no HL bit was set"),
        (
            page_9(),
            with(page_9(), st9::MARK, 0),
            "the top level's: the mark is cleared, nothing else",
        ),
    ];
    for (before, after, why) in expected {
        let words = told_between("return", before, after, Ok(Answer::Returned));
        assert_eq!(words, format!("returned ({why})"));
    }
}

const WITHIN: Bound = Bound::Within { outranking: 1, triggers: 2, bound: 4 };

/// A bound over a list with so many arbitrations, and what is told beside it.
fn within(claim: &str, has: &str, beside: &str) -> String {
    let by = "by arbitration 4 at the latest, H 1, E 2";
    format!("{by} ({claim}; the list has {has}{beside})")
}

#[test]
fn bounds_of_one_claim() {
    let list = List { steps: &[], from: 0 };
    let many = [step("arbitrate"); 5];
    for (from, has) in [(0, "5 arbitrations"), (1, "4 arbitrations"), (2, "only 3 arbitrations")] {
        let list = List { steps: &many, from };
        let claimed = Claimed { claim: Claim::Demand3, bound: WITHIN };
        assert_eq!(claimed.explained(list), within("demand 3", has, ""));
    }
    for (claim, name) in [(Claim::Demand3, "demand 3"), (Claim::Handlers, "the handlers' claim")] {
        let claimed = |bound| Claimed { claim, bound };
        assert_eq!(claimed(WITHIN).explained(list), within(name, "no arbitration", ""));
        assert_eq!(claimed(WITHIN).words(list), "by arbitration 4 at the latest, H 1, E 2");
        let fails = claimed(Bound::Fails(Premise::Masked));
        assert_eq!(fails.explained(list), "none: the source is masked");
    }
}

/// A premise of steps has the step, counted from the start of the case, and its line.
#[test]
fn premises_of_steps() {
    let steps = [step("return"), step("arbitrate"), step("write EIPR 0")];
    let told = |claim, premise, from| {
        let claimed = Claimed { claim, bound: Bound::Fails(premise) };
        claimed.explained(List { steps: &steps, from })
    };
    for (index, from) in [(2, 0), (1, 1)] {
        let place = "at step 2 (line 12: write EIPR 00h)";
        let other = Premise::OtherStep { index };
        let words = "none:";
        let demand3 = format!("{words} a step that is no trigger, arbitration or return {place}");
        assert_eq!(told(Claim::Demand3, other, from), demand3);
        assert_eq!(told(Claim::Handlers, other, from), format!("{words} a reset {place}"));
    }
    let disabled = Premise::InterruptsDisabled { index: 0 };
    let words =
        "none: an arbitration with interrupts disabled (IEN = 0) at step 1 (line 12: arbitrate)";
    assert_eq!(told(Claim::Demand3, disabled, 1), words);
    assert_eq!(told(Claim::Handlers, disabled, 1), words);
}

#[test]
fn writes_that_change_what_a_bound_rests_on() {
    let expected = [
        (Basis::Pending, "erases the source's pending bit"),
        (Basis::Mode, "changes the mode (IAM)"),
        (Basis::CurrentLevel, "changes the current level (CPL)"),
        (Basis::TopLevel, "changes the top level's enables (TLI or TLNM)"),
        (Basis::Mask, "changes a source's mask"),
        (Basis::DmaEnable, "changes a channel's DMA enable (DM)"),
        (Basis::Level, "changes a source's level"),
    ];
    let steps = [step("write EIPR 0")];
    for (basis, words) in expected {
        let bound = Bound::Fails(Premise::Changed { basis, index: 0 });
        let claimed = Claimed { claim: Claim::Handlers, bound };
        let told = claimed.explained(List { steps: &steps, from: 0 });
        let place = "the write at step 0 (line 12: write EIPR 00h)";
        assert_eq!(told, format!("none: {place} {words}"));
    }
}

/// Both claims: the one that says more is told, and why demand 3 does not speak.
#[test]
fn bounds_of_both_claims() {
    let steps = [step("read EIPR"), step("write EIPR 0"), step("arbitrate")];
    let list = List { steps: &steps, from: 0 };
    let told = |demand3, handlers| {
        let bounds = Bounds { demand3, handlers };
        (bounds.explained(list), bounds.words(list))
    };
    let by = "by arbitration 4 at the latest, H 1, E 2";
    let (claim, none, one) = ("the handlers' claim", "none:", "only 1 arbitration");
    let both = |long: String, short: String| (long, short);
    assert_eq!(told(WITHIN, None), both(within("demand 3", one, ""), format!("{by} (demand 3)")));
    let read = Bound::Fails(Premise::OtherStep { index: 0 });
    let beside = "demand 3 does not speak of step 0";
    let expected = both(within(claim, one, &format!("; {beside}")), format!("{by} ({claim})"));
    assert_eq!(told(read, Some(WITHIN)), expected);
    let disabled = Bound::Fails(Premise::InterruptsDisabled { index: 2 });
    let arbitrates = "; demand 3 does not speak of step 2 with interrupts disabled";
    let expected = both(within(claim, one, arbitrates), format!("{by} ({claim})"));
    assert_eq!(told(disabled, Some(WITHIN)), expected);
    let erased = Bound::Fails(Premise::Changed { basis: Basis::Pending, index: 1 });
    let words = format!(
        "{none} the write at step 1 (line 12: write EIPR 00h) erases the source's pending bit"
    );
    let expected = both(format!("{words} ({claim}; {beside})"), format!("{words} ({claim})"));
    assert_eq!(told(read, Some(erased)), expected);
    // What fails of both claims alike is told once.
    let write = Bound::Fails(Premise::OtherStep { index: 1 });
    let beside = "demand 3 does not speak of step 1";
    assert_eq!(told(write, Some(erased)).0, format!("{words} ({claim}; {beside})"));
    let words = format!(
        "{none} an arbitration with interrupts disabled (IEN = 0) at step 2 (line 12: arbitrate)"
    );
    assert_eq!(told(disabled, Some(disabled)), both(words.clone(), words));
}
