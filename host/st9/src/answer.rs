//! One step and its answer.

use crate::text::hex;
use crate::{calls, sys, Channel, Refusal, Source, Step};
use std::fmt;

/// What a trigger did to a pending bit.
#[derive(Clone, Copy, Debug, PartialEq, Eq, Hash)]
pub enum Effect {
    /// The trigger does not select the bit.
    NotSelected,
    /// The bit was 0 and is 1.
    Raised,
    /// The bit was 1 already.
    Merged,
}

/// The answer of a step that was done.
#[derive(Clone, Copy, Debug, PartialEq, Eq, Hash)]
pub enum Answer {
    /// A read: the stored byte, absent bits as 0.
    Byte(u8),
    /// A write.
    Written {
        /// The EIPR bits that the write took from 1 to 0: pending alarms that it erased. An erased TLIP or IP of a
        /// record is not among them: compare the bytes of CICR and of its IDCR.
        erased: u8,
    },
    /// A trigger.
    Triggered {
        /// What it did to the source's EIPR or IP bit.
        maskable: Effect,
        /// What it did to TLIP.
        tlip: Effect,
    },
    /// An arbitration that found nothing.
    Nothing,
    /// An arbitration that acknowledged the top level.
    TopLevel {
        /// The vector, 04h.
        vector: u8,
    },
    /// An arbitration that acknowledged an interrupt.
    Interrupt {
        /// The source acknowledged.
        source: Source,
        /// Its level.
        level: u8,
        /// Its vector.
        vector: u8,
    },
    /// An arbitration that served DMA: one byte moved.
    Transferred {
        /// The source served.
        source: Source,
        /// Whether this was the last byte of the block.
        ended: bool,
    },
    /// A return.
    Returned,
    /// A reset.
    Reset,
}

/// Does one step. A refused one changes nothing. The memory is what DMA moves bytes into and out of, at most
/// [`MOST_MEMORY`](crate::MOST_MEMORY) bytes and `&mut []` where there is none.
///
/// ```
/// use st9::{place, register, step, Answer, Refusal, Step};
///
/// let mut image = [0; st9::IMAGE_LENGTH];
/// image[place(0, register::EIPR)] = 0x14;
/// let answer = step(&mut image, &[], &mut [], Step::write(register::EIPR, 0x10))?;
/// assert_eq!(answer, Answer::Written { erased: 0x04 });
/// assert_eq!(answer.to_string(), "erased 04h: INTB0");
/// assert_eq!(step(&mut image, &[], &mut [], Step::Read { register: 256 }), Err(Refusal::Register));
/// # Ok::<(), Refusal>(())
/// ```
pub fn step(
    image: &mut [u8],
    channels: &[Channel],
    memory: &mut [u8],
    step: Step,
) -> Result<Answer, Refusal> {
    let flat = calls::step(image, channels, memory, step.word());
    match flat.kind {
        sys::REFUSED => Err(Refusal::answered(flat.refusal)),
        _ => Ok(Answer::told(&flat)),
    }
}

impl Answer {
    pub(crate) fn told(flat: &sys::Answer) -> Answer {
        match flat.kind {
            sys::BYTE => Answer::Byte(byte(flat.first)),
            sys::WRITTEN => Answer::Written { erased: byte(flat.first) },
            sys::TRIGGERED => Answer::Triggered {
                maskable: Effect::told(flat.first),
                tlip: Effect::told(flat.second),
            },
            sys::NOTHING => Answer::Nothing,
            sys::TOP_LEVEL => Answer::TopLevel { vector: byte(flat.third) },
            sys::INTERRUPT => Answer::Interrupt {
                source: source(flat.first),
                level: byte(flat.second),
                vector: byte(flat.third),
            },
            sys::TRANSFERRED => {
                Answer::Transferred { source: source(flat.first), ended: flat.second != 0 }
            }
            sys::RETURNED => Answer::Returned,
            sys::RESET => Answer::Reset,
            kind => calls::foreign("the kind of a step's answer", kind),
        }
    }
}

impl Effect {
    fn told(number: u64) -> Effect {
        match number {
            sys::NOT_SELECTED => Effect::NotSelected,
            sys::RAISED => Effect::Raised,
            sys::MERGED => Effect::Merged,
            _ => calls::foreign("what a trigger did", number),
        }
    }
}

/// `byte 14h`, `acknowledged INTB0, level 2, vector 44h`.
impl fmt::Display for Answer {
    fn fmt(&self, f: &mut fmt::Formatter<'_>) -> fmt::Result {
        f.pad(&match *self {
            Answer::Byte(byte) => format!("byte {}", hex(byte)),
            Answer::Written { erased } => written(erased),
            Answer::Triggered { maskable, tlip } => triggered(maskable, tlip),
            Answer::Nothing => "none".to_string(),
            Answer::TopLevel { vector } => {
                format!("acknowledged the top level, vector {}", hex(vector))
            }
            Answer::Interrupt { source, level, vector } => {
                format!("acknowledged {source}, level {level}, vector {}", hex(vector))
            }
            Answer::Transferred { source, ended } => {
                let end = if ended { ", block ended" } else { "" };
                format!("DMA of {source}: one byte moved{end}")
            }
            Answer::Returned => "returned".to_string(),
            Answer::Reset => "reset".to_string(),
        })
    }
}

/// `not selected`, `raised` or `merged`.
impl fmt::Display for Effect {
    fn fmt(&self, f: &mut fmt::Formatter<'_>) -> fmt::Result {
        f.pad(match self {
            Effect::NotSelected => "not selected",
            Effect::Raised => "raised",
            Effect::Merged => "merged",
        })
    }
}

/// Of TLIP and a record's IP the answer has nothing, so that the text promises nothing.
fn written(erased: u8) -> String {
    let lost = (0..8).filter(|position| erased >> position & 1 == 1);
    let names: Vec<_> = lost.map(|position| Source(position).to_string()).collect();
    match erased {
        0 => "written, nothing erased from EIPR".to_string(),
        _ => format!("erased {}: {}", hex(erased), names.join(", ")),
    }
}

/// The maskable bit is not named: the answer does not have the source.
fn triggered(maskable: Effect, tlip: Effect) -> String {
    match (maskable, tlip) {
        (_, Effect::NotSelected) => maskable.to_string(),
        (Effect::NotSelected, _) => format!("{tlip} TLIP"),
        _ => format!("{maskable}; {tlip} TLIP"),
    }
}

fn byte(number: u64) -> u8 {
    u8::try_from(number).unwrap_or_else(|_| calls::foreign("a byte", number))
}

fn source(number: u64) -> Source {
    Source(u32::try_from(number).unwrap_or_else(|_| calls::foreign("a source", number)))
}

#[cfg(test)]
mod tests {
    use super::*;

    /// The kinds and effects by their numbers in `include/st9.h`.
    #[test]
    fn answers_by_number() {
        let (maskable, tlip) = (Effect::Merged, Effect::Raised);
        let channel = Source::channel(0);
        let expected = [
            (1, [0x97, 0, 0], Answer::Byte(0x97)),
            (2, [0x14, 0, 0], Answer::Written { erased: 0x14 }),
            (3, [2, 1, 0], Answer::Triggered { maskable, tlip }),
            (4, [0, 0, 0], Answer::Nothing),
            (5, [0, 0, 4], Answer::TopLevel { vector: 0x04 }),
            (6, [8, 2, 0x44], Answer::Interrupt { source: channel, level: 2, vector: 0x44 }),
            (7, [8, 1, 0], Answer::Transferred { source: channel, ended: true }),
            (7, [8, 0, 0], Answer::Transferred { source: channel, ended: false }),
            (8, [0, 0, 0], Answer::Returned),
            (9, [0, 0, 0], Answer::Reset),
        ];
        for (kind, [first, second, third], answer) in expected {
            let flat = sys::Answer { kind, first, second, third, ..sys::Answer::default() };
            assert_eq!(Answer::told(&flat), answer);
        }
        assert_eq!(Effect::told(0), Effect::NotSelected);
    }
}
