//! The refusals of document 01, with those of the memory.

use crate::{calls, text};
use std::fmt;

/// Why a call or a step was refused. Nothing was changed by what was refused.
#[repr(u8)]
#[derive(Clone, Copy, Debug, PartialEq, Eq, Hash, PartialOrd, Ord)]
pub enum Refusal {
    /// 1: the image's length is not 1,265.
    ImageLength = 1,
    /// 2: the channel list breaks a rule.
    ChannelList = 2,
    /// 3: a register that is not modelled or over 255, a viewed page over 63.
    Register = 3,
    /// 4: a pin over 7, a direction over 1, a record or a source that isn't there.
    Number = 4,
    /// 5: the DMA winner has a memory address that is not below the memory's length.
    Address = 5,
    /// 6: the DMA winner has a pointer pair or an address over 223 (register file), or a pointer over 222 (memory),
    /// which comes before 5.
    Pointer = 6,
    /// 7: a kind of step or of trigger that is unknown.
    UnknownKind = 7,
    /// 8: the memory is over 65,536 bytes, whatever the step; checked right after 2.
    Memory = 8,
}

impl Refusal {
    /// All refusals, in the order of their numbers.
    pub const ALL: [Refusal; 8] = [
        Refusal::ImageLength,
        Refusal::ChannelList,
        Refusal::Register,
        Refusal::Number,
        Refusal::Address,
        Refusal::Pointer,
        Refusal::UnknownKind,
        Refusal::Memory,
    ];

    /// Its number, 1 to 8.
    pub const fn number(self) -> u8 {
        self as u8
    }

    /// The refusal of a number, if there is one.
    pub fn from_number(number: u64) -> Option<Refusal> {
        Refusal::ALL.into_iter().find(|refusal| u64::from(refusal.number()) == number)
    }

    /// `refused with 3 (..)`: the number and the meaning. The refusal itself is printed as its meaning alone.
    pub fn with_number(self) -> String {
        text::refused(self, "")
    }

    pub(crate) fn answered(number: u64) -> Refusal {
        Refusal::from_number(number).unwrap_or_else(|| calls::foreign("a refusal", number))
    }
}

/// Document 01's words: "given exactly when".
impl fmt::Display for Refusal {
    fn fmt(&self, f: &mut fmt::Formatter<'_>) -> fmt::Result {
        f.pad(match self {
            Refusal::ImageLength => "image length is not 1,265",
            Refusal::ChannelList => "channel list breaks a rule",
            Refusal::Register => {
                "register read or written not modelled or over 255; viewed page over 63"
            }
            Refusal::Number => {
                "pin over 7, direction over 1, record or source number that isn't there"
            }
            Refusal::Address => "the DMA winner has a memory address not below the memory's length",
            Refusal::Pointer => {
                "the DMA winner has n or a over 223, or a pointer over 222 (memory)"
            }
            Refusal::UnknownKind => "step or trigger kind unknown",
            Refusal::Memory => "the memory is over 65,536 bytes",
        })
    }
}

impl std::error::Error for Refusal {}
