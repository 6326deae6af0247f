//! The numbers of the registers, and their bits.

/// The registers that document 01 names, by their number; those from `EITR` on are of page 0.
pub mod register {
    /// Central interrupt control register.
    pub const CICR: u8 = 230;
    /// Page pointer register: bits 7:2 are the page that R240 to R255 go to.
    pub const PPR: u8 = 234;
    /// Mode register.
    pub const MODER: u8 = 235;
    /// External interrupt trigger register: bit k is 1 where a rising edge triggers pin k.
    pub const EITR: u8 = 242;
    /// External interrupt pending register: bit k is source k's.
    pub const EIPR: u8 = 243;
    /// External interrupt mask-bit register: bit k is 1 where source k is unmasked.
    pub const EIMR: u8 = 244;
    /// External interrupt priority level register: two bits a group, A lowest. The level of source k is twice those of
    /// its group, plus k modulo 2; 0 is the highest.
    pub const EIPLR: u8 = 245;
    /// External interrupt vector register: the upper half plus 2k is the vector of source k.
    pub const EIVR: u8 = 246;
    /// Nested interrupt control register.
    pub const NICR: u8 = 247;
}

/// The bits of CICR.
pub mod cicr {
    /// Global counter enable: stored, without effect here.
    pub const GCEN: u8 = 0x80;
    /// Top level interrupt pending.
    pub const TLIP: u8 = 0x40;
    /// Top level interrupt enabled, where IEN is 1 too.
    pub const TLI: u8 = 0x20;
    /// Interrupts enabled.
    pub const IEN: u8 = 0x10;
    /// Arbitration mode: 0 concurrent, 1 nested.
    pub const IAM: u8 = 0x08;
    /// Current priority level.
    pub const CPL: u8 = 0x07;
}

/// The bits of EIVR.
pub mod eivr {
    /// Upper half of the external channels' vectors.
    pub const VECTOR: u8 = 0xF0;
    /// 1: a rising edge of NMI triggers.
    pub const TLTEV: u8 = 0x08;
    /// Source of the top level: 1 NMI, 0 the watchdog.
    pub const TLIS: u8 = 0x04;
    /// Source of INTA0: 1 its pin, 0 the watchdog.
    pub const IAOS: u8 = 0x02;
    /// External wait enable: stored, without effect here.
    pub const EWEN: u8 = 0x01;
}

/// The bits of NICR.
pub mod nicr {
    /// Top level not maskable; a write sets it and does not clear it.
    pub const TLNM: u8 = 0x80;
    /// Bit x is HLx: level x was left by a nested acknowledgement.
    pub const HL: u8 = 0x7F;
}

/// The bits of a record's IDCR.
pub mod idcr {
    /// Pending.
    pub const IP: u8 = 0x20;
    /// DMA enabled.
    pub const DM: u8 = 0x10;
    /// Interrupt unmasked.
    pub const IM: u8 = 0x08;
    /// Priority level.
    pub const PRL: u8 = 0x07;
}

#[cfg(test)]
mod tests {
    use super::*;

    /// The bits from `high` down to `low`.
    fn bits(high: u32, low: u32) -> u8 {
        (low..=high).map(|position| 1 << position).sum()
    }

    /// Document 01's table.
    #[test]
    fn by_their_positions() {
        let table = [
            (cicr::GCEN, 7, 7),
            (cicr::TLIP, 6, 6),
            (cicr::TLI, 5, 5),
            (cicr::IEN, 4, 4),
            (cicr::IAM, 3, 3),
            (cicr::CPL, 2, 0),
            (eivr::VECTOR, 7, 4),
            (eivr::TLTEV, 3, 3),
            (eivr::TLIS, 2, 2),
            (eivr::IAOS, 1, 1),
            (eivr::EWEN, 0, 0),
            (nicr::TLNM, 7, 7),
            (nicr::HL, 6, 0),
            (idcr::IP, 5, 5),
            (idcr::DM, 4, 4),
            (idcr::IM, 3, 3),
            (idcr::PRL, 2, 0),
        ];
        for (index, (field, high, low)) in table.into_iter().enumerate() {
            assert_eq!(field, bits(high, low), "row {index}");
        }
    }
}
