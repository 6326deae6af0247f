//! The records of a channel list.

/// The most records of a channel list.
pub const MOST_CHANNELS: usize = 12;

/// The most bytes of a memory: with so many every 16-bit address is one of its bytes.
pub const MOST_MEMORY: usize = 65_536;

/// A record of the channel list: a page of 1 to 63, five register numbers of 240 to 255 there, and a direction.
///
/// Any bytes may be lent: a list that breaks a rule is refused with 2.
///
/// A DMA transfer moves one byte between the data register and the register file or the memory that is lent; bit 0 of
/// DCPR says which. It then adds 1 to the address, takes 1 from the counter and clears IP, so that every byte needs its
/// request; the last byte of a block clears DM too, and leaves IP set if IM is 1.
///
/// | DCPR bit 0 | Between the data register and | Address and counter |
/// |---|---|---|
/// | 1 | the register file | 8 bits each: the pair that DCPR with bit 0 cleared names, the address first |
/// | 0 | the memory | 16 bits each, high byte first: the address in the pair that DAPR with bit 0 cleared names, the counter in DCPR's; where both are one pair, the counter stands |
///
/// ```
/// use st9::{idcr, place, step, Channel, Direction, Step};
///
/// let direction = Direction::ToRegisterFile as u8;
/// let adc =
///     Channel { page: 9, idcr: 240, ivr: 241, dcpr: 242, dapr: 243, data: 244, direction };
/// let mut image = [0; st9::IMAGE_LENGTH];
/// image[place(adc.page, adc.idcr)] = idcr::IM | 3; // unmasked, at level 3
/// let answer = step(&mut image, &[adc], &mut [], Step::Request { record: 0 })?;
/// assert_eq!(answer.to_string(), "raised");
/// assert_eq!(image[place(adc.page, adc.idcr)], idcr::IP | idcr::IM | 3);
/// # Ok::<(), st9::Refusal>(())
/// ```
///
/// The same channel with DMA into a memory of sixteen bytes:
///
/// ```
/// use st9::{cicr, idcr, place, register, run, Channel, Direction, Step};
///
/// let direction = Direction::ToRegisterFile as u8;
/// let adc =
///     Channel { page: 9, idcr: 240, ivr: 241, dcpr: 242, dapr: 243, data: 244, direction };
/// let mut image = [0; st9::IMAGE_LENGTH];
/// let mut memory = [0; 16];
/// image[place(0, register::CICR)] = cicr::CPL;
/// image[place(adc.page, adc.idcr)] = idcr::DM | idcr::IM | 3; // at level 3
/// image[place(adc.page, adc.dcpr)] = 16; // the counter is R16 and R17; bit 0 is 0: memory
/// image[place(adc.page, adc.dapr)] = 18; // the address is R18 and R19
/// image[place(adc.page, adc.data)] = 0x5A;
/// (image[17], image[19]) = (2, 5); // two bytes, from address 5 on
///
/// let steps = [Step::Request { record: 0 }, Step::Arbitrate];
/// let done = run(&mut image, &[adc], &mut memory, &steps)?;
/// assert_eq!(done.to_string(), "done: 2 steps, last answer: DMA of channel 0: one byte moved");
/// assert_eq!(memory[5], 0x5A);
/// assert_eq!(image[16..20], [0, 1, 0, 6]);
/// # Ok::<(), st9::RunError>(())
/// ```
#[repr(C)]
#[derive(Clone, Copy, Debug, PartialEq, Eq, Hash)]
pub struct Channel {
    /// The page of the five registers.
    pub page: u8,
    /// Interrupt and DMA control register: IP, DM, IM, PRL.
    pub idcr: u8,
    /// Interrupt vector register.
    pub ivr: u8,
    /// DMA counter pointer register; its bit 0 is 1 for the register file, 0 for the memory.
    pub dcpr: u8,
    /// DMA address pointer register, of the memory's address.
    pub dapr: u8,
    /// The peripheral's data register.
    pub data: u8,
    /// 0: peripheral to register file or memory, 1: the reverse ([`Direction`]).
    pub direction: u8,
}

/// The direction of a record's transfers.
#[repr(u8)]
#[derive(Clone, Copy, Debug, PartialEq, Eq, Hash)]
pub enum Direction {
    /// From the peripheral's data register into the register file or the memory.
    ToRegisterFile = 0,
    /// From the register file or the memory into the peripheral's data register.
    ToPeripheral = 1,
}
