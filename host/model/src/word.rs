//! Step words: kind * 2^48 + trigger * 2^32 + first * 2^8 + second.

/// Any kind, trigger kind, first (24 bits) and second.
pub fn word(kind: u16, trigger: u16, first: u32, second: u8) -> u64 {
    u64::from(kind) << 48
        | u64::from(trigger) << 32
        | u64::from(first & 0xFF_FFFF) << 8
        | u64::from(second)
}

/// A read of a register.
pub fn read(register: u32) -> u64 {
    word(0, 0, register, 0)
}

/// A write of a value to a register.
pub fn write(register: u32, value: u8) -> u64 {
    word(1, 0, register, value)
}

/// An edge at a pin: 0 falling, 1 rising.
pub fn pin_edge(pin: u32, direction: u8) -> u64 {
    word(2, 0, pin, direction)
}

/// The watchdog's end of count.
pub fn watchdog() -> u64 {
    word(2, 1, 0, 0)
}

/// An edge at NMI: 0 falling, 1 rising.
pub fn nmi_edge(direction: u8) -> u64 {
    word(2, 2, 0, direction)
}

/// A request of a record of the channel list.
pub fn request(record: u32) -> u64 {
    word(2, 3, record, 0)
}

/// An arbitration.
pub fn arbitrate() -> u64 {
    word(3, 0, 0, 0)
}

/// A return.
pub fn return_from() -> u64 {
    word(4, 0, 0, 0)
}

/// A reset.
pub fn reset() -> u64 {
    word(5, 0, 0, 0)
}
