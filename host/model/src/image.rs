//! The image: where registers stand in it, and the names of their bits.

/// The bytes of an image.
pub const IMAGE_LENGTH: usize = 1265;

/// The byte of the top-level-in-service mark.
pub const MARK: usize = 1264;

/// An image of the right length.
pub(crate) type Image = [u8; IMAGE_LENGTH];

/// The most bytes of a memory: all that a 16-bit address reaches.
pub const MOST_MEMORY: usize = 1 << 16;

/// The last register that a transfer may reach, and the first of the last pair.
pub(crate) const LAST_FILE_REGISTER: u8 = 223;
pub(crate) const LAST_PAIR: u8 = 222;

// The bytes of the named registers. Those of page 0 (from EITR on) stand at the byte of their number too.
pub(crate) const CICR: usize = 230;
pub(crate) const PPR: usize = 234;
pub(crate) const EITR: usize = 242;
pub(crate) const EIPR: usize = 243;
pub(crate) const EIMR: usize = 244;
pub(crate) const EIPLR: usize = 245;
pub(crate) const EIVR: usize = 246;
pub(crate) const NICR: usize = 247;

// Bits of CICR.
pub(crate) const TLIP: u8 = 1 << 6;
pub(crate) const TLI: u8 = 1 << 5;
pub(crate) const IEN: u8 = 1 << 4;
pub(crate) const IAM: u8 = 1 << 3;
pub(crate) const CPL: u8 = 7;

// Bits of EIVR.
pub(crate) const TLTEV: u8 = 1 << 3;
pub(crate) const TLIS: u8 = 1 << 2;
pub(crate) const IAOS: u8 = 1 << 1;
pub(crate) const VECTOR: u8 = 0xF0;

// Bits of NICR.
pub(crate) const TLNM: u8 = 1 << 7;
pub(crate) const HL: u8 = 0x7F;

// Bits of a record's IDCR.
pub(crate) const IP: u8 = 1 << 5;
pub(crate) const DM: u8 = 1 << 4;
pub(crate) const IM: u8 = 1 << 3;
pub(crate) const PRL: u8 = 7;
pub(crate) const IDCR_BITS: u8 = 0x3F;

/// The byte of register `register` (240 to 255) of page `page`: 240 + 16p + (r - 240).
pub fn paged(page: u8, register: u8) -> usize {
    16 * usize::from(page) + usize::from(register)
}

/// Whether the byte at `place` has one of these bits.
pub(crate) fn has(image: &Image, place: usize, bits: u8) -> bool {
    image[place] & bits != 0
}

/// The current priority level.
pub(crate) fn current_level(image: &Image) -> u8 {
    image[CICR] & CPL
}

/// Whether the top level is in service: any nonzero mark.
pub(crate) fn in_service(image: &Image) -> bool {
    image[MARK] != 0
}
