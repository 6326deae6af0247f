//! The image: its bytes, where a register has its own, and the view of a page.

use crate::{calls, Refusal};

/// The bytes of an image: R0 to R239, then R240 to R255 of pages 0 to 63, then the top-level-in-service mark.
pub const IMAGE_LENGTH: usize = 1265;

/// The byte of the mark: not 0 where the top level is in service.
pub const MARK: usize = 1264;

/// The byte of an image that a register has. The page matters for registers 240 to 255 alone; one over 63 has no
/// registers in an image, and the byte is then the one past its end.
///
/// ```
/// use st9::{place, register, IMAGE_LENGTH};
///
/// assert_eq!(place(0, register::CICR), 230);
/// assert_eq!(place(9, 240), 384);
/// assert_eq!(place(64, 240), IMAGE_LENGTH);
/// ```
pub const fn place(page: u8, register: u8) -> usize {
    match (page, register) {
        (_, 0..=239) => register as usize,
        (0..=63, _) => 240 + 16 * page as usize + (register as usize - 240),
        _ => IMAGE_LENGTH,
    }
}

/// The sixteen bytes of a page, as stored: a part of the image itself, whatever page PPR selects.
///
/// Refused with 1 where the image has another length, then with 3 where the page is over 63.
///
/// ```
/// use st9::{view, Refusal};
///
/// let image = [0; st9::IMAGE_LENGTH];
/// assert_eq!(view(&image, 9), Ok(&image[384..400]));
/// assert_eq!(view(&image, 64), Err(Refusal::Register));
/// assert_eq!(view(&image[1..], 64), Err(Refusal::ImageLength));
/// ```
pub fn view(image: &[u8], page: u32) -> Result<&[u8], Refusal> {
    let number = calls::view_number(image, page);
    if number != 0 {
        return Err(Refusal::answered(number));
    }
    let start = 240 + 16 * page as usize;
    match image.get(start..start + 16) {
        Some(bytes) => Ok(bytes),
        None => calls::foreign("a view's number", number),
    }
}
