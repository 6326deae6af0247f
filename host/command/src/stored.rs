//! Stored bytes by name and bit.

use crate::{Object, Place};
use st9::text::hex;
use st9::Channel;

/// A byte of an image and what is stored there.
#[derive(Clone, Copy, Debug, PartialEq, Eq)]
pub struct Stored {
    /// The byte of the image.
    pub place: Place,
    /// What is stored there.
    pub byte: u8,
}

impl Stored {
    /// `EIPR R243 page 0   14h  INTA0 0, INTA1 0, INTB0 1, ..`.
    pub fn words(&self, channels: &[Channel]) -> String {
        let title = self.place.title(channels);
        let bits = self.place.role(channels).all_bits(self.byte);
        let line = format!("{title:<17}  {}  {bits}", hex(self.byte));
        line.trim_end().to_string()
    }

    /// The byte as an object; with the line of the `set` that stored it.
    pub fn json(&self, channels: &[Channel], line: Option<usize>) -> String {
        let fields = self.place.role(channels).fields().iter();
        let values = fields.map(|field| {
            Object::new()
                .text("name", field.name)
                .number("value", field.value(self.byte).into())
                .end()
        });
        let values = values.collect::<Vec<_>>();
        let object = Object::new().text("type", "register");
        let object = match line {
            Some(line) => object.number("line", line as u64),
            None => object,
        };
        object
            .place(self.place, channels)
            .number("byte", self.byte.into())
            .list("fields", &values)
            .end()
    }
}

#[cfg(test)]
mod tests {
    use super::*;

    #[test]
    fn words() {
        let expected = [
            (
                Place::of(0, 230),
                0x97,
                "CICR R230          97h  GCEN 1, TLIP 0, TLI 0, IEN 1, IAM 0, CPL 7",
            ),
            (Place::of(0, 235), 0xE0, "MODER R235         E0h"),
            (
                Place::of(0, 246),
                0x46,
                "EIVR R246 page 0   46h  vector 40h, TLTEV 0, TLIS 1, IAOS 1, EWEN 0",
            ),
            (Place::of(9, 240), 0x3A, "R240 page 9        3Ah"),
            (Place::MARK, 2, "MARK               02h  top level in service"),
        ];
        for (place, byte, words) in expected {
            assert_eq!(Stored { place, byte }.words(&[]), words);
        }
    }
}
