//! The registers that differ between two images.

use crate::{Names, Object, Place};
use st9::text::hex;
use st9::Channel;
use std::fmt::Write;

/// A byte that changed.
#[derive(Clone, Copy, Debug, PartialEq, Eq)]
pub struct Change {
    /// The byte of the image.
    pub place: Place,
    /// What it was.
    pub before: u8,
    /// What it is.
    pub after: u8,
}

/// The bytes that differ, in the order of the image.
pub fn changes(before: &[u8], after: &[u8]) -> Vec<Change> {
    let pairs = before.iter().zip(after).enumerate();
    pairs
        .filter(|(_, (before, after))| before != after)
        .map(|(index, (before, after))| Change {
            place: Place(index),
            before: *before,
            after: *after,
        })
        .collect()
}

impl Change {
    /// `CICR R230  97h -> 87h  IEN 1 -> 0`.
    pub fn words(&self, channels: &[Channel], names: &Names) -> String {
        let title = self.place.title(channels);
        let mut words = format!("{title}  {} -> {}", hex(self.before), hex(self.after));
        let mut separator = "  ";
        for field in self.place.role(channels).fields() {
            if field.value(self.before) != field.value(self.after) {
                let (before, after) = (field.value_told(self.before), field.value_told(self.after));
                let _ = write!(words, "{separator}{} {before} -> {after}", field.title(names));
                separator = ", ";
            }
        }
        words
    }

    /// The change as an object; of one step with its index.
    pub fn json(&self, channels: &[Channel], step: Option<usize>) -> String {
        let fields = self.place.role(channels).fields().iter();
        let changed = fields
            .filter(|field| field.value(self.before) != field.value(self.after))
            .map(|field| {
                Object::new()
                    .text("name", field.name)
                    .number("before", field.value(self.before).into())
                    .number("after", field.value(self.after).into())
                    .end()
            });
        let changed = changed.collect::<Vec<_>>();
        let object = Object::new().text("type", "change");
        let object = match step {
            Some(step) => object.number("step", step as u64),
            None => object,
        };
        object
            .place(self.place, channels)
            .number("before", self.before.into())
            .number("after", self.after.into())
            .list("fields", &changed)
            .end()
    }
}

#[cfg(test)]
mod tests {
    use super::*;

    #[test]
    fn words() {
        let channel =
            Channel { page: 9, idcr: 240, ivr: 241, dcpr: 242, dapr: 243, data: 244, direction: 0 };
        let expected = [
            (Place::of(0, 230), 0x97, 0x87, "CICR R230  97h -> 87h  IEN 1 -> 0"),
            (Place::of(0, 243), 0x00, 0x10, "EIPR R243 page 0  00h -> 10h  INTC0 0 -> 1"),
            (
                Place::of(9, 240),
                0x3A,
                0x2A,
                "IDCR of channel 0, R240 page 9  3Ah -> 2Ah  DM 1 -> 0",
            ),
            (Place::of(0, 16), 0x14, 0x15, "R16  14h -> 15h"),
            (
                Place::of(0, 234),
                0x27,
                0x00,
                "PPR R234  27h -> 00h  page 9 -> 0, absent bits 1:0 3 -> 0",
            ),
            (Place::of(0, 246), 0x46, 0x56, "EIVR R246 page 0  46h -> 56h  vector 40h -> 50h"),
            (Place::MARK, 0, 1, "MARK  00h -> 01h"),
        ];
        for (place, before, after, words) in expected {
            let change = Change { place, before, after };
            assert_eq!(change.words(&[channel], &Names::default()), words);
        }
    }

    #[test]
    fn images() {
        assert_eq!(changes(&[1, 2, 3], &[1, 2, 3]), []);
        let change = Change { place: Place(1), before: 2, after: 4 };
        assert_eq!(changes(&[1, 2, 3], &[1, 4, 3]), [change]);
    }
}
