//! The bytes of the memory that differ, told in stretches: a block may change 65,536 of them.

use crate::{Object, PokeLine};
use st9::text::hex;

/// The bytes of a line.
const ROW: usize = 8;

/// The most lines that are told of one run.
const MOST_ROWS: usize = 16;

/// The bytes that are compared at once.
const CHUNK: usize = 4096;

/// Bytes of the memory that follow one another and all changed.
#[derive(Clone, Copy, Debug, PartialEq, Eq)]
pub struct Stretch<'a> {
    /// The address of the first.
    pub address: usize,
    /// What they were.
    pub before: &'a [u8],
    /// What they are.
    pub after: &'a [u8],
}

/// An address as it is printed: `0005h`, five digits from 10000h on.
pub(crate) fn address(address: usize) -> String {
    format!("{address:04X}h")
}

/// Bytes as they are printed: `41h 42h`.
pub(crate) fn bytes(bytes: &[u8]) -> String {
    bytes.iter().map(|byte| hex(*byte)).collect::<Vec<_>>().join(" ")
}

/// The stretches that differ, in the order of the memory.
pub fn stretches<'a>(before: &'a [u8], after: &'a [u8]) -> Vec<Stretch<'a>> {
    let mut found: Vec<Stretch> = Vec::new();
    let mut chunks = before.chunks(CHUNK).zip(after.chunks(CHUNK)).enumerate();
    while let Some((chunk, (old, new))) = chunks.find(|(_, (old, new))| old != new) {
        let start = chunk * CHUNK;
        for place in (start..).zip(old.iter().zip(new)).filter(|(_, (old, new))| old != new) {
            let end = place.0 + 1;
            match found.last_mut() {
                Some(last) if last.address + last.after.len() == place.0 => {
                    *last = stretch(before, after, last.address, end);
                }
                _ => found.push(stretch(before, after, place.0, end)),
            }
        }
    }
    found
}

fn stretch<'a>(before: &'a [u8], after: &'a [u8], address: usize, end: usize) -> Stretch<'a> {
    Stretch { address, before: &before[address..end], after: &after[address..end] }
}

/// The lines of what changed, without their start: eight bytes a line at most, and one line for all that are too many.
pub fn memory_words(stretches: &[Stretch]) -> Vec<String> {
    let mut rows = stretches.iter().flat_map(|stretch| stretch.rows());
    let mut lines: Vec<_> = rows.by_ref().take(MOST_ROWS).map(|row| row.words()).collect();
    let left: Vec<_> = rows.collect();
    if let (Some(first), Some(last)) = (left.first(), left.last()) {
        let more: usize = left.iter().map(|row| row.after.len()).sum();
        let (from, to) = (address(first.address), address(last.last()));
        let all = "all with --json or --save-memory";
        lines.push(format!("memory {from} to {to}  {more} more bytes ({all})"));
    }
    lines
}

impl PokeLine {
    /// `poke  line 4: memory 0005h  41h 42h`.
    pub fn words(&self) -> String {
        let (first, stored) = (address(self.address), bytes(&self.bytes));
        format!("poke  line {}: memory {first}  {stored}", self.line)
    }

    /// The same as an object.
    pub fn json(&self) -> String {
        Object::new()
            .text("type", "poke")
            .number("line", self.line as u64)
            .number("address", self.address as u64)
            .list("bytes", &numbers(&self.bytes))
            .end()
    }
}

/// Bytes as JSON has them.
fn numbers(bytes: &[u8]) -> Vec<String> {
    bytes.iter().map(u8::to_string).collect()
}

impl<'a> Stretch<'a> {
    fn last(&self) -> usize {
        self.address + self.after.len() - 1
    }

    /// The parts of it that lie within one row each.
    fn rows(self) -> impl Iterator<Item = Stretch<'a>> {
        let first = ROW - self.address % ROW;
        let ends =
            (0..).map(move |row| first + row * ROW).take_while(move |end| *end < self.after.len());
        let ends: Vec<_> = ends.chain([self.after.len()]).collect();
        let starts = std::iter::once(0).chain(ends.clone());
        starts.zip(ends).map(move |(start, end)| Stretch {
            address: self.address + start,
            before: &self.before[start..end],
            after: &self.after[start..end],
        })
    }

    /// `memory 0005h  00h -> 5Ah`, `memory 0005h to 0006h  00h 00h -> 41h 42h`.
    fn words(&self) -> String {
        let (before, after) = (bytes(self.before), bytes(self.after));
        let place = match self.after.len() {
            1 => address(self.address),
            _ => format!("{} to {}", address(self.address), address(self.last())),
        };
        format!("memory {place}  {before} -> {after}")
    }

    /// As an expectation is written: `M0005h 00h -> 5Ah`.
    pub(crate) fn written(&self) -> String {
        format!("M{} {} -> {}", address(self.address), bytes(self.before), bytes(self.after))
    }

    /// The first bytes of it.
    pub(crate) fn start(self, length: usize) -> Stretch<'a> {
        let end = length.min(self.after.len());
        Stretch { before: &self.before[..end], after: &self.after[..end], ..self }
    }

    /// The stretch as an object; of one step with its index.
    pub fn json(&self, step: Option<usize>) -> String {
        let object = Object::new().text("type", "memory");
        let object = match step {
            Some(step) => object.number("step", step as u64),
            None => object,
        };
        object
            .number("address", self.address as u64)
            .list("before", &numbers(self.before))
            .list("after", &numbers(self.after))
            .end()
    }
}

#[cfg(test)]
mod tests {
    use super::*;

    fn told(before: &[u8], after: &[u8]) -> Vec<String> {
        memory_words(&stretches(before, after))
    }

    #[test]
    fn stretches_of_changed_bytes() {
        let before = vec![0; 3 * CHUNK];
        assert_eq!(stretches(&before, &before), []);
        let mut after = before.clone();
        after[CHUNK - 1..=CHUNK].copy_from_slice(&[1, 2]);
        after[CHUNK + 2] = 3;
        after[3 * CHUNK - 1] = 4;
        let found = stretches(&before, &after);
        let found: Vec<_> = found.iter().map(|one| (one.address, one.before, one.after)).collect();
        let (two, one) = (&[0, 0][..], &[0][..]);
        let last = 3 * CHUNK - 1;
        let expected = [(CHUNK - 1, two, &[1, 2][..]), (CHUNK + 2, one, &[3]), (last, one, &[4])];
        assert_eq!(found, expected);
    }

    #[test]
    fn lines() {
        let before = [0; 40];
        let mut after = before;
        after[5] = 0x5A;
        assert_eq!(told(&before, &after), ["memory 0005h  00h -> 5Ah"]);
        after[6..10].fill(0x11);
        let expected = [
            "memory 0005h to 0007h  00h 00h 00h -> 5Ah 11h 11h",
            "memory 0008h to 0009h  00h 00h -> 11h 11h",
        ];
        assert_eq!(told(&before, &after), expected);
        assert_eq!(told(&before, &before), [""; 0]);
        after[16..32].fill(1);
        assert_eq!(told(&before, &after).len(), 4);
    }

    #[test]
    fn too_many_lines() {
        let (before, mut after) = (vec![0; 1 << 20], vec![0; 1 << 20]);
        after[0x100..0x180].fill(1);
        assert_eq!(told(&before, &after).len(), 16);
        after[0xFFFF..=0x10000].fill(1);
        let lines = told(&before, &after);
        assert_eq!(lines[15..], ["memory 0178h to 017Fh  00h 00h 00h 00h 00h 00h 00h 00h -> 01h 01h 01h 01h 01h 01h 01h 01h", "memory FFFFh to 10000h  2 more bytes (all with --json or --save-memory)"]);
    }

    #[test]
    fn as_an_expectation() {
        let (before, after) = ([0; 3], [0, 1, 2]);
        let [one] = stretches(&before, &after)[..] else { panic!("one stretch") };
        assert_eq!(one.written(), "M0001h 00h 00h -> 01h 02h");
        assert_eq!(one.start(1).written(), "M0001h 00h -> 01h");
        assert_eq!(one.start(9), one);
        assert_eq!(address(0x1_0000), "10000h");
    }
}
