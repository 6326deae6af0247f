//! The bits of registers by name.

use crate::names::{source, Names, Place, Role};
use crate::number::number;
use st9::text::hex;
use st9::{register, Source};

/// A bit or a row of bits of a register.
#[derive(Clone, Copy, Debug, PartialEq, Eq)]
pub struct Field {
    /// The name in document 01.
    pub name: &'static str,
    high: u8,
    low: u8,
    form: Form,
}

#[derive(Clone, Copy, Debug, PartialEq, Eq)]
enum Form {
    /// A bit or a number.
    Number,
    /// The upper half of a vector.
    Vector,
    /// The level bits of a group of two external channels.
    Group,
    /// Bits that document 01 calls absent.
    Absent,
}

const fn bit(name: &'static str, position: u8) -> Field {
    row(name, position, position, Form::Number)
}

const fn row(name: &'static str, high: u8, low: u8, form: Form) -> Field {
    Field { name, high, low, form }
}

const CICR: &[Field] = &[
    bit("GCEN", 7),
    bit("TLIP", 6),
    bit("TLI", 5),
    bit("IEN", 4),
    bit("IAM", 3),
    row("CPL", 2, 0, Form::Number),
];

const PPR: &[Field] =
    &[row("page", 7, 2, Form::Number), row("absent bits 1:0", 1, 0, Form::Absent)];

/// A bit for each external channel, in the order of the sources.
const EXTERNAL: &[Field] = &[
    bit("INTA0", 0),
    bit("INTA1", 1),
    bit("INTB0", 2),
    bit("INTB1", 3),
    bit("INTC0", 4),
    bit("INTC1", 5),
    bit("INTD0", 6),
    bit("INTD1", 7),
];

const EIPLR: &[Field] = &[
    row("group A", 1, 0, Form::Group),
    row("group B", 3, 2, Form::Group),
    row("group C", 5, 4, Form::Group),
    row("group D", 7, 6, Form::Group),
];

const EIVR: &[Field] = &[
    row("vector", 7, 4, Form::Vector),
    bit("TLTEV", 3),
    bit("TLIS", 2),
    bit("IAOS", 1),
    bit("EWEN", 0),
];

const NICR: &[Field] = &[
    bit("TLNM", 7),
    bit("HL6", 6),
    bit("HL5", 5),
    bit("HL4", 4),
    bit("HL3", 3),
    bit("HL2", 2),
    bit("HL1", 1),
    bit("HL0", 0),
];

const IDCR: &[Field] = &[
    bit("IP", 5),
    bit("DM", 4),
    bit("IM", 3),
    row("PRL", 2, 0, Form::Number),
    row("absent bits 7:6", 7, 6, Form::Absent),
];

/// Bits of a byte: those of a mask, and what they are.
#[derive(Clone, Copy, Debug, PartialEq, Eq)]
pub struct Bits {
    /// Which.
    pub mask: u8,
    /// Their values, 0 outside of the mask.
    pub value: u8,
}

impl Bits {
    /// All eight.
    pub fn byte(value: u8) -> Bits {
        Bits { mask: 0xFF, value }
    }

    /// A byte with these bits stored in it.
    pub fn stored_in(self, byte: u8) -> u8 {
        byte & !self.mask | self.value
    }

    /// Whether a byte has these bits.
    pub fn are_in(self, byte: u8) -> bool {
        byte & self.mask == self.value
    }

    /// The bits as they are written: `97h`, `IEN=1 CPL=7`.
    pub(crate) fn written(self, place: Place) -> String {
        if self.mask == 0xFF {
            return hex(self.value);
        }
        let fields = place.fields().iter().filter(|field| self.mask & field.mask() != 0);
        let words =
            fields.map(|field| format!("{}={}", field.word(), field.value_told(self.value)));
        words.collect::<Vec<_>>().join(" ")
    }
}

impl Place {
    /// The fields by which a byte can be written before the channel list is known: on pages from 1 on those of an IDCR.
    pub(crate) fn fields(self) -> &'static [Field] {
        match (self.role(&[]), self.register()) {
            (Role::Plain, Some((_, Some(1..)))) => IDCR,
            (role, _) => role.fields(),
        }
    }

    /// The bits that a word as `IEN=1` names; own names stand for the bits of external channels.
    pub(crate) fn bits(self, word: &[u8], names: &Names) -> Result<Bits, String> {
        let fields = self.fields().iter().filter(|field| field.form != Form::Absent);
        let known = fields.clone().map(Field::word).collect::<Vec<_>>().join(", ");
        let equals = word.iter().position(|byte| *byte == b'=');
        let (name, value) = match equals {
            Some(equals) => (&word[..equals], &word[equals + 1..]),
            None => return Err("a field as IEN=1".to_string()),
        };
        let own = names.own(name).and_then(external_name).map(str::as_bytes);
        let name = own.unwrap_or(name);
        let named = |field: &&Field| field.word().as_bytes().eq_ignore_ascii_case(name);
        let Some(field) = fields.clone().find(named) else {
            return Err(match known.is_empty() {
                true => "a byte: this register's bits have no names".to_string(),
                false => format!("a field of {known}"),
            });
        };
        let value = number(value).and_then(|value| field.placed(value));
        let value = value.ok_or_else(|| format!("{} of {}", field.word(), field.values()))?;
        Ok(Bits { mask: field.mask(), value })
    }
}

/// Whether some register has a field of this name.
pub(crate) fn is_field(word: &[u8]) -> bool {
    let tables = [CICR, PPR, EXTERNAL, EIPLR, EIVR, NICR, IDCR];
    tables.iter().flat_map(|table| table.iter()).any(|field| {
        field.form != Form::Absent && field.word().as_bytes().eq_ignore_ascii_case(word)
    })
}

fn external_name(source: Source) -> Option<&'static str> {
    Source::EXTERNAL.get(source.0 as usize).copied()
}

impl Role {
    /// The fields of a register, none where its bits have no names.
    pub fn fields(self) -> &'static [Field] {
        match self {
            Role::Named(register::CICR) => CICR,
            Role::Named(register::PPR) => PPR,
            Role::Named(register::EITR | register::EIPR | register::EIMR) => EXTERNAL,
            Role::Named(register::EIPLR) => EIPLR,
            Role::Named(register::EIVR) => EIVR,
            Role::Named(register::NICR) => NICR,
            Role::Idcr(_) => IDCR,
            _ => &[],
        }
    }

    /// The set bits and the numbers of a byte in words: `IEN, CPL 7`; empty where there is nothing to name.
    pub fn set_bits(self, byte: u8, names: &Names) -> String {
        let named = |field: &&Field| match field.form {
            Form::Absent => false,
            _ => !field.is_bit() || field.value(byte) != 0,
        };
        let words = |field: &Field| match field.is_bit() {
            true => field.title(names),
            false => field.told(byte),
        };
        joined(self.fields().iter().filter(named).map(words))
    }

    /// Every bit and number of a byte in words: `IEN 1, IAM 0, CPL 7`.
    pub fn all_bits(self, byte: u8) -> String {
        let there = |field: &&Field| field.form != Form::Absent || field.value(byte) != 0;
        let words = |field: &Field| field.told_at_length(byte);
        match self {
            Role::Mark if byte == 0 => "top level not in service".to_string(),
            Role::Mark => "top level in service".to_string(),
            _ => joined(self.fields().iter().filter(there).map(words)),
        }
    }
}

impl Field {
    fn is_bit(&self) -> bool {
        self.high == self.low
    }

    /// The bits of this field in a byte, as a number.
    pub fn value(&self, byte: u8) -> u8 {
        let width = self.high - self.low + 1;
        (byte >> self.low) & (0xFF >> (8 - width))
    }

    /// The bits of this field.
    pub(crate) fn mask(&self) -> u8 {
        self.value(0xFF) << self.low
    }

    /// The name, with the own name of the external channel that a bit is of.
    pub(crate) fn title(&self, names: &Names) -> String {
        match source(self.name.as_bytes()) {
            Some(source) => names.told(source),
            None => self.name.to_string(),
        }
    }

    /// The name as one word.
    fn word(&self) -> String {
        self.name.replace(' ', "")
    }

    /// A value as it is written, at its place in a byte; none where it does not fit.
    fn placed(&self, value: u64) -> Option<u8> {
        let value = u8::try_from(value).ok()?;
        match self.form {
            Form::Vector => (value & !self.mask() == 0).then_some(value),
            _ => (value <= self.value(0xFF)).then(|| value << self.low),
        }
    }

    /// The values that can be written.
    fn values(&self) -> String {
        match self.form {
            Form::Vector => "00h, 10h to F0h".to_string(),
            _ => format!("0 to {}", self.value(0xFF)),
        }
    }

    /// The field's value as it is printed.
    pub fn value_told(&self, byte: u8) -> String {
        match self.form {
            Form::Vector => hex(self.value(byte) << self.low),
            _ => self.value(byte).to_string(),
        }
    }

    fn told(&self, byte: u8) -> String {
        format!("{} {}", self.name, self.value_told(byte))
    }

    fn told_at_length(&self, byte: u8) -> String {
        let told = self.told(byte);
        match self.form {
            Form::Group => {
                let level = 2 * self.value(byte);
                format!("{told} (levels {level} and {})", level + 1)
            }
            _ => told,
        }
    }
}

fn joined(words: impl Iterator<Item = String>) -> String {
    words.collect::<Vec<_>>().join(", ")
}

#[cfg(test)]
mod tests {
    use super::*;

    #[test]
    fn set_bits() {
        let expected = [
            (Role::Named(register::CICR), 0x97, "GCEN, IEN, CPL 7"),
            (Role::Named(register::PPR), 0x27, "page 9"),
            (Role::Named(register::EIPR), 0x14, "INTB0, INTC0"),
            (Role::Named(register::EIPR), 0x00, ""),
            (Role::Named(register::EIVR), 0x46, "vector 40h, TLIS, IAOS"),
            (Role::Named(register::NICR), 0x81, "TLNM, HL0"),
            (Role::Idcr(0), 0x3A, "IP, DM, IM, PRL 2"),
            (Role::Plain, 0xFF, ""),
        ];
        for (role, byte, words) in expected {
            assert_eq!(role.set_bits(byte, &Names::default()), words);
        }
    }

    #[test]
    fn fields_cover_their_registers_once() {
        for table in [CICR, PPR, EXTERNAL, EIPLR, EIVR, NICR, IDCR] {
            let sum: u32 =
                table.iter().map(|field| u32::from(field.value(0xFF)) << field.low).sum();
            assert_eq!(sum, 0xFF);
        }
    }

    #[test]
    fn bits_by_field() {
        let mut names = Names::default();
        names.give("FAN", Source::INTC0).expect("a name");
        let (cicr, eipr) = (Place::of(0, 230), Place::of(0, 243));
        let good: [(Place, &str, u8, u8); 7] = [
            (cicr, "IEN=1", 0x10, 0x10),
            (cicr, "cpl=5", 0x07, 0x05),
            (eipr, "INTB0=0", 0x04, 0x00),
            (eipr, "fan=1", 0x10, 0x10),
            (Place::of(0, 245), "groupC=2", 0x30, 0x20),
            (Place::of(0, 246), "vector=40h", 0xF0, 0x40),
            (Place::of(9, 241), "PRL=3", 0x07, 0x03),
        ];
        for (place, word, mask, value) in good {
            let bits = Bits { mask, value };
            assert_eq!(place.bits(word.as_bytes(), &names), Ok(bits), "{word}");
            assert_eq!(place.bits(bits.written(place).as_bytes(), &names), Ok(bits), "{word}");
        }
        let bad = [
            (cicr, "IEN=2", "IEN of 0 to 1"),
            (cicr, "FOO=1", "a field of GCEN, TLIP, TLI, IEN, IAM, CPL"),
            (cicr, "IEN", "a field as IEN=1"),
            (Place::of(0, 246), "vector=41h", "vector of 00h, 10h to F0h"),
            (Place::of(0, 16), "IP=1", "a byte: this register's bits have no names"),
        ];
        for (place, word, problem) in bad {
            assert_eq!(place.bits(word.as_bytes(), &names), Err(problem.to_string()), "{word}");
        }
        assert_eq!(Bits { mask: 0x17, value: 0x15 }.stored_in(0x8A), 0x9D);
    }

    #[test]
    fn levels_of_groups() {
        let words = Role::Named(register::EIPLR).all_bits(0xE7);
        assert_eq!(
            words,
            "group A 3 (levels 6 and 7), group B 1 (levels 2 and 3), \
             group C 2 (levels 4 and 5), group D 3 (levels 6 and 7)"
        );
    }
}
