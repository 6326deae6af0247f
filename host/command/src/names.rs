//! The names of registers and sources, and the bytes of an image that they have.

use crate::fields::is_field;
use crate::number::number_32;
use st9::{register, Channel, Source};

const NAMED: [(&str, u8); 9] = [
    ("CICR", register::CICR),
    ("PPR", register::PPR),
    ("MODER", register::MODER),
    ("EITR", register::EITR),
    ("EIPR", register::EIPR),
    ("EIMR", register::EIMR),
    ("EIPLR", register::EIPLR),
    ("EIVR", register::EIVR),
    ("NICR", register::NICR),
];

/// The registers that document 01 names, with their numbers; those from 240 on are of page 0.
pub fn named_registers() -> &'static [(&'static str, u8)] {
    &NAMED
}

/// The number of a register by its name, in any case of letters.
pub(crate) fn register_named(word: &[u8]) -> Option<u8> {
    let named = |entry: &&(&str, u8)| entry.0.as_bytes().eq_ignore_ascii_case(word);
    NAMED.iter().find(named).map(|(_, number)| *number)
}

/// The name of a register by its number, if document 01 has one.
pub(crate) fn register_name(number: u32) -> Option<&'static str> {
    let numbered = |entry: &&(&str, u8)| u32::from(entry.1) == number;
    NAMED.iter().find(numbered).map(|(name, _)| *name)
}

/// The pin of an external channel by its name.
pub(crate) fn pin_named(word: &[u8]) -> Option<u32> {
    let mut names = Source::EXTERNAL.iter();
    let position = names.position(|name| name.as_bytes().eq_ignore_ascii_case(word))?;
    u32::try_from(position).ok()
}

/// A record by name (`CH0`, `channel 0`) or by number. `CH` alone is no record, though it reads as 0Ch.
pub(crate) fn record(word: &[u8]) -> Option<u32> {
    number_32(record_digits(word).unwrap_or(word))
}

fn record_digits(word: &[u8]) -> Option<&[u8]> {
    let after = |prefix: &[u8]| {
        let (start, rest) = word.split_at_checked(prefix.len())?;
        start.eq_ignore_ascii_case(prefix).then_some(rest)
    };
    let digits = after(b"channel").or_else(|| after(b"ch"))?;
    Some(digits.trim_ascii_start())
}

/// A source by name (`INTB0`, `CH0`, `channel 0`) or by number.
pub(crate) fn source(word: &[u8]) -> Option<Source> {
    if let Some(pin) = pin_named(word) {
        return Some(Source(pin));
    }
    match record_digits(word) {
        Some(digits) => number_32(digits)?.checked_add(8).map(Source),
        None => number_32(word).map(Source),
    }
}

/// The longest name of one's own.
const LONGEST: usize = 32;

/// The words of statements and expectations, which are no names of one's own.
const RESERVED: &str = "above acknowledged after again and answer any arbitrate arbitration arbitrations as at before block bound by \
    byte bytes case changed channel counted dapr data dcpr direction disabled dma done edge enabled \
    ended erased expect fails falling fill from handler has idcr if image in interrupts ip is ivr last latest \
    level list mark masked memory merged mode moved name nested never nmi no none not nothing of one other \
    out page pending poke premise priority raised read refused repeat request reset return returned rising run \
    selected service set source step steps the tlip to top trigger vector view wait watchdog with \
    write written zero";

/// Names of one's own for sources, printed beside them.
#[derive(Clone, Debug, Default, PartialEq, Eq)]
pub struct Names(Vec<(String, Source)>);

impl Names {
    /// The source of a word: a name of one's own, `INTB0`, `CH0`, `channel 0` or a number.
    pub fn source(&self, word: &[u8]) -> Option<Source> {
        self.own(word).or_else(|| source(word))
    }

    /// The source of a name of one's own.
    pub(crate) fn own(&self, word: &[u8]) -> Option<Source> {
        let mut named = self.0.iter();
        let found = named.find(|(name, _)| name.as_bytes().eq_ignore_ascii_case(word))?;
        Some(found.1)
    }

    /// The own name of a source.
    pub fn of(&self, source: Source) -> Option<&str> {
        let found = self.0.iter().find(|(_, named)| *named == source)?;
        Some(&found.0)
    }

    /// `INTC0`, or with its own name `INTC0 (FAN)`.
    pub fn told(&self, source: Source) -> String {
        match self.of(source) {
            Some(name) => format!("{source} ({name})"),
            None => source.to_string(),
        }
    }

    /// Gives a source a name that it may have.
    pub(crate) fn give(&mut self, name: &str, source: Source) -> Result<(), String> {
        if let Some(other) = self.own(name.as_bytes()) {
            return Err(format!("{name} is {other} already: expected another name"));
        }
        if let Some(other) = self.of(source) {
            return Err(format!("{source} is called {other} already: expected one name"));
        }
        self.0.push((name.to_string(), source));
        Ok(())
    }
}

/// Whether a word may be a name of one's own: letters, digits, `_` and `-`, a letter first, and nothing else by it.
pub(crate) fn may_be_name(word: &[u8]) -> bool {
    let letter = word.first().is_some_and(u8::is_ascii_alphabetic);
    let plain = word.iter().all(|byte| byte.is_ascii_alphanumeric() || b"_-".contains(byte));
    let digits = |rest: &[u8]| rest.iter().all(u8::is_ascii_digit);
    let register = matches!(word, [b'r' | b'R', rest @ ..] if digits(rest));
    let reserved = RESERVED.split(' ').any(|known| known.as_bytes().eq_ignore_ascii_case(word));
    let named = register_named(word).is_some() || source(word).is_some() || is_field(word);
    let taken = register || reserved || named;
    letter && plain && word.len() <= LONGEST && !taken
}

/// A byte of an image.
#[derive(Clone, Copy, Debug, PartialEq, Eq, Hash, PartialOrd, Ord)]
pub struct Place(pub usize);

/// What a byte of an image is.
#[derive(Clone, Copy, Debug, PartialEq, Eq)]
pub enum Role {
    /// A register that document 01 names, by its number.
    Named(u8),
    /// The control register of a record.
    Idcr(usize),
    /// Another register of a record, with its name.
    OfRecord(&'static str, usize),
    /// The top-level-in-service mark.
    Mark,
    /// A register without a name.
    Plain,
}

impl Place {
    /// The top-level-in-service mark.
    pub const MARK: Place = Place(st9::MARK);

    /// The byte of a register; the page matters from 240 on.
    pub fn of(page: u8, register: u8) -> Place {
        Place(st9::place(page, register))
    }

    /// The number of the register that has this byte, and its page from 240 on; none for the mark.
    pub fn register(self) -> Option<(u8, Option<u8>)> {
        match self.0 {
            0..=239 => Some((self.0 as u8, None)),
            240..=1263 => {
                let paged = self.0 - 240;
                Some(((240 + paged % 16) as u8, Some((paged / 16) as u8)))
            }
            _ => None,
        }
    }

    /// What this byte is under a channel list.
    pub fn role(self, channels: &[Channel]) -> Role {
        match self.register() {
            None => Role::Mark,
            Some((number, None | Some(0))) => match register_name(number.into()) {
                Some(_) => Role::Named(number),
                None => Role::Plain,
            },
            Some((number, Some(page))) => record_role(page, number, channels),
        }
    }

    /// The short name: `EIPR`, `IDCR of channel 0`, `R16`, `MARK`.
    pub fn name(self, channels: &[Channel]) -> String {
        let number = self.register().map_or(0, |(number, _)| number);
        match self.role(channels) {
            Role::Named(named) => register_name(named.into()).unwrap_or_default().to_string(),
            Role::Idcr(record) => format!("IDCR of channel {record}"),
            Role::OfRecord(name, record) => format!("{name} of channel {record}"),
            Role::Mark => "MARK".to_string(),
            Role::Plain => format!("R{number}"),
        }
    }

    /// The name with number and page: `EIPR R243 page 0`, `IDCR of channel 0, R240 page 9`, `R16`, `MARK`.
    pub fn title(self, channels: &[Channel]) -> String {
        let name = self.name(channels);
        let numbered = match self.register() {
            None => return name,
            Some((number, None)) => format!("R{number}"),
            Some((number, Some(page))) => format!("R{number} page {page}"),
        };
        match self.role(channels) {
            Role::Named(_) => format!("{name} {numbered}"),
            Role::Idcr(_) | Role::OfRecord(..) => format!("{name}, {numbered}"),
            Role::Mark | Role::Plain => numbered,
        }
    }
}

fn record_role(page: u8, number: u8, channels: &[Channel]) -> Role {
    for (record, channel) in channels.iter().enumerate() {
        if channel.page != page {
            continue;
        }
        let others = [
            ("IVR", channel.ivr),
            ("DCPR", channel.dcpr),
            ("DAPR", channel.dapr),
            ("data register", channel.data),
        ];
        if channel.idcr == number {
            return Role::Idcr(record);
        }
        if let Some((name, _)) = others.iter().find(|(_, other)| *other == number) {
            return Role::OfRecord(name, record);
        }
    }
    Role::Plain
}

#[cfg(test)]
mod tests {
    use super::*;

    const CHANNEL: Channel =
        Channel { page: 9, idcr: 240, ivr: 241, dcpr: 242, dapr: 243, data: 244, direction: 0 };

    #[test]
    fn titles() {
        let expected = [
            (Place::of(0, 16), "R16"),
            (Place::of(7, 230), "CICR R230"),
            (Place::of(0, 243), "EIPR R243 page 0"),
            (Place::of(0, 240), "R240 page 0"),
            (Place::of(9, 240), "IDCR of channel 0, R240 page 9"),
            (Place::of(9, 244), "data register of channel 0, R244 page 9"),
            (Place::of(9, 245), "R245 page 9"),
            (Place::of(63, 255), "R255 page 63"),
            (Place::MARK, "MARK"),
        ];
        for (place, title) in expected {
            assert_eq!(place.title(&[CHANNEL]), title);
        }
    }

    #[test]
    fn own_names() {
        for good in ["FAN", "over-temperature", "A_1", "INTE0", "rx"] {
            assert!(may_be_name(good.as_bytes()), "{good}");
        }
        for bad in [
            "", "1A", "CICR", "INTB0", "ch3", "BADh", "R16", "Erased", "a.b", "é", "TLIP", "Again",
            "repeat", "Handler",
        ] {
            assert!(!may_be_name(bad.as_bytes()), "{bad}");
        }
        let mut names = Names::default();
        assert_eq!(names.give("FAN", Source::INTC0), Ok(()));
        assert_eq!(names.source(b"fan"), Some(Source::INTC0));
        assert_eq!(names.told(Source::INTC0), "INTC0 (FAN)");
        assert_eq!(names.told(Source::INTB0), "INTB0");
        assert!(names.give("Fan", Source::INTB0).is_err());
        assert!(names.give("AIR", Source::INTC0).is_err());
    }

    #[test]
    fn sources() {
        let expected = [
            ("intb1", Some(3)),
            ("3", Some(3)),
            ("CH0", Some(8)),
            ("channel 3", Some(11)),
            ("40", Some(40)),
            ("INTE0", None),
            ("CH", None),
            ("CH4294967295", None),
            ("4294967296", None),
        ];
        for (word, number) in expected {
            assert_eq!(source(word.as_bytes()), number.map(Source), "{word}");
        }
    }
}
