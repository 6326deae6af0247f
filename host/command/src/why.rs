//! Explanations beside an answer, told by the command from the registers before and after the step. They stand in
//! parentheses: they are not the model's answer.

use crate::names::{Names, Place, Role};
use crate::pending::{Bit, Pending};
use st9::text::hex;
use st9::{register, Channel, Source, Step};

const TLNM: u8 = 0x80;

/// Two images, before and after a step, under a channel list.
#[derive(Clone, Copy)]
pub(crate) struct Around<'a> {
    pub before: &'a [u8],
    pub after: &'a [u8],
    pub channels: &'a [Channel],
    pub names: &'a Names,
}

impl Around<'_> {
    fn byte(&self, register: u8) -> u8 {
        self.before.get(usize::from(register)).copied().unwrap_or_default()
    }

    /// A field of a named register before the step.
    fn field(&self, register: u8, name: &str) -> u8 {
        value(register, name, self.byte(register))
    }

    /// Why an arbitration found nothing: what is pending, and the bits that decide.
    pub fn nothing(&self) -> String {
        let pending = Pending::of(self.before, self.channels);
        let told: Vec<_> = pending.bits().map(|bit| self.waiting(bit)).collect();
        let told = match told.is_empty() {
            true => "nothing is pending".to_string(),
            false => format!("pending: {}", told.join(", ")),
        };
        if self.before.get(st9::MARK).is_some_and(|mark| *mark != 0) {
            return format!("the top level is in service; {told}");
        }
        let (ien, cpl) = (self.field(register::CICR, "IEN"), self.field(register::CICR, "CPL"));
        format!("{told}; IEN {ien}, CPL {cpl}")
    }

    /// A pending bit with what keeps it or decides about it.
    fn waiting(&self, bit: Bit) -> String {
        let told = bit.told(self.names);
        let Bit::Of(source) = bit else {
            let (tlnm, tli) =
                (self.field(register::NICR, "TLNM"), self.field(register::CICR, "TLI"));
            return format!("{told} with TLNM {tlnm}, TLI {tli}");
        };
        match self.request(source) {
            Some((level, false)) => format!("{told} at level {level}"),
            Some((level, true)) => format!("{told} for DMA at level {level}"),
            None => format!("{told} masked"),
        }
    }

    /// The level of a source, and whether it is for DMA; none where it is masked.
    fn request(&self, source: Source) -> Option<(u8, bool)> {
        if let 0..=7 = source.0 {
            let group = self.byte(register::EIPLR) >> (source.0 / 2 * 2) & 3;
            let unmasked = self.byte(register::EIMR) >> source.0 & 1 == 1;
            return unmasked.then_some((2 * group + (source.0 % 2) as u8, false));
        }
        let channel = self.channels.get(source.0 as usize - 8)?;
        let place = Place::of(channel.page, channel.idcr);
        let idcr = self.before.get(place.0).copied().unwrap_or_default();
        let of = |name| field(Role::Idcr(0), name, idcr);
        match (of("DM"), of("IM")) {
            (0, 0) => None,
            (dm, _) => Some((of("PRL"), dm == 1)),
        }
    }

    /// Why a trigger does not select a bit.
    pub fn not_selected(&self, step: Step, bit: Bit) -> String {
        let (iaos, tlis) = (self.field(register::EIVR, "IAOS"), self.field(register::EIVR, "TLIS"));
        match (step, bit) {
            (Step::Pin { pin: 0, .. }, _) if iaos == 0 => {
                "IAOS 0: the watchdog is the source of INTA0".to_string()
            }
            (Step::Pin { pin, .. }, _) => {
                let rising = self.byte(register::EITR) >> (pin & 7) & 1;
                format!("EITR bit {pin} is {rising}: {} edges", edges(rising))
            }
            (Step::Watchdog, Bit::Of(_)) => "IAOS 1: pin 0 is the source of INTA0".to_string(),
            (Step::Watchdog, Bit::Tlip) => "TLIS 1: NMI is the source of TLIP".to_string(),
            (_, _) if tlis == 0 => "TLIS 0: the watchdog is the source of TLIP".to_string(),
            _ => {
                let rising = self.field(register::EIVR, "TLTEV");
                format!("TLTEV {rising}: {} edges", edges(rising))
            }
        }
    }

    /// What a return restored.
    pub fn returned(&self) -> String {
        let after =
            |register: u8| self.after.get(usize::from(register)).copied().unwrap_or_default();
        let mark = |image: &[u8]| image.get(st9::MARK).is_some_and(|mark| *mark != 0);
        if mark(self.before) && !mark(self.after) {
            return "the top level's: the mark is cleared, nothing else".to_string();
        }
        let moved = |name| {
            let old = self.field(register::CICR, name);
            let new = value(register::CICR, name, after(register::CICR));
            match old == new {
                true => format!("{name} {new} as before"),
                false => format!("{name} {old} -> {new}"),
            }
        };
        if self.field(register::CICR, "IAM") == 0 {
            return moved("IEN");
        }
        let fallen = self.byte(register::NICR) & !after(register::NICR);
        let level = match fallen {
            0 => "no HL bit was set".to_string(),
            _ => format!("HL{} cleared", fallen.trailing_zeros()),
        };
        format!("{}, {}: {level}", moved("IEN"), moved("CPL"))
    }

    /// What a write did beside what it answers: a byte that is stored otherwise than written, pending bits that it set.
    pub fn written(&self, place: Place, value: u8) -> Option<String> {
        let stored = self.after.get(place.0).copied()?;
        let mut told = Vec::new();
        if stored != value {
            let old = self.before.get(place.0).copied().unwrap_or_default();
            let nicr = place.role(self.channels) == Role::Named(register::NICR);
            let why = match nicr && old & TLNM != 0 {
                true => "TLNM stays set",
                false => "absent bits are 0",
            };
            told.push(format!("stored {}: {why}", hex(stored)));
        }
        let before = Pending::of(self.before, self.channels);
        let set: Vec<_> = Pending::of(self.after, self.channels)
            .without(before)
            .bits()
            .map(|bit| bit.told_as_bit(self.names))
            .collect();
        if !set.is_empty() {
            told.push(format!("sets {} pending", set.join(", ")));
        }
        (!told.is_empty()).then(|| told.join("; "))
    }
}

fn edges(rising: u8) -> &'static str {
    match rising {
        0 => "falling",
        _ => "rising",
    }
}

fn value(register: u8, name: &str, byte: u8) -> u8 {
    field(Role::Named(register), name, byte)
}

fn field(role: Role, name: &str, byte: u8) -> u8 {
    let found = role.fields().iter().find(|field| field.name == name);
    found.map_or(0, |field| field.value(byte))
}
