//! Every statement as it is written and read again.

mod support;

use scenario::{statement, Bits, Call, ImageName, Names, Operation, Place, Statement};
use st9::{Channel, Edge, Source, Step};
use support::Random;

fn assert_read_again(original: &Statement) {
    let text = original.to_string();
    for form in [text.clone(), format!("\t{text} # {text}\r")] {
        assert_eq!(
            statement(form.as_bytes(), &Names::default()),
            Ok(Some(original.clone())),
            "{form}"
        );
    }
}

#[test]
fn bytes_before_the_start() {
    for index in 0..st9::IMAGE_LENGTH {
        let place = Place(index);
        let bits = Bits::byte((index % 256) as u8);
        assert_read_again(&Statement::Set { place, bits });
    }
}

#[test]
fn images() {
    assert_read_again(&Statement::Image(ImageName::ZERO));
    for length in [0, 1, 1264, 1265, 1266, 1 << 20] {
        for byte in [0, 1, 0xFF] {
            assert_read_again(&Statement::Image(ImageName::Fill { byte, length }));
        }
        assert_read_again(&Statement::Image(ImageName::Counted { length }));
    }
    for name in [
        "a", "zero", "Zero", "./zero", "fill", "counted", "a b", "a#b", "#", "a=b", "é", "a\tb",
        "image",
    ] {
        assert_read_again(&Statement::Image(ImageName::File(name.to_string())));
    }
}

#[test]
fn channels_of_any_bytes() {
    let mut random = Random(1);
    for _ in 0..10_000 {
        let channel = Channel {
            page: random.byte(),
            idcr: random.byte(),
            ivr: random.byte(),
            dcpr: random.byte(),
            dapr: random.byte(),
            data: random.byte(),
            direction: random.byte() % 4,
        };
        assert_read_again(&Statement::Channel(channel));
    }
}

/// Fields of the named registers and of an IDCR, as single bits and as groups of them.
#[test]
fn fields_before_the_start() {
    let names = Names::default();
    let fields = [
        ("CICR", "IEN=1 CPL=7", 0x17, 0x17),
        ("CICR", "TLIP=0", 0x40, 0x00),
        ("EIPLR", "groupA=3 groupD=0", 0xC3, 0x03),
        ("EIVR", "vector=40h IAOS=1", 0xF2, 0x42),
        ("PPR", "page=9", 0xFC, 0x24),
        ("R240.p9", "IP=1 PRL=2", 0x27, 0x22),
    ];
    for (register, words, mask, value) in fields {
        let line = format!("set {register} {words}");
        let Ok(Some(read @ Statement::Set { bits, .. })) = statement(line.as_bytes(), &names)
        else {
            panic!("{line} is no set");
        };
        assert_eq!(bits, Bits { mask, value }, "{line}");
        assert_eq!(read.to_string(), line);
        assert_read_again(&read);
    }
}

#[test]
fn calls_names_and_cases() {
    for source in [0, 7, 8, 19, 20, u32::MAX] {
        assert_read_again(&Statement::Call(Call::Wait(Source(source))));
        assert_read_again(&Statement::Call(Call::Bound(Source(source))));
        assert_read_again(&Statement::Call(Call::HandlerBound(Source(source))));
        assert_read_again(&Statement::Call(Call::View(source)));
        assert_read_again(&Statement::Name("FAN-1".to_string(), Source(source)));
    }
    assert_read_again(&Statement::Call(Call::Run));
    assert_read_again(&Statement::Case("a title, é".to_string()));
    assert_read_again(&Statement::Again(Some("a title, é".to_string())));
    assert_read_again(&Statement::Again(None));
}

fn number(random: &mut Random) -> u32 {
    match random.below(3) {
        0 => random.next() as u32,
        1 => random.pick(&[0, 7, 8, 239, 240, 255, 256, 0xFF_FFFF, 0x100_0000, u32::MAX]),
        _ => random.below(256) as u32,
    }
}

fn any_step(random: &mut Random) -> Operation {
    let register = number(random);
    let edge = Edge::from(random.pick(&[0, 1, 2, 255, 256, u32::MAX]));
    let step = match random.below(10) {
        0 => Step::Read { register },
        1 => Step::Write { register, value: random.byte() },
        2 => Step::Pin { pin: number(random), edge },
        3 => Step::Watchdog,
        4 => Step::Nmi { edge },
        5 => Step::Request { record: number(random) },
        6 => Step::Arbitrate,
        7 => Step::Return,
        8 => Step::Reset,
        _ => Step::Word(random.next()),
    };
    let has_name = |number| [230, 234, 235, 242, 243, 244, 245, 246, 247].contains(&number);
    let named = match step {
        Step::Read { register } | Step::Write { register, .. } => {
            has_name(register) && random.below(2) == 0
        }
        _ => false,
    };
    Operation { step, named }
}

#[test]
fn steps() {
    let mut random = Random(2);
    for _ in 0..20_000 {
        let operation = any_step(&mut random);
        assert_read_again(&Statement::Step(operation));
        let count = random.pick(&[1, 2, 300, 1_000_000]);
        assert_read_again(&Statement::Repeat { count, operation });
    }
}

#[test]
fn every_named_register() {
    for (name, number) in scenario::named_registers() {
        let step = Step::Read { register: u32::from(*number) };
        let read = Statement::Step(Operation { step, named: true });
        assert_eq!(read.to_string(), format!("read {name}"));
        assert_read_again(&read);
        let lower = format!("read {}", name.to_lowercase());
        assert_eq!(statement(lower.as_bytes(), &Names::default()), Ok(Some(read)));
    }
}
