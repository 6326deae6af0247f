//! Random scenarios with one record: every kind of step, refused ones too.

#![allow(dead_code)]

use super::support::Random;

/// What stands before the steps. Registers that the rules look at have values that make something happen, or any.
pub fn start(random: &mut Random) -> Vec<String> {
    let rows: [(&str, &[&str]); 17] = [
        ("CICR", &["97h", "9Fh", "95h", "87h", "B7h", "D7h", "DCh"]),
        ("EIMR", &["FFh", "FFh", "5Ah"]),
        ("EIPR", &["00h", "00h", "14h", "81h"]),
        ("EIPLR", &["E4h", "1Bh", "FFh"]),
        ("EIVR", &["46h", "44h", "42h", "40h", "4Eh"]),
        ("EITR", &["00h", "00h", "3Ch"]),
        ("NICR", &["00h", "00h", "80h", "24h"]),
        ("MARK", &["0", "0", "0", "0", "3"]),
        ("PPR", &["00h", "24h", "27h"]),
        ("R16", &["20", "16", "17", "223", "0"]),
        ("R17", &["1", "2", "0"]),
        ("R18", &["0", "0", "0", "1"]),
        ("R19", &["0", "5", "15", "16"]),
        ("R240.p9", &["1Ah", "3Ah", "0Bh", "12h", "30h", "FFh"]),
        ("R241.p9", &["35h", "A0h"]),
        ("R242.p9", &["11h", "11h", "11h", "10h", "10h", "F1h"]),
        ("R243.p9", &["12h", "13h", "10h", "E0h"]),
    ];
    let mut lines = vec!["image zero".to_string()];
    for (place, values) in rows {
        let value = match random.below(6) {
            0 if place != "MARK" => format!("{:02X}h", random.byte()),
            _ => random.pick(values).to_string(),
        };
        lines.push(format!("set {place} {value}"));
    }
    lines.extend(random.pick(&[None, Some("memory 16"), Some("memory 16")]).map(String::from));
    let direction = random.pick(&["in", "out"]);
    lines.push(format!("channel page=9 idcr=240 ivr=241 dcpr=242 dapr=243 data=244 {direction}"));
    for name in ["name FAN INTC0", "name UART CH0", "name WATCH INTA0"] {
        if random.below(3) == 0 {
            lines.push(name.to_string());
        }
    }
    lines
}

/// What stands before the steps where both claims' premises hold: concurrent mode, no DMA, the top level disabled.
fn calm(random: &mut Random) -> Vec<String> {
    let mut lines: Vec<_> =
        ["image zero", "set CICR 97h", "set EIMR FFh", "set EIVR 46h", "set R240.p9 0Ah"]
            .map(String::from)
            .into();
    lines.push(format!("set EIPLR {:02X}h", random.byte()));
    lines.push(format!("set EIPR {:02X}h", random.byte() & random.byte()));
    lines.push("channel page=9 idcr=240 ivr=241 dcpr=242 dapr=243 data=244 in".to_string());
    lines
}

/// A case of demand 3: steps that are triggers and pairs of return and arbitration, with calls.
pub fn plain(random: &mut Random) -> (Vec<String>, Vec<String>) {
    let lines = calm(random);
    let mut steps = vec![];
    for _ in 0..10 {
        match random.below(4) {
            0 => steps.push(format!("edge {} falling", random.below(8))),
            1 => steps.push(format!("{} {}", random.pick(&["wait", "bound"]), random.below(9))),
            _ => steps.extend(["return", "arbitrate"].map(String::from)),
        }
    }
    (lines, steps)
}

/// A case of the handlers' claim: reads and writes too, few of which change what it rests on.
pub fn handler(random: &mut Random) -> (Vec<String>, Vec<String>) {
    let mut lines = calm(random);
    lines.push(format!("set EIPR {:02X}h", random.byte() | random.byte()));
    let mut steps = vec![];
    for _ in 0..8 {
        match random.below(7) {
            0 => steps.push(format!("edge {} falling", random.below(8))),
            1 => steps.push(format!("read {}", random.pick(&["EIPR", "CICR", "R16"]))),
            2 => steps.push(format!("write EIPR {:02X}h", random.byte() | random.byte())),
            3 => steps.push(random.pick(&["write CICR 97h", "write NICR 7Fh"]).to_string()),
            4 => steps.push(changing(random)),
            _ => steps.extend(["return", "arbitrate"].map(String::from)),
        }
    }
    for _ in 0..4 {
        let call = random.pick(&["wait", "bound", "handler bound"]);
        steps.insert(random.below(steps.len()), format!("{call} {}", random.below(8)));
    }
    (lines, steps)
}

/// A step that the handlers' claim does not speak of.
fn changing(random: &mut Random) -> String {
    let changes =
        ["EIPR 00h", "CICR 9Fh", "CICR 9Fh", "CICR 96h", "CICR B7h", "EIMR 7Fh", "EIPLR 00h"];
    match random.below(8) {
        7 => "reset".to_string(),
        change => format!("write {}", changes[change]),
    }
}

/// A step, mostly one that is not refused.
pub fn step(random: &mut Random) -> String {
    match random.below(24) {
        0..=1 => format!("read {}", register(random)),
        2..=5 => format!("write {} {}", register(random), value(random)),
        6..=9 => {
            format!("edge {} {}", random.below(8), random.pick(&["falling", "falling", "rising"]))
        }
        10 => "watchdog".to_string(),
        11 => format!("nmi {}", random.pick(&["falling", "rising"])),
        12..=13 => "request 0".to_string(),
        14..=19 => "arbitrate".to_string(),
        20..=21 => "return".to_string(),
        22 if random.below(3) == 0 => "reset".to_string(),
        22 => word(random),
        _ => refused(random),
    }
}

fn register(random: &mut Random) -> String {
    let named = ["CICR", "EIPR", "EIPR", "EIMR", "EIPLR", "EIVR", "NICR", "EITR", "PPR", "MODER"];
    match random.below(4) {
        0 => format!("R{}", 240 + random.below(16)),
        1 => format!("R{}", random.pick(&[0, 16, 17, 20, 223, 224, 230])),
        _ => random.pick(&named).to_string(),
    }
}

fn value(random: &mut Random) -> String {
    match random.below(3) {
        0 => format!("{:02X}h", random.byte()),
        _ => random.pick(&["00h", "97h", "D7h", "24h", "14h", "80h", "3Ah", "FFh"]).to_string(),
    }
}

/// A word of any kind, 6 of them unknown, and of any trigger, 4 of them unknown.
fn word(random: &mut Random) -> String {
    let (kind, trigger) = (random.below(7) as u64, random.below(5) as u64);
    let first = random.pick(&[0, 2, 4, 8, 16, 230, 243, 256]);
    let second = random.pick(&[0, 1, 2, 0x97]);
    format!("step 0x{:016X}", kind << 48 | trigger << 32 | first << 8 | second)
}

fn refused(random: &mut Random) -> String {
    let rows = ["read R256", "write R241 1", "edge 8 falling", "edge 2 2", "nmi 2", "request 1"];
    random.pick(&rows).to_string()
}

/// A call, for a source that is there or not.
pub fn call(random: &mut Random) -> String {
    let source = random.pick(&["INTA0", "INTB0", "INTC0", "INTD0", "CH0", "7", "9"]);
    match random.below(5) {
        0 => format!("wait {source}"),
        1 => format!("bound {source}"),
        2 => format!("handler bound {source}"),
        3 => "run".to_string(),
        _ => format!("view {}", random.pick(&["0", "9", "63", "64"])),
    }
}
