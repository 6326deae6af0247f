//! Tables of expectations. A table is made of blocks with an empty line between them. A block has statements, then
//! expectations of the last of them (`+` is met, `-` is not, with `|` between them), then the steps that follow where a
//! call needs them.

#![allow(dead_code)]

use super::support::{st9, Ran};

/// Everything unmasked, CPL 7, and each external source at the level of its number: INTA0 0 .. INTD1 7. EIVR 46h:
/// vectors from 40h, TLIP is that of NMI (falling), INTA0 that of its pin.
pub const START: &str = "\
image zero
set CICR 97h
set EIMR FFh
set EIPLR E4h
set EIVR 46h
";

/// Two records at level 2, the first with a block of three bytes into R20 and on, the second into the peripheral.
pub const RECORDS: &str = "\
image zero
set CICR 97h
set EIMR FFh
set EIPLR E4h
set EIVR 46h
set PPR 24h
set R16 20
set R17 3
set R30 A7h
set R240.p9 1Ah
set R241.p9 35h
set R242.p9 11h
set R244.p9 5Ah
set R240.p10 1Ah
set R241.p10 3Bh
set R242.p10 13h
channel page=9 idcr=240 ivr=241 dcpr=242 dapr=243 data=244 in
channel page=10 idcr=240 ivr=241 dcpr=242 dapr=243 data=244 out
";

struct Block<'a> {
    before: Vec<&'a str>,
    met: Vec<&'a str>,
    unmet: Vec<&'a str>,
    after: Vec<&'a str>,
}

impl<'a> Block<'a> {
    fn of(text: &'a str) -> Block<'a> {
        let mut block = Block { before: vec![], met: vec![], unmet: vec![], after: vec![] };
        for line in text.lines() {
            match line.split_at(2.min(line.len())) {
                ("+ ", row) => block.met.extend(row.split(" | ")),
                ("- ", row) => block.unmet.extend(row.split(" | ")),
                _ if block.met.is_empty() => block.before.push(line),
                _ => block.after.push(line),
            }
        }
        assert!(!block.met.is_empty() && !block.unmet.is_empty(), "{text}");
        block
    }

    /// The scenario with these expectations, and the line of the last of them.
    fn scenario(&self, head: &str, expectations: &[&str]) -> (String, usize) {
        let mut text = format!("{head}{}\n", self.before.join("\n"));
        expectations.iter().for_each(|words| text.push_str(&format!("expect {words}\n")));
        let line = text.lines().count();
        self.after.iter().for_each(|step| text.push_str(&format!("{step}\n")));
        (text, line)
    }
}

/// Every `+` is met, alone and together; every `-` is not, and is told. All that is wrong in a table is told at once.
pub fn assert_table(head: &str, table: &str) {
    let mut wrong = vec![];
    for text in table.trim().split("\n\n") {
        let block = Block::of(text);
        let refused = block.met.iter().copied().find(|words| words.starts_with("refused"));
        let with =
            |words| block.scenario(head, &refused.into_iter().chain([words]).collect::<Vec<_>>());
        wrong.extend(not_met(&block.scenario(head, &block.met).0));
        wrong.extend(block.met.iter().filter_map(|words| not_met(&with(words).0)));
        wrong.extend(block.unmet.iter().filter_map(|words| not_told(with(words))));
    }
    assert!(wrong.is_empty(), "{} wrong:\n{}", wrong.len(), wrong.join("\n"));
}

fn wrong(what: &str, scenario: &str, ran: Ran) -> Option<String> {
    Some(format!("--- {what}, but {:?}\n{scenario}-->\n{}{}", ran.code, ran.out, ran.err))
}

fn not_met(scenario: &str) -> Option<String> {
    let ran = st9(&["run", "-"], scenario);
    if ran.code == Some(0) {
        None
    } else {
        wrong("met", scenario, ran)
    }
}

/// Exit code 3, and one line for the expectation.
fn not_told((scenario, line): (String, usize)) -> Option<String> {
    let ran = st9(&["run", "-"], &scenario);
    let start = format!("-:{line}: expected ");
    let told: Vec<_> = ran.out.lines().filter(|told| told.starts_with(&start)).collect();
    match told[..] {
        [told] if ran.code == Some(3) && told.contains("; came ") => None,
        _ => wrong("not met", &scenario, ran),
    }
}
