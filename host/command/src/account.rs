//! What became of the alarms of a run, counted from the model's answers and the pending bits before and after each step.

use crate::names::Names;
use crate::pending::{Bit, Pending, MOST_SOURCES};
use crate::{Case, Object};
use st9::{Answer, Effect, Source, Step};

/// A step that was done, as the account needs it.
#[derive(Clone, Copy, Debug)]
pub(crate) struct Counted {
    pub step: Step,
    pub line: u32,
    pub answer: Answer,
    pub before: Pending,
    pub after: Pending,
}

/// What became of one pending bit.
#[derive(Clone, Debug, Default, PartialEq, Eq)]
pub struct Row {
    /// Whether it was set at the start.
    pub at_start: bool,
    /// How often it was raised from 0 by a trigger or a write.
    pub raised: u64,
    /// Those of them that a write raised.
    pub by_writes: u64,
    /// How often it was raised by the end of a DMA block.
    pub blocks: u64,
    /// The triggers that came while it was set.
    pub merged: u64,
    /// Those that selected no bit at all, this one nor another.
    pub unselected: u64,
    /// How often it was acknowledged.
    pub acknowledged: u64,
    /// How often it was served by DMA.
    pub served: u64,
    /// The lines of the writes and resets that took it from 1 to 0.
    pub erased: Vec<u32>,
    /// Whether it is set at the end.
    pub pending: bool,
}

/// What `--fail-on` names.
#[derive(Clone, Copy, Debug, PartialEq, Eq)]
pub enum Loss {
    /// A pending bit was erased by a write or a reset.
    Erased,
    /// A trigger came while the bit was set.
    Merged,
    /// The bit is set at the end.
    Pending,
    /// A trigger selected no bit.
    Unselected,
}

/// The account of a run.
#[derive(Clone, Debug, Default, PartialEq, Eq)]
pub struct Account {
    rows: [Row; MOST_SOURCES + 1],
}

impl Account {
    pub(crate) fn starting(pending: Pending) -> Account {
        let mut account = Account { rows: Default::default() };
        for bit in pending.bits() {
            account.row(bit).at_start = true;
        }
        account.end(pending);
        account
    }

    fn row(&mut self, bit: Bit) -> &mut Row {
        &mut self.rows[bit.index()]
    }

    /// Counts a step; how many pending bits it erased.
    pub(crate) fn add(&mut self, counted: &Counted) -> usize {
        let Counted { step, line, answer, before, after } = *counted;
        let mut erased = 0;
        match answer {
            Answer::Triggered { maskable: Effect::NotSelected, tlip: Effect::NotSelected } => {
                self.row(target(step).unwrap_or(Bit::Tlip)).unselected += 1
            }
            Answer::Triggered { maskable, tlip } => {
                self.triggered(target(step), maskable);
                self.triggered(Some(Bit::Tlip), tlip);
            }
            Answer::Interrupt { source, .. } => self.row(Bit::Of(source)).acknowledged += 1,
            Answer::TopLevel { .. } => self.row(Bit::Tlip).acknowledged += 1,
            Answer::Transferred { source, .. } => {
                let row = self.row(Bit::Of(source));
                row.served += 1;
                row.blocks += u64::from(after.has(Bit::Of(source)));
            }
            Answer::Written { .. } | Answer::Reset => {
                for bit in before.without(after).bits() {
                    self.row(bit).erased.push(line);
                    erased += 1;
                }
                for bit in after.without(before).bits() {
                    self.row(bit).raised += 1;
                    self.row(bit).by_writes += 1;
                }
            }
            Answer::Byte(_) | Answer::Nothing | Answer::Returned => {}
        }
        erased
    }

    fn triggered(&mut self, bit: Option<Bit>, effect: Effect) {
        let Some(bit) = bit else { return };
        match effect {
            Effect::NotSelected => {}
            Effect::Raised => self.row(bit).raised += 1,
            Effect::Merged => self.row(bit).merged += 1,
        }
    }

    /// Closes the account with the bits that are set at the end.
    pub(crate) fn end(&mut self, pending: Pending) {
        for (index, row) in self.rows.iter_mut().enumerate() {
            row.pending = pending.has_index(index);
        }
    }

    /// The rows with anything to tell, in the order of the sources, TLIP last.
    pub fn rows(&self) -> impl Iterator<Item = (Bit, &Row)> {
        let all = self.rows.iter().enumerate().map(|(index, row)| (Bit::at(index), row));
        all.filter(|(_, row)| **row != Row::default())
    }

    /// The bits that met a loss.
    pub fn met(&self, loss: Loss) -> Vec<Bit> {
        self.rows().filter(|(_, row)| row.has(loss)).map(|(bit, _)| bit).collect()
    }
}

/// The bit that a trigger's maskable part is about.
pub(crate) fn target(step: Step) -> Option<Bit> {
    match Step::of_word(step.word()) {
        Step::Pin { pin, .. } => Some(Bit::Of(Source(pin))),
        Step::Request { record } => Some(Bit::Of(Source::channel(record))),
        Step::Watchdog => Some(Bit::Of(Source::INTA0)),
        _ => None,
    }
}

impl Loss {
    /// All of them.
    pub const ALL: [Loss; 4] = [Loss::Erased, Loss::Merged, Loss::Pending, Loss::Unselected];

    /// `erased`, `merged`, `pending` or `unselected`.
    pub fn name(self) -> &'static str {
        match self {
            Loss::Erased => "erased",
            Loss::Merged => "merged",
            Loss::Pending => "pending",
            Loss::Unselected => "unselected",
        }
    }
}

impl Row {
    /// Whether it met a loss.
    pub fn has(&self, loss: Loss) -> bool {
        match loss {
            Loss::Erased => !self.erased.is_empty(),
            Loss::Merged => self.merged != 0,
            Loss::Pending => self.pending,
            Loss::Unselected => self.unselected != 0,
        }
    }

    /// `raised 2, acknowledged 1, erased 1 (line 16: write EIPR 00h)`.
    pub fn words(&self, case: &Case) -> String {
        let mut parts = Vec::new();
        if self.at_start {
            parts.push("pending at the start".to_string());
        }
        match (self.raised, self.by_writes) {
            (0, _) => {}
            (raised, 0) => parts.push(format!("raised {raised}")),
            (raised, by_writes) => parts.push(format!("raised {raised} ({by_writes} by writes)")),
        }
        let counts = [
            (self.merged, "merged"),
            (self.unselected, "not selected"),
            (self.blocks, "end of block"),
            (self.acknowledged, "acknowledged"),
            (self.served, "served by DMA"),
        ];
        let counts = counts.iter().filter(|(number, _)| *number != 0);
        parts.extend(counts.map(|(number, what)| format!("{what} {number}")));
        if !self.erased.is_empty() {
            parts.push(format!("erased {} ({})", self.erased.len(), self.erased_lines(case)));
        }
        if self.pending {
            parts.push("still pending".to_string());
        }
        parts.join(", ")
    }

    /// `line 16: write EIPR 00h`, or the first lines of several.
    fn erased_lines(&self, case: &Case) -> String {
        const MOST: usize = 8;
        if let [line] = self.erased[..] {
            let statement = case.step_of_line(line).map(|step| format!(": {}", step.operation));
            return format!("line {line}{}", statement.unwrap_or_default());
        }
        let told = self.erased.iter().take(MOST).map(u32::to_string).collect::<Vec<_>>();
        let more = match self.erased.len() - told.len() {
            0 => String::new(),
            more => format!(" and {more} more"),
        };
        format!("lines {}{more}", told.join(", "))
    }

    /// The row as an object.
    pub fn json(&self, bit: Bit, names: &Names) -> String {
        let object = Object::new().text("type", "account");
        let object = match bit {
            Bit::Of(source) => object.source(source, names),
            Bit::Tlip => object.optional("source", None).text("name", "TLIP"),
        };
        let lines = self.erased.iter().map(u32::to_string).collect::<Vec<_>>();
        object
            .truth("at_start", self.at_start)
            .number("raised", self.raised)
            .number("by_writes", self.by_writes)
            .number("blocks", self.blocks)
            .number("merged", self.merged)
            .number("unselected", self.unselected)
            .number("acknowledged", self.acknowledged)
            .number("served", self.served)
            .number("erased", self.erased.len() as u64)
            .list("lines", &lines)
            .truth("pending", self.pending)
            .end()
    }
}
