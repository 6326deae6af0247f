//! What was counted over all cases.

use scenario::{Case, Followed, Object};
use st9::text::counted;

#[derive(Default)]
pub struct Counts {
    pub passed: usize,
    pub failed: usize,
    /// Cases among the passed that expect nothing.
    without: usize,
    met: usize,
    unmet: usize,
    not_reached: usize,
    erased: usize,
    /// Those of them that no expectation tells.
    unexpected: usize,
    pub bad_files: usize,
}

impl Counts {
    pub fn add(&mut self, followed: &Followed, case: &Case, passed: bool) {
        match passed {
            true => self.passed += 1,
            false => self.failed += 1,
        }
        self.without += usize::from(passed && case.expectations() == 0);
        self.met += followed.met;
        self.unmet += followed.unmet;
        self.not_reached += followed.not_reached;
        self.erased += followed.erased;
        self.unexpected += unexpected(followed);
    }

    /// The last line.
    pub fn words(&self) -> String {
        let cases = counted((self.passed + self.failed) as u64, "case");
        let mut words = format!("{cases}: {} passed, {} failed", self.passed, self.failed);
        let all = counted((self.met + self.unmet + self.not_reached) as u64, "expectation");
        words += &format!("; {all}: {} met, {} unmet", self.met, self.unmet);
        if self.not_reached != 0 {
            words += &format!(", {} not reached", self.not_reached);
        }
        if self.without != 0 {
            words += &format!("; {} passed without an expectation", self.without);
        }
        if self.erased != 0 {
            let alarms = counted(self.erased as u64, "alarm");
            let seen = match self.unexpected {
                0 => "all as expected".to_string(),
                unexpected => format!("{unexpected} of them unexpected"),
            };
            words += &format!("; {alarms} erased, {seen}");
        }
        if self.bad_files != 0 {
            words += &format!("; {}", counted(self.bad_files as u64, "bad file"));
        }
        words
    }

    /// The members of the last object.
    pub fn json(&self, object: Object) -> String {
        object
            .number("cases", (self.passed + self.failed) as u64)
            .number("passed", self.passed as u64)
            .number("failed", self.failed as u64)
            .number("without", self.without as u64)
            .number("met", self.met as u64)
            .number("unmet", self.unmet as u64)
            .number("not_reached", self.not_reached as u64)
            .number("erased", self.erased as u64)
            .number("erased_unexpected", self.unexpected as u64)
            .number("bad_files", self.bad_files as u64)
            .end()
    }
}

/// The pending bits that a case erased and that no expectation tells.
pub fn unexpected(followed: &Followed) -> usize {
    followed.unexpected.iter().map(|(_, erased)| erased).sum()
}
