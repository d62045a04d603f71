//! What has been compared, how often each refusal occurred, and what differed.

use std::collections::BTreeMap;

/// Refusals are numbered from 1 to this.
pub const REFUSALS: u32 = 22;

#[derive(Default)]
struct Line {
    cases: u64,
    refusals: BTreeMap<u32, u64>,
}

/// One line a kind of comparison.
#[derive(Default)]
pub struct Report {
    lines: BTreeMap<String, Line>,
    pub differences: Vec<String>,
}

impl Report {
    /// Counts one comparison and the refusal that it met (0 for none); keeps what differed.
    pub fn count(&mut self, kind: &str, refusal: u32, difference: Option<String>) {
        let line = self.lines.entry(kind.to_string()).or_default();
        line.cases += 1;
        if refusal != 0 {
            *line.refusals.entry(refusal).or_default() += 1;
        }
        self.differences.extend(difference.map(|d| format!("{kind}: {d}")));
    }

    /// Counts one comparison that has no refusals.
    pub fn hold(&mut self, kind: &str, holds: bool, otherwise: impl FnOnce() -> String) {
        self.count(kind, 0, (!holds).then(otherwise));
    }

    pub fn comparisons(&self) -> u64 {
        self.lines.values().map(|line| line.cases).sum()
    }

    /// How often a refusal occurred.
    pub fn refused(&self, number: u32) -> u64 {
        self.lines.values().filter_map(|line| line.refusals.get(&number)).sum()
    }

    /// The refusals that occurred less often than this.
    pub fn rare(&self, often: u64) -> Vec<u32> {
        (1..=REFUSALS).filter(|&n| self.refused(n) < often).collect()
    }

    pub fn print(&self) {
        for (kind, line) in &self.lines {
            let passed = line.cases - line.refusals.values().sum::<u64>();
            let refusals: String = line.refusals.iter().map(|(n, often)| format!(" {n}:{often}")).collect();
            let refusals = if refusals.is_empty() { refusals } else { format!(", {passed} passed, refused{refusals}") };
            println!("{kind}: {} cases{refusals}", line.cases);
        }
        if self.lines.values().any(|line| !line.refusals.is_empty()) {
            let all: String = (1..=REFUSALS).map(|n| format!(" {n}:{}", self.refused(n))).collect();
            println!("refusals compared:{all}");
        }
    }
}
