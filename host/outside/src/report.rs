//! What a comparison prints: progress on a terminal, the first differences in full, and counts.

use std::collections::BTreeMap;
use std::fmt::Display;
use std::time::Duration;
use terminal::progress::Progress;
use terminal::say;

/// How many differences a comparison prints in full.
const SHOWN: u64 = 10;

/// A comparison under way.
pub struct Report {
    name: &'static str,
    differences: u64,
    counts: BTreeMap<String, u64>,
    line: Progress,
}

impl Report {
    pub fn new(name: &'static str) -> Report {
        Report {
            name,
            differences: 0,
            counts: BTreeMap::new(),
            line: Progress::lines(Duration::from_millis(200)),
        }
    }

    /// Adds one to what is counted under `label`.
    pub fn count(&mut self, label: impl Into<String>) {
        *self.counts.entry(label.into()).or_default() += 1;
    }

    /// A difference: `what` says it in full, so that it can be looked for again.
    pub fn difference(&mut self, what: impl Display) {
        self.differences += 1;
        if self.differences <= SHOWN {
            self.line.aside(|| say!("{}: DIFFERENCE {what}", self.name));
        }
    }

    pub fn differences(&self) -> u64 {
        self.differences
    }

    /// Where it stands, on a terminal and not oftener than it can be read.
    pub fn progress(&self, where_it_stands: impl Display) {
        self.line
            .show(|| format!("{}: {where_it_stands}", self.name));
    }

    /// Prints the summary and what was counted; gives the number of differences.
    pub fn finish(self, summary: impl Display) -> u64 {
        self.line.clear();
        say!(
            "{}: {summary}; differences: {}",
            self.name,
            self.differences
        );
        for (label, count) in &self.counts {
            say!("{}:   {count:>7} {label}", self.name);
        }
        self.differences
    }
}
