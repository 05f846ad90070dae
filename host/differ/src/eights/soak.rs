//! Many eights on a scribe: counts how they were made and what became of them, and keeps what is wrong.

use super::make::{make, Sort, SORTS};
use super::{check, text, Scribe};
use crate::soak::MOST_FAILURES;
use sporhulma::number::FAMILY;
use sporhulma::FAMILIES;

/// The least share of eights that are written, and of those that are refused, in percent.
const LEAST_SHARE: u64 = 35;

pub struct Eights<S> {
    scribe: S,
    seed: u64,
    pub made: u64,
    /// Of each sort how many were written, and how many refused.
    sorts: [[u64; 2]; SORTS.len()],
    /// Of each family how many were written.
    families: [u64; FAMILIES.len()],
    pub failures: Vec<String>,
}

impl<S: Scribe> Eights<S> {
    pub fn new(scribe: S, seed: u64) -> Eights<S> {
        Eights {
            scribe,
            seed,
            made: 0,
            sorts: [[0; 2]; SORTS.len()],
            families: [0; FAMILIES.len()],
            failures: Vec::new(),
        }
    }

    pub fn done(&self) -> bool {
        self.failures.len() >= MOST_FAILURES
    }

    pub fn next(&mut self) {
        let number = self.made;
        let (sort, numbers) = make(self.seed, number);
        self.made += 1;
        match check(&self.scribe, &numbers) {
            Ok(word) => {
                let at = SORTS.iter().position(|(one, _)| *one == sort);
                self.sorts[at.expect("every sort is listed")][usize::from(word.is_none())] += 1;
                if word.is_some() {
                    self.families[numbers[FAMILY] as usize] += 1;
                }
            }
            Err(wrong) => self.failures.push(format!(
                "eight {number} of seed {}, {}: {wrong}",
                self.seed,
                text(&numbers)
            )),
        }
    }

    fn total(&self, which: usize) -> u64 {
        self.sorts.iter().map(|counts| counts[which]).sum()
    }

    /// What the eights were.
    pub fn text(&self) -> String {
        let mut text = format!(
            "eights     {} written, {} refused\n",
            self.total(0),
            self.total(1)
        );
        for ((_, name), [written, refused]) in SORTS.iter().zip(self.sorts) {
            text.push_str(&format!("           {name}: {written} / {refused}\n"));
        }
        text
    }

    /// What a test has to see and did not.
    pub fn complaints(&self) -> Vec<String> {
        let mut complaints = Vec::new();
        for ((sort, name), counts) in SORTS.iter().zip(self.sorts) {
            // numbers of a row are refused only where a MOP form is another family's word
            let seldom = [Sort::Plain, Sort::Wild].contains(sort);
            if counts[0] + counts[1] == 0 || (!seldom && counts.contains(&0)) {
                complaints.push(format!("eights, {name}: {counts:?} written and refused"));
            }
        }
        for (at, name) in FAMILIES.iter().enumerate().skip(1) {
            if self.families[at] == 0 {
                complaints.push(format!("no eight of family {at} ({name}) was written"));
            }
        }
        for (which, name) in ["written", "refused"].into_iter().enumerate() {
            let share = self.total(which) * 100 / self.made.max(1);
            if share < LEAST_SHARE {
                complaints.push(format!(
                    "{share} % of the eights were {name}, under {LEAST_SHARE}"
                ));
            }
        }
        complaints
    }
}
