//! What the texts of chapter 11 were, counted, so that a test can demand that nothing is missing.

use super::damage::DAMAGES;
use super::good::FEATURES;
use super::make::{Made, Sort, LENGTHS};
use crate::mix::list;
use sporhulma::Loaded;
use std::collections::BTreeMap;

/// Which line is named: where it stands, and how large its number is.
const NAMED: [&str; 4] = [
    "line 1",
    "a line between",
    "the last line",
    "the number after it",
];
const LARGE: [(&str, u64); 2] = [("over 255", 0xFF), ("over 65,535", 0xFFFF)];

/// What became of a text whose bytes were changed at random.
const MUTATED: [&str; 4] = [
    "loaded",
    "loaded with a start address",
    "refused at line 1",
    "refused further on",
];

/// So many of a hundred texts are to be loaded.
const LEAST: f64 = 40.0;

/// A text that came out as it was made: what kind it is and which one of that.
type Kind = (&'static str, &'static str);

const LOADED: &str = "loaded";
const WRONG: &str = "wrong";
const NAMES: &str = "named";
const CHANGED: &str = "mutated";
const LENT: &str = "only 2";
const LENT_WRONG: &str = "2 and 6";

#[derive(Default)]
pub struct Seen {
    texts: u64,
    loaded: u64,
    bytes: u64,
    counts: BTreeMap<Kind, u64>,
}

impl Seen {
    /// Counts a text that both readers answered alike and as it was made.
    pub fn note(&mut self, made: &Made, answer: &Loaded) {
        self.texts += 1;
        self.bytes += made.text.len() as u64;
        self.loaded += u64::from(answer.refusal == 0);
        match made.sort {
            Sort::Good => made
                .features
                .iter()
                .for_each(|feature| self.count((LOADED, feature))),
            Sort::Damaged(name) => {
                self.count((WRONG, name));
                self.count((NAMES, named(answer.line, made.lines)));
                for (large, limit) in LARGE {
                    if answer.line > limit {
                        self.count((NAMES, large));
                    }
                }
            }
            Sort::Mutated => self.count((CHANGED, changed(answer))),
            Sort::Lent(what, right) => self.count((if right { LENT } else { LENT_WRONG }, what)),
        }
    }

    fn count(&mut self, kind: Kind) {
        *self.counts.entry(kind).or_default() += 1;
    }

    fn share(&self) -> f64 {
        100.0 * self.loaded as f64 / self.texts.max(1) as f64
    }

    /// What a reader of the counts would miss, a sentence each.
    pub fn complaints(&self) -> Vec<String> {
        let missing: Vec<String> = kinds()
            .into_iter()
            .filter(|kind| !self.counts.contains_key(kind))
            .map(|(kind, which)| format!("'{kind}: {which}' was never seen in a text"))
            .collect();
        let share = self.share();
        let few = (share < LEAST)
            .then(|| format!("only {share:.1} % of the texts are loaded, and {LEAST} % are to be"));
        missing.into_iter().chain(few).collect()
    }

    pub fn text(&self) -> String {
        let mut text = format!(
            "texts      {} (A7) of {} bytes; {} are loaded ({:.1} %), {} refused\n",
            self.texts,
            self.bytes,
            self.loaded,
            self.share(),
            self.texts - self.loaded
        );
        for kind in [LOADED, WRONG, NAMES, CHANGED, LENT, LENT_WRONG] {
            let kinds = kinds().into_iter().filter(|one| one.0 == kind);
            let counts =
                kinds.map(|one| format!("{}: {}", one.1, self.counts.get(&one).unwrap_or(&0)));
            list(&mut text, &format!("  {kind}"), counts.collect(), 4);
        }
        text
    }
}

fn named(line: u64, lines: u64) -> &'static str {
    match line {
        1 => NAMED[0],
        _ if line < lines => NAMED[1],
        _ if line == lines => NAMED[2],
        _ => NAMED[3],
    }
}

fn changed(answer: &Loaded) -> &'static str {
    match (answer.refusal, answer.start, answer.line) {
        (0, None, _) => MUTATED[0],
        (0, Some(_), _) => MUTATED[1],
        (_, _, 1) => MUTATED[2],
        _ => MUTATED[3],
    }
}

/// Every kind that there must be.
fn kinds() -> Vec<Kind> {
    let mut kinds = Vec::new();
    kinds.extend(FEATURES.map(|feature| (LOADED, feature)));
    kinds.extend(DAMAGES.map(|(name, _)| (WRONG, name)));
    kinds.extend(NAMED.map(|place| (NAMES, place)));
    kinds.extend(LARGE.map(|(large, _)| (NAMES, large)));
    kinds.extend(MUTATED.map(|what| (CHANGED, what)));
    kinds.extend(LENGTHS.map(|(what, _)| (LENT, what)));
    kinds.extend(LENGTHS.map(|(what, _)| (LENT_WRONG, what)));
    kinds
}

#[cfg(test)]
mod tests {
    use super::*;

    #[test]
    fn each_kind_and_the_share_are_asked_for() {
        let mut all = Seen::default();
        all.counts.extend(kinds().into_iter().map(|kind| (kind, 1)));
        (all.texts, all.loaded) = (100, 40);
        assert_eq!(all.complaints(), Vec::<String>::new());
        all.loaded = 39;
        assert_eq!(
            all.complaints(),
            ["only 39.0 % of the texts are loaded, and 40 % are to be"]
        );
        all.loaded = 40;
        for kind in kinds() {
            all.counts.remove(&kind);
            assert_eq!(all.complaints().len(), 1, "{kind:?}");
            all.counts.insert(kind, 1);
        }
        assert_eq!(kinds().len(), 22 + 46 + 6 + 4 + 2 * 3);
    }
}
