//! M and Zbb in the mix: the instructions that were carried out and at which corners, and their neighbours
//! that are illegal.

use crate::operands::{corner, count, dirty, CORNERS};
use formats::extensions::{absent, added, all, Encoding, ABSENT, COUNTS};
use sporhulma::Hart;
use std::collections::BTreeMap;

/// What there was of an instruction.
#[derive(Clone, Copy, PartialEq, Eq, PartialOrd, Ord, Debug)]
enum What {
    /// Two sources at these corners.
    Corners(&'static str, &'static str),
    /// A count that comes to this.
    Count(u32),
    /// A source of a word form: its corner, under an upper half that is not its sign.
    Dirty(&'static str, &'static str),
    /// The hart does not have it.
    Illegal,
}

/// An instruction by its name, and what there was of it.
type Sort = (&'static str, What);

const SOURCES: [&str; 2] = ["rs1", "rs2"];

/// So many of a hundred steps are to be such instructions, and of a hundred steps of runs.
const LEAST: f64 = 8.0;
const LEAST_IN_RUNS: f64 = 2.0;

impl std::fmt::Display for What {
    fn fmt(&self, f: &mut std::fmt::Formatter) -> std::fmt::Result {
        match self {
            What::Corners(one, other) => write!(f, "of {one} and {other}"),
            What::Count(count) => write!(f, "that comes to {count}"),
            What::Dirty(source, corner) => write!(f, "of {corner} in {source} under a dirty half"),
            What::Illegal => write!(f, "which is illegal"),
        }
    }
}

/// Every sort that there must be in steps.
fn sorts() -> Vec<Sort> {
    let mut sorts = Vec::new();
    for encoding in all() {
        let name = encoding.name;
        if COUNTS.contains(encoding) {
            sorts.extend((0..=most(name)).map(|count| (name, What::Count(count))));
        } else {
            let pairs = CORNERS.map(|one| CORNERS.map(|other| What::Corners(one, other)));
            sorts.extend(pairs.as_flattened().iter().map(|what| (name, *what)));
        }
        for source in sources(encoding).iter().filter(|_| encoding.of_words()) {
            sorts.extend(CORNERS.map(|corner| (name, What::Dirty(source, corner))));
        }
    }
    sorts.extend(ABSENT.map(|encoding| (encoding.name, What::Illegal)));
    sorts
}

/// The most that a count comes to.
fn most(name: &str) -> u32 {
    if name.ends_with('w') {
        32
    } else {
        64
    }
}

/// The names of the sources that an instruction reads.
fn sources(encoding: &Encoding) -> &'static [&'static str] {
    if COUNTS.contains(encoding) {
        &SOURCES[..1]
    } else {
        &SOURCES
    }
}

/// Whether there must be the sort in runs too: few of each instruction, division by zero and its overflow among them.
fn in_runs((name, what): &Sort) -> bool {
    match *what {
        What::Corners(one, other) => one == "least" && ["0", "-1"].contains(&other),
        What::Count(count) => count == 0 || count == most(name),
        _ => false,
    }
}

/// How many there were of each sort, and in how many steps.
#[derive(Default)]
pub struct Added {
    steps: u64,
    counts: BTreeMap<Sort, u64>,
}

impl Added {
    /// Counts a step; `word` is its instruction, if it came to one.
    pub fn note(&mut self, hart: &Hart, word: Option<u32>) {
        self.steps += 1;
        let Some(word) = word else { return };
        if let Some(encoding) = added(word) {
            let operands = [15, 20].map(|at| hart.x[(word >> at) as usize & 31]);
            self.note_operands(encoding, operands);
        } else if let Some(encoding) = absent(word) {
            self.count((encoding.name, What::Illegal));
        }
    }

    fn note_operands(&mut self, encoding: &Encoding, operands: [u64; 2]) {
        let name = encoding.name;
        let of_words = encoding.of_words();
        let corners = operands.map(|operand| corner(operand, of_words));
        self.count(match sources(encoding) {
            [_] => (name, What::Count(count(encoding, operands[0]))),
            _ => (name, What::Corners(corners[0], corners[1])),
        });
        for ((source, operand), corner) in sources(encoding).iter().zip(operands).zip(corners) {
            if of_words && dirty(operand) {
                self.count((name, What::Dirty(source, corner)));
            }
        }
    }

    fn count(&mut self, sort: Sort) {
        *self.counts.entry(sort).or_default() += 1;
    }

    /// How many instructions there were of those that the name and what there was of them choose.
    fn sum(&self, chosen: impl Fn(&Sort) -> bool) -> u64 {
        let counts = self.counts.iter().filter(|(sort, _)| chosen(sort));
        counts.map(|(_, count)| count).sum()
    }

    fn carried_out(&self, chosen: impl Fn(&str) -> bool) -> u64 {
        let once = |what| matches!(what, What::Corners(..) | What::Count(_));
        self.sum(|(name, what)| once(*what) && chosen(name))
    }

    fn share(&self) -> f64 {
        100.0 * self.carried_out(|_| true) as f64 / self.steps.max(1) as f64
    }

    /// What a reader would miss of steps: a sort of which there was none, or that such instructions are common.
    pub fn complaint(&self) -> Option<String> {
        self.missing("steps", &sorts(), LEAST)
    }

    /// The same of runs.
    pub fn complaint_of_runs(&self) -> Option<String> {
        let sorts: Vec<Sort> = sorts().into_iter().filter(in_runs).collect();
        self.missing("runs' steps", &sorts, LEAST_IN_RUNS)
    }

    fn missing(&self, of: &str, sorts: &[Sort], least: f64) -> Option<String> {
        let missing: Vec<_> = sorts
            .iter()
            .filter(|sort| !self.counts.contains_key(*sort))
            .collect();
        let share = self.share();
        match missing[..] {
            [(name, what), ..] => Some(format!(
                "{} of {} sorts of M and Zbb were never seen in the {of} ({name} {what}, ..)",
                missing.len(),
                sorts.len()
            )),
            [] if share < least => Some(format!("only {share:.1} % of the {of} were of M and Zbb")),
            [] => None,
        }
    }

    /// A title line, and of each name how many there were in steps and, by `runs`, in runs.
    pub fn text(&self, runs: &Added) -> (String, Vec<String>) {
        let title = format!(
            "{:.1} % of the steps and {:.1} % of the runs' are of M and Zbb (in steps/in runs)",
            self.share(),
            runs.share()
        );
        let of = |added: &Added, name| added.carried_out(|other| other == name);
        let names = all().map(|encoding| {
            let name = encoding.name;
            format!("{name} {}/{}", of(self, name), of(runs, name))
        });
        let illegal = |added: &Added| added.sum(|(_, what)| *what == What::Illegal);
        let illegal = format!("illegal ones {}/{}", illegal(self), illegal(runs));
        (title, names.chain([illegal]).collect())
    }
}

#[cfg(test)]
mod tests {
    use super::*;
    use formats::{i, r, OP, OP_32, OP_IMM, OP_IMM_32};

    /// What is counted of a word with x1 and x2.
    fn noted(word: u32, x1: u64, x2: u64) -> Vec<Sort> {
        let mut hart = Hart::fresh();
        (hart.x[1], hart.x[2]) = (x1, x2);
        let mut all = Added::default();
        all.note(&hart, Some(word));
        assert!(all.counts.values().all(|count| *count == 1));
        all.counts.into_keys().collect()
    }

    #[test]
    fn an_instruction_is_counted_with_its_corners() {
        let div = r(OP, 4, 1, 3, 1, 2);
        let sort = |one, other| [("div", What::Corners(one, other))];
        assert_eq!(noted(div, 1 << 63, u64::MAX), sort("least", "-1"));
        assert_eq!(noted(div, 1 << 31, 0), sort("positive", "0"));
        let divw = r(OP_32, 4, 1, 3, 1, 2);
        let corners = ("divw", What::Corners("least", "0"));
        let dirty = |source, corner| ("divw", What::Dirty(source, corner));
        assert_eq!(noted(divw, !0 << 31, 0), [corners]);
        assert_eq!(
            noted(divw, 1 << 31, 1 << 32),
            [corners, dirty("rs1", "least"), dirty("rs2", "0")]
        );
        let clz = i(OP_IMM, 1, 3, 1, 0x600);
        assert_eq!(noted(clz, 1 << 31, 9), [("clz", What::Count(32))]);
        let clzw = i(OP_IMM_32, 1, 3, 1, 0x600);
        assert_eq!(noted(clzw, !0 << 31, 1 << 32), [("clzw", What::Count(0))]);
        assert_eq!(
            noted(clzw, 1 << 32, 0),
            [("clzw", What::Count(32)), ("clzw", What::Dirty("rs1", "0"))]
        );
        let andn = r(OP, 7, 0x20, 3, 1, 2);
        assert_eq!(noted(andn, 0, 0), [("andn", What::Illegal)]);
        assert_eq!(noted(r(OP, 7, 0, 3, 1, 2), 0, 0), []);
    }

    /// 17 instructions with 49 pairs of corners, 3 counts of 65 and 3 of 33, 13 dirty sources at 7 corners, 33 neighbours.
    #[test]
    fn every_sort_is_asked_for() {
        let sorts = sorts();
        assert_eq!(sorts.len(), 17 * 49 + 3 * 65 + 3 * 33 + 13 * 7 + 33);
        let in_runs = sorts.iter().filter(|sort| in_runs(sort)).count() as u64;
        assert_eq!(in_runs, 17 * 2 + 6 * 2);
        let mut all = Added::default();
        all.counts.extend(sorts.iter().map(|sort| (*sort, 1)));
        all.steps = 1;
        assert_eq!((all.complaint(), all.complaint_of_runs()), (None, None));
        for sort in &sorts {
            all.counts.remove(sort);
            assert!(all
                .complaint()
                .is_some_and(|one| one.starts_with("1 of 1251")));
            all.counts.insert(*sort, 1);
        }
    }

    #[test]
    fn they_have_to_be_common() {
        let mut all = Added::default();
        all.counts.extend(sorts().into_iter().map(|sort| (sort, 1)));
        all.steps = 1127 * 20;
        let complaint = all.complaint().expect("they are rare");
        assert_eq!(complaint, "only 5.0 % of the steps were of M and Zbb");
        assert_eq!(all.complaint_of_runs(), None);
        all.steps = 1127 * 100;
        assert!(all.complaint_of_runs().is_some());
    }
}
