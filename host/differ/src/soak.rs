//! Many cases on two simulators: counts the mix, keeps what differs, and writes a failing case so that it can be run again.

use crate::case::Case;
use crate::mix::Mix;
use crate::pair::Pair;
use crate::patches;
use crate::patches::check::Parts;
use crate::seen::Seen;
use crate::simulator::Simulator;
use crate::twins::Twins;
use crate::{runs, steps, text};
use std::path::{Path, PathBuf};

/// After so many failures a soak ends.
pub const MOST_FAILURES: usize = 5;

/// Which case: step, run, pair or program that patches itself, `number` of a seed.
#[derive(Clone, Copy, PartialEq, Eq, Debug)]
pub enum Name {
    Step(u64),
    Run(u64),
    Pair(u64),
    Patch(u64),
}

impl std::fmt::Display for Name {
    fn fmt(&self, f: &mut std::fmt::Formatter) -> std::fmt::Result {
        match self {
            Name::Step(number) => write!(f, "step {number}"),
            Name::Run(number) => write!(f, "run {number}"),
            Name::Pair(number) => write!(f, "pair {number}"),
            Name::Patch(number) => write!(f, "patch {number}"),
        }
    }
}

/// A case on which the two differ. For a run it is the state before the call that differs, not the program's start; for a program that patches
/// itself too, and for a pair, where `other` is the same with the other memory.
pub struct Failure {
    pub seed: u64,
    pub name: Name,
    pub case: Case,
    pub other: Option<Case>,
    pub differences: Vec<String>,
}

impl Failure {
    /// The first line of what is printed and of the file.
    pub fn title(&self) -> String {
        format!(
            "{} of seed {} (left: proved, right: second)",
            self.name, self.seed
        )
    }

    /// Writes the case, or a pair's two, into a folder, with what differs as comments, and gives the files' paths.
    pub fn save(&self, folder: &Path) -> std::io::Result<Vec<PathBuf>> {
        std::fs::create_dir_all(folder)?;
        let name = self.name.to_string().replace(' ', "-");
        let mut head = format!("# {}\n", self.title());
        for line in &self.differences {
            head += &format!("# {line}\n");
        }
        let mut paths = Vec::new();
        for (case, end) in [(Some(&self.case), ""), (self.other.as_ref(), "-other")] {
            if let Some(case) = case {
                let path = folder.join(format!("seed-{}-{name}{end}.case", self.seed));
                std::fs::write(&path, head.clone() + &text::write(case))?;
                paths.push(path);
            }
        }
        Ok(paths)
    }

    /// The command that makes this case again from its seed.
    pub fn again(&self) -> String {
        let which = match self.name {
            Name::Step(number) => format!("--case {number}"),
            Name::Run(number) => format!("--run {number}"),
            Name::Pair(number) => format!("--pair {number}"),
            Name::Patch(number) => format!("--patch {number}"),
        };
        format!("tools/differ again --seed {} {which}", self.seed)
    }
}

pub struct Soak<L, R> {
    left: L,
    right: R,
    seed: u64,
    pair: Pair,
    case: Case,
    twins: Twins,
    parts: Parts,
    pub mix: Mix,
    pub seen: Seen,
    pub patched: patches::seen::Seen,
    pub failures: Vec<Failure>,
}

impl<L: Simulator, R: Simulator> Soak<L, R> {
    pub fn new(left: L, right: R, seed: u64) -> Soak<L, R> {
        Soak {
            left,
            right,
            seed,
            pair: Pair::default(),
            case: Case::empty(),
            twins: Twins::default(),
            parts: Parts::default(),
            mix: Mix::default(),
            seen: Seen::default(),
            patched: patches::seen::Seen::default(),
            failures: Vec::new(),
        }
    }

    pub fn done(&self) -> bool {
        self.failures.len() >= MOST_FAILURES
    }

    pub fn step(&mut self, number: u64) {
        let word = steps::make(self.seed, number, &mut self.case);
        self.compare(Name::Step(number));
        self.mix.note_step(&self.case, word, &self.pair.left);
    }

    /// A run, taken up again in the handler after each trap.
    pub fn run(&mut self, number: u64) {
        runs::make(self.seed, number, &mut self.case);
        for call in 0..runs::CHAIN {
            let same = self.compare(Name::Run(number));
            self.mix.note_run(call == 0, &self.case, &self.pair.left);
            if !same || !self.pair.left.answer.is_some_and(|answer| answer.trapped) {
                return;
            }
            self.case.hart = self.pair.left.hart;
            self.case.call = runs::next_call(self.case.call);
            std::mem::swap(&mut self.case.mem, &mut self.pair.left.mem);
        }
    }

    /// A pair of memories, by the calls of its row.
    pub fn pair(&mut self, number: u64) {
        let simulators = (&self.left, &self.right);
        let wrong = self
            .twins
            .check(simulators, self.seed, number, &mut self.seen);
        if !wrong.is_empty() {
            let [case, other] = self.twins.made.cases.clone();
            self.failures.push(Failure {
                seed: self.seed,
                name: Name::Pair(number),
                case,
                other: Some(other),
                differences: wrong,
            });
        }
    }

    /// A program that patches itself, by the calls of its row.
    pub fn patch(&mut self, number: u64) {
        let simulators = (&self.left, &self.right);
        let wrong = self
            .parts
            .check(simulators, self.seed, number, &mut self.patched);
        if !wrong.is_empty() {
            self.failures.push(Failure {
                seed: self.seed,
                name: Name::Patch(number),
                case: self.parts.made.case.clone(),
                other: None,
                differences: wrong,
            });
        }
    }

    fn compare(&mut self, name: Name) -> bool {
        let same = self.pair.agree(&self.left, &self.right, &self.case);
        if !same {
            self.failures.push(Failure {
                seed: self.seed,
                name,
                case: self.case.clone(),
                other: None,
                differences: self.pair.differences(),
            });
        }
        same
    }
}

#[cfg(test)]
mod tests {
    use super::*;
    use crate::simulator::Second;

    #[test]
    fn the_mix_has_everything() {
        let mut soak = Soak::new(Second, Second, 1);
        (0..200_000).for_each(|number| soak.step(number));
        (0..5_000).for_each(|number| soak.run(number));
        assert!(soak.failures.is_empty());
        assert_eq!(soak.mix.complaints(true), Vec::<String>::new());
    }

    #[test]
    fn the_pairs_have_everything() {
        let mut soak = Soak::new(Second, Second, 1);
        (0..20_000).for_each(|number| soak.pair(number));
        assert!(soak.failures.is_empty());
        assert_eq!(soak.seen.complaints(), Vec::<String>::new());
    }

    #[test]
    fn the_patches_have_everything() {
        let mut soak = Soak::new(Second, Second, 1);
        (0..2_000).for_each(|number| soak.patch(number));
        assert!(soak.failures.is_empty());
        assert_eq!(soak.patched.complaints(), Vec::<String>::new());
    }

    #[test]
    fn an_empty_mix_has_nothing() {
        assert_eq!(Mix::default().complaints(true).len(), 24 + 16 + 4 + 1 + 2);
        assert_eq!(Mix::default().complaints(false).len(), 24 + 16 + 3 + 1 + 1);
        assert_eq!(Seen::default().complaints().len(), 30 + 14 + 14 + 7 + 4 + 1);
        let patched = patches::seen::Seen::default().complaints();
        assert_eq!(
            patched.len(),
            7 + 3 + 9 + 3 + 2 + 4 + 1 + 20 + 8 + 19 + 1 + 36 + 101 + 3
        );
    }
}
