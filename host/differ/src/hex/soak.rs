//! Many texts on two readers: counts what they were, keeps what differs, and writes a failing text to a file.

use super::check::Check;
use super::make::{make, Made, Sort};
use super::seen::Seen;
use super::Reader;
use crate::soak::MOST_FAILURES;
use std::path::{Path, PathBuf};

/// A text on which the two differ, or which gets another answer than it was made for.
pub struct Failure {
    pub seed: u64,
    pub number: u64,
    pub made: Made,
    pub differences: Vec<String>,
}

impl Failure {
    pub fn title(&self) -> String {
        let sort = match self.made.sort {
            Sort::Good => "good".to_string(),
            Sort::Damaged(name) => name.to_string(),
            Sort::Mutated => "mutated".to_string(),
            Sort::Lent(what, _) => what.to_string(),
        };
        format!(
            "text {} of seed {} ({sort}; left: proved, right: second)",
            self.number, self.seed
        )
    }

    /// The command that makes this text again from its seed.
    pub fn again(&self) -> String {
        format!(
            "tools/differ again --seed {} --text {}",
            self.seed, self.number
        )
    }

    /// Writes the text into a folder and gives the file's path.
    pub fn save(&self, folder: &Path) -> std::io::Result<PathBuf> {
        std::fs::create_dir_all(folder)?;
        let path = folder.join(format!("seed-{}-text-{}.hex", self.seed, self.number));
        std::fs::write(&path, &self.made.text)?;
        Ok(path)
    }
}

pub struct Texts<L, R> {
    left: L,
    right: R,
    seed: u64,
    check: Check,
    pub seen: Seen,
    pub failures: Vec<Failure>,
}

impl<L: Reader, R: Reader> Texts<L, R> {
    pub fn new(left: L, right: R, seed: u64) -> Texts<L, R> {
        Texts {
            left,
            right,
            seed,
            check: Check::default(),
            seen: Seen::default(),
            failures: Vec::new(),
        }
    }

    pub fn done(&self) -> bool {
        self.failures.len() >= MOST_FAILURES
    }

    pub fn text(&mut self, number: u64) {
        let made = make(self.seed, number);
        let differences = self.check.check(&self.left, &self.right, &made);
        match self.check.left.answer {
            Some(answer) if differences.is_empty() => self.seen.note(&made, &answer),
            _ => self.failures.push(Failure {
                seed: self.seed,
                number,
                made,
                differences,
            }),
        }
    }
}

#[cfg(test)]
mod tests {
    use super::*;
    use crate::simulator::Second;

    #[test]
    fn the_texts_have_everything() {
        let mut texts = Texts::new(Second, Second, 1);
        (0..40_000).for_each(|number| texts.text(number));
        for failure in &texts.failures {
            panic!("{}: {:?}", failure.title(), failure.differences);
        }
        assert_eq!(texts.seen.complaints(), Vec::<String>::new());
    }

    #[test]
    fn a_text_is_made_again() {
        let (one, again) = (make(3, 5), make(3, 5));
        assert_eq!((one.memory, one.text), (again.memory, again.text));
        assert_ne!(make(3, 5).text, make(3, 6).text);
        assert_ne!(make(3, 5).text, make(4, 5).text);
    }
}
