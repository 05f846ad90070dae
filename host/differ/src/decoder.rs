//! The decoder's verdict on all 2^32 words, both decoders on both cores; and each word on its way through a read and a write.

use sporhulma::FAMILIES;
use std::sync::atomic::{AtomicU64, Ordering::Relaxed};
use std::thread;

/// Words are handed out to threads in pieces of this many.
const PIECE: u64 = 1 << 20;
pub const WORDS: u64 = 1 << 32;
/// So many differences are kept to be printed.
const KEPT: usize = 10;

/// How many words each family has on the left, and where the two differ.
#[derive(Default)]
pub struct Verdicts {
    pub counts: [u64; FAMILIES.len()],
    pub differences: u64,
    /// Word, left family, right family: the first of them, by thread.
    pub first: Vec<(u32, u64, u64)>,
    /// How many words do not come back from a read and a write, and what is wrong with the first of them.
    pub lost: u64,
    pub first_lost: Vec<(u32, String)>,
}

impl Verdicts {
    fn note(&mut self, word: u32, left: u64, right: u64) {
        if let Some(count) = self.counts.get_mut(left as usize) {
            *count += 1;
        }
        if left != right {
            self.differences += 1;
            if self.first.len() < KEPT {
                self.first.push((word, left, right));
            }
        }
    }

    fn lose(&mut self, word: u32, wrong: String) {
        self.lost += 1;
        if self.first_lost.len() < KEPT {
            self.first_lost.push((word, wrong));
        }
    }

    fn add(&mut self, other: Verdicts) {
        for (count, more) in self.counts.iter_mut().zip(other.counts) {
            *count += more;
        }
        self.differences += other.differences;
        self.first.extend(other.first);
        self.first.sort_unstable();
        self.first.truncate(KEPT);
        self.lost += other.lost;
        self.first_lost.extend(other.first_lost);
        self.first_lost.sort_unstable();
        self.first_lost.truncate(KEPT);
    }
}

pub type Decoder = fn(u32) -> u64;
/// What is wrong with a word's way through a read and a write, given its family on the left.
pub type Round = fn(u32, u64) -> Option<String>;

/// Compares two decoders on the words 0 to `words` - 1, and sends each word round; `done` counts the words done, for a reader on the
/// side.
pub fn compare(
    left: Decoder,
    right: Decoder,
    round: Round,
    words: u64,
    done: &AtomicU64,
) -> Verdicts {
    let next = AtomicU64::new(0);
    let worker = || {
        let mut verdicts = Verdicts::default();
        loop {
            let start = next.fetch_add(PIECE, Relaxed);
            if start >= words {
                return verdicts;
            }
            for word in start..words.min(start + PIECE) {
                let word = word as u32;
                let family = left(word);
                verdicts.note(word, family, right(word));
                if let Some(wrong) = round(word, family) {
                    verdicts.lose(word, wrong);
                }
            }
            done.fetch_add(words.min(start + PIECE) - start, Relaxed);
        }
    };
    let threads = thread::available_parallelism().map_or(1, |count| count.get());
    thread::scope(|scope| {
        let workers: Vec<_> = (0..threads).map(|_| scope.spawn(worker)).collect();
        let mut all = Verdicts::default();
        for worker in workers {
            all.add(worker.join().expect("a decoder panicked"));
        }
        all
    })
}

#[cfg(test)]
mod tests {
    use super::*;

    fn odd(word: u32) -> u64 {
        u64::from(word & 1)
    }

    fn odd_but(word: u32) -> u64 {
        if word == 0x10_0001 {
            5
        } else {
            odd(word)
        }
    }

    fn back(_: u32, _: u64) -> Option<String> {
        None
    }

    fn back_but(word: u32, family: u64) -> Option<String> {
        (word == 0x10_0002).then(|| format!("{word:#x}, family {family}"))
    }

    #[test]
    fn one_word_that_is_lost_is_found() {
        let done = AtomicU64::new(0);
        let verdicts = compare(odd, odd, back_but, 0x10_0003, &done);
        assert_eq!((verdicts.differences, verdicts.lost), (0, 1));
        let wrong = "0x100002, family 0".to_string();
        assert_eq!(verdicts.first_lost, [(0x10_0002, wrong)]);
    }

    #[test]
    fn one_word_that_differs_is_found() {
        let done = AtomicU64::new(0);
        let verdicts = compare(odd, odd_but, back, 0x10_0003, &done);
        assert_eq!(verdicts.lost, 0);
        assert_eq!(verdicts.differences, 1);
        assert_eq!(verdicts.first, [(0x10_0001, 1, 5)]);
        assert_eq!(verdicts.counts[..2], [0x8_0002, 0x8_0001]);
        assert_eq!(done.into_inner(), 0x10_0003);
    }
}
