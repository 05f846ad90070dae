//! Chapter 12, instructions as eight numbers: all words through a read and a write, and eights made at random, near those that can be
//! written; each beside the second simulator's own reader and writer.
//!
//! `shape` has which eights can be written, from include/sporhulma.h and the manuals; `make` makes eights near them; `soak` makes many.

pub mod make;
pub mod shape;
pub mod soak;

use crate::simulator::{Proved, Second};

pub type Numbers = [u64; 8];

/// Reads and writes instructions, as include/sporhulma.h says; a trait, so that it can also be tried with an impostor.
pub trait Scribe {
    fn read(&self, word: u32, numbers: &mut Numbers) -> u64;
    fn write(&self, numbers: &Numbers, word: &mut u32) -> u64;
}

impl Scribe for Proved {
    fn read(&self, word: u32, numbers: &mut Numbers) -> u64 {
        sporhulma::read(word, numbers)
    }

    fn write(&self, numbers: &Numbers, word: &mut u32) -> u64 {
        sporhulma::write(numbers, word)
    }
}

impl Scribe for Second {
    fn read(&self, word: u32, numbers: &mut Numbers) -> u64 {
        let read = second::read(word);
        *numbers = read.unwrap_or_default();
        read.map_or(REFUSED, |_| 0)
    }

    fn write(&self, numbers: &Numbers, word: &mut u32) -> u64 {
        match second::write(numbers) {
            Some(written) => {
                *word = written;
                0
            }
            None => REFUSED,
        }
    }
}

/// What stands in the word before a write, so that a refusal that leaves it alone can be told from one that does not.
const BEFORE: u32 = 0x5EED_0BAD;
const REFUSED: u64 = 5;

/// What is wrong with a word's way through a read and a write; its family is `sporhulma_family`'s verdict.
pub fn round<S: Scribe>(scribe: &S, word: u32, family: u64) -> Option<String> {
    let mut numbers = [u64::MAX; 8];
    let read = scribe.read(word, &mut numbers);
    let mut written = !word;
    let wrote = scribe.write(&numbers, &mut written);
    let good = match family {
        0 => (read, numbers, wrote, written) == (REFUSED, [0; 8], REFUSED, !word),
        _ => (read, numbers[0], wrote, written) == (0, family, 0, word),
    };
    let mut others = [u64::MAX; 8];
    let same = (Second.read(word, &mut others), others) == (read, numbers);
    (!good || !same).then(|| {
        format!(
            "{word:#010x}, family {family}: read {read} as {}, by the second {}, written {wrote} as {written:#010x}",
            text(&numbers),
            text(&others)
        )
    })
}

/// The word of eight numbers or nothing where they are refused, as it has to be by the table and by the second writer; else what is wrong.
pub fn check<S: Scribe>(scribe: &S, numbers: &Numbers) -> Result<Option<u32>, String> {
    let word = by_the_table(scribe, numbers)?;
    match agrees(scribe, numbers) {
        true => Ok(word),
        false => Err(format!(
            "answered {word:x?}, and the second writer {:x?}",
            second::write(numbers)
        )),
    }
}

/// Whether the second writer does the same with these numbers.
pub fn agrees<S: Scribe>(scribe: &S, numbers: &Numbers) -> bool {
    let (mut word, mut other) = (BEFORE, BEFORE);
    let (wrote, others) = (
        scribe.write(numbers, &mut word),
        Second.write(numbers, &mut other),
    );
    (wrote, word) == (others, other)
}

fn by_the_table<S: Scribe>(scribe: &S, numbers: &Numbers) -> Result<Option<u32>, String> {
    let mut word = BEFORE;
    let wrote = scribe.write(numbers, &mut word);
    let legal = shape::legal(numbers);
    match (wrote, legal) {
        (0, true) => {
            let mut back = [u64::MAX; 8];
            match (scribe.read(word, &mut back), back) {
                (0, back) if back == *numbers => Ok(Some(word)),
                (read, back) => Err(format!(
                    "written as {word:#010x}, which is read {read} as {}",
                    text(&back)
                )),
            }
        }
        (REFUSED, false) if word == BEFORE => Ok(None),
        (REFUSED, false) => Err(format!("refused, and the word is {word:#010x} now")),
        (0, false) => Err(format!(
            "written as {word:#010x}, and the table of include/sporhulma.h does not have it"
        )),
        (wrote, _) => Err(format!(
            "answered {wrote}, and the table of include/sporhulma.h has it"
        )),
    }
}

/// Eight numbers as they are written in C.
pub fn text(numbers: &Numbers) -> String {
    let each: Vec<String> = numbers.iter().map(|n| format!("{n:#x}")).collect();
    format!("{{{}}}", each.join(", "))
}
