//! Text `number` of a seed with the memory that it is loaded into, made without the texts before it.

use super::damage::DAMAGES;
use super::good::{good, Text};
use super::mutate::mutate;
use crate::case::{fill, PAGE};
use formats::random::Random;
use sporhulma::Loaded;

/// Keeps the streams of texts apart from those of steps, runs and pairs.
const KIND: u64 = 4;

/// Lengths that refusal 2 is about, with what it says of them.
pub const LENGTHS: [(&str, &[usize]); 3] = [
    ("no memory", &[0]),
    ("no whole pages", &[1, 8, 4_095, 4_097, 8_191, 12_289]),
    ("over 1,048,576", &[0x10_0001, 0x10_1000, 0x20_0000]),
];

/// What a text was made to be.
#[derive(Clone, Copy, PartialEq, Eq, PartialOrd, Ord, Debug)]
pub enum Sort {
    Good,
    /// With the damage's name.
    Damaged(&'static str),
    Mutated,
    /// For a memory that is refused, with what is wrong with it, and whether the text would be loaded.
    Lent(&'static str, bool),
}

/// The answer that a text must get, and what it must store then: a place in memory and the bytes.
type Expected = (Loaded, Vec<(usize, Vec<u8>)>);

pub struct Made {
    pub memory: Vec<u8>,
    pub text: Vec<u8>,
    pub sort: Sort,
    /// What a good text has that a reader could get wrong.
    pub features: Vec<&'static str>,
    /// How many lines it has, where it was not mutated.
    pub lines: u64,
    /// None where it was mutated.
    pub expected: Option<Expected>,
}

pub fn make(seed: u64, number: u64) -> Made {
    let random = &mut Random::of(seed, KIND, number);
    let mut length = pages(random) * PAGE as usize;
    let mut text = good(random, length);
    let (sort, expected) = match random.below(100) {
        0..=44 => (Sort::Good, Some(loaded(&mut text))),
        45..=82 => {
            let (name, damage) = random.pick(&DAMAGES);
            let line = damage(random, &mut text);
            (Sort::Damaged(name), Some(refused(6, line)))
        }
        83..=85 => {
            let right = random.chance(50);
            if !right {
                random.pick(&DAMAGES).1(random, &mut text);
            }
            let what;
            (what, length) = wrong_length(random);
            (Sort::Lent(what, right), Some(refused(2, 0)))
        }
        _ => (Sort::Mutated, None),
    };
    let mut made = Made {
        memory: Vec::new(),
        text: text.bytes(),
        sort,
        features: text.features,
        lines: text.lines.len() as u64,
        expected,
    };
    if sort == Sort::Mutated {
        mutate(random, &mut made.text);
    }
    fill(&mut made.memory, length, random.word(), random.word());
    made
}

fn loaded(text: &mut Text) -> Expected {
    let answer = Loaded {
        refusal: 0,
        line: 0,
        start: text.start,
    };
    (answer, std::mem::take(&mut text.stores))
}

fn refused(refusal: u64, line: u64) -> Expected {
    let answer = Loaded {
        refusal,
        line,
        start: None,
    };
    (answer, Vec::new())
}

/// How many pages memory has: mostly few, and some that an upper address does not reach over.
fn pages(random: &mut Random) -> usize {
    match random.below(1_000) {
        0 => 256,
        1..=50 => random.pick(&[16, 17, 18]),
        _ => random.pick(&[1, 1, 1, 2, 3]),
    }
}

/// A length that is refused. The large ones are rare, since they take long.
fn wrong_length(random: &mut Random) -> (&'static str, usize) {
    let (what, lengths) = LENGTHS[match random.below(20) {
        0 => 2,
        1..=8 => 0,
        _ => 1,
    }];
    (what, random.pick(lengths))
}
