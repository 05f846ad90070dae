//! Eight numbers from a seed and a number: an instruction, half of them changed in one place, mostly to what is just beyond it.

use super::shape::{Register, Shape, SHAPES};
use super::Numbers;
use formats::random::Random;
use sporhulma::number::{FAMILY, FIRST, IMMEDIATE, OPERATION, RD, RS1, RS2, SECOND};

/// How eight numbers were made.
#[derive(Clone, Copy, Debug, PartialEq, Eq)]
pub enum Sort {
    Plain,
    Immediate,
    Register,
    Operation,
    Family,
    Left,
    Exchanged,
    Mop,
    Wild,
}

pub const SORTS: [(Sort, &str); 9] = [
    (Sort::Plain, "as they are"),
    (Sort::Immediate, "another immediate"),
    (Sort::Register, "another register"),
    (Sort::Operation, "another operation"),
    (Sort::Family, "another family"),
    (Sort::Left, "another of the two left"),
    (Sort::Exchanged, "two numbers exchanged"),
    (Sort::Mop, "near push, pop-check, read of ssp"),
    (Sort::Wild, "any numbers"),
];

/// Keeps these streams apart from those of steps, runs, pairs and texts.
const KIND: u64 = 0xA1;

pub fn make(seed: u64, number: u64) -> (Sort, Numbers) {
    let random = &mut Random::of(seed, KIND, number);
    let shape = &SHAPES[random.below(SHAPES.len() as u64) as usize];
    let mut numbers = plain(random, shape);
    let sort = match random.chance(45) {
        true => Sort::Plain,
        false => SORTS[random.below(SORTS.len() as u64) as usize].0,
    };
    match sort {
        Sort::Plain => {}
        Sort::Immediate => numbers[IMMEDIATE] = near_immediate(random, shape, numbers[IMMEDIATE]),
        Sort::Register => {
            let at = RD + random.below(3) as usize;
            numbers[at] = near_register(random, numbers[at]);
        }
        Sort::Operation => numbers[OPERATION] = near_operation(random, numbers[OPERATION]),
        Sort::Family => numbers[FAMILY] = random.below(26),
        Sort::Left => {
            let at = FIRST + random.below(2) as usize;
            numbers[at] = near_left(random, shape.left[at - FIRST], numbers[at]);
        }
        Sort::Exchanged => {
            let (one, other) = (random.below(8) as usize, random.below(8) as usize);
            numbers.swap(one, other);
        }
        Sort::Mop => numbers = near_mop(random),
        Sort::Wild => numbers = [0; 8].map(|_| wild(random)),
    }
    (sort, numbers)
}

/// Numbers of a row of the table; MOP words that are of another family come too, seldom.
fn plain(random: &mut Random, shape: &Shape) -> Numbers {
    let mut numbers = [0; 8];
    numbers[FAMILY] = shape.family;
    numbers[OPERATION] = random.pick(shape.operations);
    for at in RD..=RS2 {
        numbers[at] = match shape.registers[at - RD] {
            Register::None => 0,
            Register::Any => random.below(32),
            Register::NotZero => 1 + random.below(31),
            Register::Link => random.pick(&[1, 5]),
        };
    }
    let (low, high, by) = shape.immediate;
    let steps = (high - low) / by;
    let inside = [0, steps, steps / 2, random.below(steps as u64 + 1) as i64];
    numbers[IMMEDIATE] = (low + random.pick(&inside) * by) as u64;
    for at in FIRST..=SECOND {
        numbers[at] = random.below(shape.left[at - FIRST] + 1);
    }
    numbers
}

/// One bit of any of the 64 changed.
fn one_bit_off(random: &mut Random, number: u64) -> u64 {
    number ^ random.one_bit(u64::MAX)
}

fn near_immediate(random: &mut Random, shape: &Shape, given: u64) -> u64 {
    let (low, high, by) = shape.immediate;
    let end = random.pick(&[low, high]);
    let step = random.pick(&[-by, -1, 1, by, -2, 2]);
    match random.below(4) {
        0 => (end + step) as u64,
        1 => given.wrapping_add(step as u64),
        2 => given.wrapping_add(random.pick(&[1 << 12, 1 << 13, 1 << 21, 1 << 32])),
        _ => one_bit_off(random, given),
    }
}

fn near_register(random: &mut Random, given: u64) -> u64 {
    match random.below(3) {
        0 => random.pick(&[0, 1, 5, 31, 32, 33, 255, 256]),
        1 => given.wrapping_add(random.pick(&[1, 32, 256, 1 << 32])),
        _ => one_bit_off(random, given),
    }
}

/// An operation of some row, a neighbour, or one bit changed.
fn near_operation(random: &mut Random, given: u64) -> u64 {
    match random.below(3) {
        0 => {
            let other = &SHAPES[random.below(SHAPES.len() as u64) as usize];
            random.pick(other.operations)
        }
        1 => given.wrapping_add(random.pick(&[1, 8, 0x100, 0x2000, u64::MAX])),
        _ => one_bit_off(random, given),
    }
}

fn near_left(random: &mut Random, most: u64, given: u64) -> u64 {
    match random.below(3) {
        0 => most + 1,
        1 => given.wrapping_add(random.pick(&[1, 16, 4096, 1 << 32])),
        _ => one_bit_off(random, given),
    }
}

/// The families whose words lie among MOP.R.28 and MOP.RR.7, with registers at and beside those that tell them apart.
fn near_mop(random: &mut Random) -> Numbers {
    let mut numbers = [0; 8];
    let (family, operation) = random.pick(&[
        (18, 0),
        (19, 0),
        (20, 0),
        (22, 28),
        (22, 27),
        (23, 7),
        (23, 6),
    ]);
    numbers[FAMILY] = family;
    numbers[OPERATION] = operation;
    for at in [RD, RS1, RS2] {
        numbers[at] = random.pick(&[0, 0, 0, 1, 5, 2, 4, 31]);
    }
    numbers
}

fn wild(random: &mut Random) -> u64 {
    match random.below(3) {
        0 => random.word(),
        1 => random.below(64),
        _ => random.one_bit(u64::MAX),
    }
}
