//! Corners of operands as a program puts them into a register: an immediate (ADDI) and, for most, a shift of it.

use crate::{i, OP_IMM};

#[derive(Clone, Copy, PartialEq, Eq, Debug)]
pub struct Corner {
    immediate: u64,
    /// The shift's funct3 and distance; none for 0.
    shift: u32,
    distance: u64,
}

const LEFT: u32 = 1;
const RIGHT: u32 = 5;

const fn corner(immediate: u64, shift: u32, distance: u64) -> Corner {
    Corner {
        immediate,
        shift,
        distance,
    }
}

const ZERO: Corner = corner(0, LEFT, 0);
const ONE: Corner = corner(1, LEFT, 0);
const MINUS_ONE: Corner = corner(u64::MAX, LEFT, 0);
const LEAST: Corner = corner(1, LEFT, 63);
const GREATEST: Corner = corner(u64::MAX, RIGHT, 1);
/// Of 32 bits, sign-extended.
const LEAST_HALF: Corner = corner(u64::MAX, LEFT, 31);
const GREATEST_HALF: Corner = corner(u64::MAX, RIGHT, 33);

/// The corners of 64 bits.
pub const WHOLES: [Corner; 5] = [ZERO, ONE, MINUS_ONE, LEAST, GREATEST];

/// Those of 32 bits, and then with dirty upper halves: 0 below ones, -1 and the least number below zeros.
pub const HALVES: [Corner; 8] = [
    ZERO,
    ONE,
    MINUS_ONE,
    LEAST_HALF,
    GREATEST_HALF,
    corner(u64::MAX, LEFT, 32),
    corner(u64::MAX, RIGHT, 32),
    corner(1, LEFT, 31),
];

/// The corners of 32 or of 64 bits.
pub fn corners(of_words: bool) -> &'static [Corner] {
    if of_words {
        &HALVES
    } else {
        &WHOLES
    }
}

/// Dividend and divisor where division has corners of its own: the least number by 0 or by -1.
pub fn division(of_words: bool, by_zero: bool) -> [Corner; 2] {
    let least = if of_words { LEAST_HALF } else { LEAST };
    [least, if by_zero { ZERO } else { MINUS_ONE }]
}

impl Corner {
    /// The words that put it into a register.
    pub fn words(&self, register: u32) -> Vec<u32> {
        let mut words = vec![i(OP_IMM, 0, register, 0, self.immediate)];
        if self.distance > 0 {
            words.push(i(OP_IMM, self.shift, register, register, self.distance));
        }
        words
    }
}

#[cfg(test)]
mod tests {
    use super::*;

    fn value(corner: &Corner) -> u64 {
        match corner.shift {
            LEFT => corner.immediate << corner.distance,
            _ => corner.immediate >> corner.distance,
        }
    }

    #[test]
    fn the_corners_are_these_numbers() {
        assert_eq!(
            WHOLES.each_ref().map(value),
            [0, 1, u64::MAX, 1 << 63, (1 << 63) - 1]
        );
        let signed = [0, 1, -1, i32::MIN, i32::MAX].map(|half| half as u64);
        assert_eq!(HALVES.each_ref().map(value)[..5], signed);
        let dirty = [u64::MAX << 32, 0xFFFF_FFFF, 1 << 31];
        assert_eq!(HALVES.each_ref().map(value)[5..], dirty);
    }

    #[test]
    fn a_register_gets_its_corner() {
        assert_eq!(ZERO.words(10), [0x0000_0513]); // li a0,0
        assert_eq!(LEAST.words(10), [0x0010_0513, 0x03F5_1513]); // li a0,1; slli a0,a0,0x3f
        assert_eq!(GREATEST.words(10), [0xFFF0_0513, 0x0015_5513]); // li a0,-1; srli a0,a0,0x1
    }
}
