//! Which eight numbers can be written: a row for each kind of operands that a family has, from the table of include/sporhulma.h and
//! the manuals' listings.

use super::Numbers;
use sporhulma::number::{FAMILY, IMMEDIATE, OPERATION, RD, RS1, RS2};

/// What a register's number may be.
#[derive(Clone, Copy, Debug, PartialEq, Eq)]
pub enum Register {
    /// The family has none: 0.
    None,
    Any,
    NotZero,
    /// x1 or x5, which hold return addresses.
    Link,
}

impl Register {
    fn takes(self, number: u64) -> bool {
        match self {
            Register::None => number == 0,
            Register::Any => number < 32,
            Register::NotZero => (1..32).contains(&number),
            Register::Link => matches!(number, 1 | 5),
        }
    }
}

#[derive(Debug)]
pub struct Shape {
    pub family: u64,
    pub operations: &'static [u64],
    /// rd, rs1, rs2
    pub registers: [Register; 3],
    /// the lowest and the highest immediate, and the step between two
    pub immediate: (i64, i64, i64),
    /// the highest of each of the two numbers that are left
    pub left: [u64; 2],
}

const NO: Register = Register::None;
const ANY: Register = Register::Any;
const D: [Register; 3] = [ANY, NO, NO];
const DA: [Register; 3] = [ANY, ANY, NO];
const DAB: [Register; 3] = [ANY, ANY, ANY];
const AB: [Register; 3] = [NO, ANY, ANY];
const NONE: (i64, i64, i64) = (0, 0, 1);
const TWELVE: (i64, i64, i64) = (-2048, 2047, 1);
const UPPER: (i64, i64, i64) = (-(1 << 31), (1 << 31) - 4096, 4096);
const SIXTEEN: &[u64] = &[0, 1, 2, 3, 4, 5, 6, 7, 8, 9, 10, 11, 12, 13, 14, 15];
#[rustfmt::skip]
const THIRTY_TWO: &[u64] = &[
    0, 1, 2, 3, 4, 5, 6, 7, 8, 9, 10, 11, 12, 13, 14, 15, 16, 17, 18, 19, 20, 21, 22, 23, 24, 25, 26, 27, 28, 29, 30, 31,
];
#[rustfmt::skip]
const OPS: &[u64] = &[
    0, 0x2000, 1, 2, 3, 4, 5, 0x2005, 6, 7, 0x100, 0x101, 0x102, 0x103, 0x104, 0x105, 0x106, 0x107, 0x504, 0x505, 0x506, 0x507,
];
const OPS_32: &[u64] = &[0, 0x2000, 1, 5, 0x2005, 0x100, 0x104, 0x105, 0x106, 0x107];

const fn shape(
    family: u64,
    operations: &'static [u64],
    registers: [Register; 3],
    immediate: (i64, i64, i64),
    left: [u64; 2],
) -> Shape {
    Shape {
        family,
        operations,
        registers,
        immediate,
        left,
    }
}

#[rustfmt::skip]
pub const SHAPES: [Shape; 27] = [
    shape(1, &[0], D, UPPER, [0, 0]),
    shape(2, &[0], D, UPPER, [0, 0]),
    shape(3, &[0], D, (-1_048_576, 1_048_574, 2), [0, 0]),
    shape(4, &[0], DA, TWELVE, [0, 0]),
    shape(5, &[0, 1, 4, 5, 6, 7], AB, (-4096, 4094, 2), [0, 0]),
    shape(6, &[0, 1, 2, 3, 4, 5, 6], DA, TWELVE, [0, 0]),
    shape(7, &[0, 1, 2, 3], AB, TWELVE, [0, 0]),
    shape(8, &[0, 2, 3, 4, 6, 7], DA, TWELVE, [0, 0]),
    shape(8, &[1, 5, 0x2005], DA, (0, 63, 1), [0, 0]),
    shape(8, &[0x3001, 0x3009, 0x3011], DA, NONE, [0, 0]),
    shape(9, &[0], DA, TWELVE, [0, 0]),
    shape(9, &[1, 5, 0x2005], DA, (0, 31, 1), [0, 0]),
    shape(9, &[0x3001, 0x3009, 0x3011], DA, NONE, [0, 0]),
    shape(10, OPS, DAB, NONE, [0, 0]),
    shape(11, OPS_32, DAB, NONE, [0, 0]),
    shape(12, SIXTEEN, DA, NONE, [15, 15]),
    shape(13, &[0], [NO; 3], NONE, [0, 0]),
    shape(14, &[0], [NO; 3], NONE, [0, 0]),
    shape(15, &[0], [NO; 3], NONE, [0, 0]),
    shape(16, &[0], [NO; 3], NONE, [0, 0]),
    shape(17, &[1, 2, 3, 5, 6, 7], DA, NONE, [4095, 0]),
    shape(18, &[0], [Register::NotZero, NO, NO], NONE, [0, 0]),
    shape(19, &[0], [NO, NO, Register::Link], NONE, [0, 0]),
    shape(20, &[0], [NO, Register::Link, NO], NONE, [0, 0]),
    shape(21, &[0x2402, 0x2403], DAB, NONE, [1, 1]),
    shape(22, THIRTY_TWO, DA, NONE, [0, 0]),
    shape(23, &[0, 1, 2, 3, 4, 5, 6, 7], DAB, NONE, [0, 0]),
];

impl Shape {
    fn has(&self, n: &Numbers) -> bool {
        let (low, high, by) = self.immediate;
        let immediate = n[IMMEDIATE] as i64;
        self.family == n[FAMILY]
            && self.operations.contains(&n[OPERATION])
            && (RD..=RS2).all(|at| self.registers[at - RD].takes(n[at]))
            && (low..=high).contains(&immediate)
            && (immediate - low) % by == 0
            && n[6] <= self.left[0]
            && n[7] <= self.left[1]
    }
}

/// MOP forms whose words are a read of ssp, a pop-check or a push.
fn of_another_family(n: &Numbers) -> bool {
    let link = |at: usize| Register::Link.takes(n[at]);
    match (n[FAMILY], n[OPERATION]) {
        (22, 28) => (n[RS1] == 0 && n[RD] != 0) || (n[RD] == 0 && link(RS1)),
        (23, 7) => n[RD] == 0 && n[RS1] == 0 && link(RS2),
        _ => false,
    }
}

/// Whether some word reads as these numbers.
pub fn legal(numbers: &Numbers) -> bool {
    SHAPES.iter().any(|shape| shape.has(numbers)) && !of_another_family(numbers)
}
