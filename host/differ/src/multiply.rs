//! The instructions of M and Zbb in steps and in programs, with operands at the corners, and the neighbours in the same
//! opcodes that the hart does not have.

use crate::maker::Maker;
use crate::operands::{counted, operand};
use crate::program::Program;
use formats::corners::{corners, division, Corner};
use formats::extensions::{drawn, Encoding, ABSENT, COUNTS, M, MIN_MAX};
use formats::{i, OP_IMM};

/// Of a hundred so many have operands that are drawn for them; the others have what the registers hold.
const AIMED: u64 = 85;

/// An instruction of M.
pub fn product(maker: &mut Maker) -> u32 {
    let encoding = maker.random.pick(&M);
    with_two(maker, &encoding)
}

/// Minimum or maximum.
pub fn min_max(maker: &mut Maker) -> u32 {
    let encoding = maker.random.pick(&MIN_MAX);
    with_two(maker, &encoding)
}

fn with_two(maker: &mut Maker, encoding: &Encoding) -> u32 {
    let (rs1, rs2) = (maker.register(), maker.register());
    if maker.random.chance(AIMED) {
        for register in [rs1, rs2] {
            let value = operand(maker.random, encoding.of_words());
            maker.case.set(register, value);
        }
    }
    encoding.word(maker.register(), rs1, rs2)
}

pub fn count(maker: &mut Maker) -> u32 {
    let encoding = maker.random.pick(&COUNTS);
    let rs1 = maker.register();
    if maker.random.chance(AIMED) {
        let value = match maker.random.below(4) {
            0 => operand(maker.random, encoding.of_words()),
            _ => counted(maker.random, &encoding),
        };
        maker.case.set(rs1, value);
    }
    encoding.word(maker.register(), rs1, 0)
}

/// A word of Zba, Zbb, Zbc or Zbs that is illegal.
pub fn absent(maker: &mut Maker) -> u32 {
    let encoding = maker.random.pick(&ABSENT);
    encoding.with(maker.random.word() as u32)
}

impl Program<'_> {
    /// An instruction of M or Zbb, each as often as the others, mostly of sources that were just put at a corner.
    pub fn extension(&mut self) {
        let encoding = drawn(self.random.word());
        let (rs1, rs2) = (self.scratch(), self.scratch());
        let of_words = encoding.of_words();
        if self.random.chance(25) {
            let [dividend, divisor] = division(of_words, self.random.chance(50));
            self.words.extend(dividend.words(rs1));
            self.words.extend(divisor.words(rs2));
        } else {
            self.put(rs1, corners(of_words));
            self.put(rs2, corners(of_words));
        }
        let rd = self.scratch();
        self.words.push(encoding.word(rd, rs1, rs2));
    }

    /// Puts one of the corners into a register, sometimes another number, and sometimes leaves it.
    fn put(&mut self, register: u32, corners: &[Corner]) {
        let any = i(OP_IMM, 0, register, 0, self.random.word());
        match self.random.below(8) {
            0 => {}
            1 => self.words.push(any),
            _ => self.words.extend(self.random.pick(corners).words(register)),
        }
    }
}
