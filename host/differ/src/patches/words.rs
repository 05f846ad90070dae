//! The words of a program that patches itself: what fills it, and pairs of words that a patch turns into each other.
//!
//! x10 to x15 are for anything. x28 only ever takes up what is there, so that a word that was run in place of another is still to be seen
//! when the run ends.

use crate::case::PAGE;
use crate::program::TABLE;
use formats::csr::{SSCRATCH, SSP};
use formats::extensions::{drawn, ABSENT};
use formats::random::Random;
use formats::*;

/// The register that takes up.
pub const SUM: u32 = 28;

pub const NOP: u32 = 0x13;

/// Which words will do.
#[derive(Clone, Copy, Debug)]
pub struct Taste {
    /// No loads and stores.
    pub plain: bool,
    /// Also jumps over the next word.
    pub skips: bool,
    /// Sometimes an illegal word, or any.
    pub wild: bool,
    /// Loads and stores in the upper half of the data page alone: code is in the lower one.
    pub upper: bool,
    /// No pushes, which would use their page up, and nothing that the fast path leaves to the slow path.
    pub late: bool,
    /// The mode that they are run in.
    pub mode: u64,
}

/// A word, and how it is turned into another by storing `bytes` bytes: from which of its bytes on, and the bits that change in them.
#[derive(Clone, Copy, Debug)]
pub struct Turn {
    pub word: u32,
    pub byte: u64,
    pub bits: u32,
}

fn scratch(random: &mut Random) -> u32 {
    10 + random.below(6) as u32
}

/// A word that changes x10 to x15 and x28 or the data page, and goes on at the next word, or, where it may, at the one behind that.
pub fn tame(random: &mut Random, taste: Taste) -> u32 {
    let [rd, rs1, rs2] = [(); 3].map(|()| scratch(random));
    let word = random.word();
    let rd = if word >> 32 & 15 == 0 { 0 } else { rd };
    let funct3 = word as u32 & 7;
    match random.below(30) {
        0..=5 => i(OP_IMM, random.pick(&[0, 0, 4]), SUM, SUM, word >> 52),
        6 => i(OP_IMM_32, 0, SUM, SUM, word >> 52),
        7 | 8 => r(OP, random.pick(&[0, 4]), 0, SUM, SUM, rs1),
        9 => r(OP, 0, 0x20, SUM, SUM, rs1),
        10 | 11 => r(OP, funct3, 0, rd, rs1, rs2),
        12 if funct3 & 3 == 1 => i(OP_IMM, funct3, rd, rs1, word >> 58),
        12 | 13 => i(OP_IMM, funct3 & !1, rd, rs1, word >> 52),
        14 => r(OP_32, random.pick(&[0, 1, 5]), 0, rd, rs1, rs2),
        15 => i(OP_IMM_32, 0, rd, rs1, word >> 52),
        16 => u(random.pick(&[LUI, AUIPC]), rd, (word >> 44) as u32),
        17 | 18 => drawn(word).word(random.pick(&[rd, SUM]), rs1, rs2),
        19 => word as u32 & !0x7FFF | (rd << 7) | MISC_MEM,
        20 => random.pick(&[
            mop_r(word as u32 & 31, rd, rs1),
            mop_rr(word as u32 & 7, rd, rs1, rs2),
            mop_r(28, rd, 0),
        ]),
        21 if taste.skips => j(random.pick(&[0, rd, SUM]), 8),
        21 => j(rd, 4),
        22 if taste.skips => b(random.pick(&[0, 1, 4, 5, 6, 7]), rs1, rs2, 8),
        23 | 24 if !taste.plain => load(random, taste, rd),
        25 | 26 if !taste.plain => store(random, taste, rs1),
        27 if taste.mode == 0 && !taste.late => zicsr(2, rd, SSP, 0),
        27 if taste.mode > 0 => zicsr(random.pick(&[1, 2, 3]), rd, SSCRATCH, rs1),
        28 if !taste.plain && !taste.late && word & 3 == 0 => push(random.pick(&[1, 5])),
        _ => i(OP_IMM, 0, SUM, SUM, word >> 52),
    }
}

/// An offset from x8, which points to the middle of the data page.
fn offset(random: &mut Random, taste: Taste, width: u64) -> u64 {
    let bytes = if taste.upper { PAGE / 2 } else { PAGE };
    random.below(bytes / width) * width
}

fn load(random: &mut Random, taste: Taste, rd: u32) -> u32 {
    let funct3 = random.below(7);
    let offset = offset(random, taste, 1 << (funct3 & 3));
    i(LOAD, funct3 as u32, rd, TABLE, offset)
}

fn store(random: &mut Random, taste: Taste, rs2: u32) -> u32 {
    let funct3 = random.below(4);
    let offset = offset(random, taste, 1 << funct3);
    s(STORE, funct3 as u32, TABLE, rs2, offset)
}

/// Whether a word is one that `tame` could give, or does no more than those do.
fn is_tame(word: u32, taste: Taste) -> bool {
    let [rd, rs1] = [7, 15].map(|at| word >> at & 31);
    let quiet = rd == 0 || (10..16).contains(&rd) || rd == SUM;
    // An offset with its upper bit set points to the lower half.
    let table = !taste.plain && rs1 == TABLE && !(taste.upper && word >> 31 == 1);
    let width = 1 << (word >> 12 & 3);
    let csr = (word >> 20) as u16;
    match second::family(word) {
        1 | 2 | 8..=12 | 18 | 22 | 23 => quiet,
        17 if csr == SSP => quiet && !taste.late && word >> 12 & 0xFF == 2,
        17 => quiet && taste.mode > 0 && csr == SSCRATCH,
        19 => !taste.plain && !taste.late,
        3 => quiet && (word == j(rd, 4) || taste.skips && word == j(rd, 8)),
        5 => taste.skips && word & 0xFE00_0F80 == b(0, 0, 0, 8) & 0xFE00_0F80,
        6 => quiet && table && (word >> 20) % width == 0,
        7 => table && (word >> 7 & 31) % width == 0,
        _ => false,
    }
}

/// A tame word and another one, mostly tame, that differs from it only in `bytes` bytes: 1, 2 or 4.
pub fn turn(random: &mut Random, bytes: u64, taste: Taste) -> Turn {
    let wild = taste.wild && random.chance(40);
    for _ in 0..60 {
        let word = tame(random, taste);
        let byte = random.below(4 / bytes) * bytes;
        let mask = u32::MAX >> (32 - 8 * bytes) << (8 * byte);
        let (other, bits) = (tame(random, taste), random.word() as u32);
        let other = match wild {
            true => any(random),
            false => random.pick(&[other, bits]),
        };
        let changed = (word ^ other) & mask;
        if changed != 0 && (wild || is_tame(word ^ changed, taste)) {
            let bits = changed >> (8 * byte);
            return Turn { word, byte, bits };
        }
    }
    // Its immediate is in the upper half.
    let word = i(OP_IMM, 0, SUM, SUM, random.word());
    let byte = 4 - bytes;
    let bits = 1 << (8 * bytes - 1);
    Turn { word, byte, bits }
}

/// A word that is illegal, or traps, or is any.
fn any(random: &mut Random) -> u32 {
    let absent = random.pick(&ABSENT).with(random.word() as u32);
    let word = random.word() as u32;
    random.pick(&[0, absent, absent, ECALL, EBREAK, word, word])
}

/// The word of the code's twin: what x28 takes up by an immediate is another number there.
pub fn twin(word: u32) -> u32 {
    let taken_up = i(OP_IMM, 0, SUM, SUM, 0);
    if word & 0xF_FFFF == taken_up {
        word ^ 1 << 20
    } else {
        word
    }
}

#[cfg(test)]
mod tests {
    use super::*;
    use std::collections::BTreeSet;

    const ALL: Taste = Taste {
        plain: false,
        skips: true,
        wild: false,
        upper: false,
        late: false,
        mode: 0,
    };

    #[test]
    fn what_is_tame_is_known_as_tame() {
        let mut random = Random::of(1, 0, 0);
        let mut families = BTreeSet::new();
        for (skips, mode) in [(false, 0), (false, 3), (true, 0), (true, 1)] {
            for (plain, upper, late) in [
                (false, false, false),
                (false, true, false),
                (true, false, false),
                (false, false, true),
            ] {
                let taste = Taste {
                    plain,
                    skips,
                    upper,
                    late,
                    mode,
                    ..ALL
                };
                for _ in 0..2000 {
                    let word = tame(&mut random, taste);
                    assert!(is_tame(word, taste), "{word:#010x} {taste:?}");
                    families.insert(second::family(word));
                }
            }
        }
        let expected = [1, 2, 3, 5, 6, 7, 8, 9, 10, 11, 12, 17, 18, 19, 22, 23];
        assert_eq!(families, expected.into());
    }

    #[test]
    fn a_turn_stays_within_its_bytes() {
        let mut random = Random::of(1, 0, 1);
        for bytes in [1, 2, 4] {
            let mut at = BTreeSet::new();
            for _ in 0..2000 {
                let turn = turn(&mut random, bytes, ALL);
                assert_ne!(turn.bits, 0);
                assert_eq!(u64::from(turn.bits) >> (8 * bytes), 0);
                assert!(is_tame(turn.word ^ turn.bits << (8 * turn.byte), ALL));
                at.insert(turn.byte);
            }
            let all = (0..4).step_by(bytes as usize).collect();
            assert_eq!(at, all);
        }
    }

    #[test]
    fn wild_turns_are_illegal_too() {
        let mut random = Random::of(1, 0, 2);
        let taste = Taste { wild: true, ..ALL };
        let illegal = (0..1000)
            .map(|_| turn(&mut random, 4, taste))
            .filter(|turn| second::family(turn.word ^ turn.bits) == 0)
            .count();
        assert!((100..400).contains(&illegal), "{illegal} of 1000");
    }
}
