//! The instructions of M and Zbb that the hart has, and those of Zba, Zbb, Zbc and Zbs that it does not have and that
//! stand beside them in the same opcodes.

use crate::{OP, OP_32, OP_IMM, OP_IMM_32};

type Name = &'static str;

/// An instruction's extension, its name, and the bits of its words that are fixed.
#[derive(Clone, Copy, PartialEq, Eq, Debug)]
pub struct Encoding {
    pub extension: Name,
    pub name: Name,
    mask: u32,
    value: u32,
}

/// Format R with two sources.
const fn two(extension: Name, name: Name, opcode: u32, funct3: u32, funct7: u32) -> Encoding {
    Encoding {
        extension,
        name,
        mask: 0xFE00_707F,
        value: crate::r(opcode, funct3, funct7, 0, 0, 0),
    }
}

/// One source: funct7 and rs2, twelve bits, say what is done with it.
const fn one(extension: Name, name: Name, opcode: u32, funct3: u32, funct12: u32) -> Encoding {
    Encoding {
        extension,
        name,
        mask: 0xFFF0_707F,
        value: crate::r(opcode, funct3, funct12 >> 5, 0, 0, funct12 & 31),
    }
}

/// A source and a distance of six bits.
const fn distance(extension: Name, name: Name, opcode: u32, funct3: u32, funct6: u32) -> Encoding {
    Encoding {
        extension,
        name,
        mask: 0xFC00_707F,
        value: crate::r(opcode, funct3, funct6 << 1, 0, 0, 0),
    }
}

pub const M: [Encoding; 13] = [
    two("M", "mul", OP, 0, 1),
    two("M", "mulh", OP, 1, 1),
    two("M", "mulhsu", OP, 2, 1),
    two("M", "mulhu", OP, 3, 1),
    two("M", "div", OP, 4, 1),
    two("M", "divu", OP, 5, 1),
    two("M", "rem", OP, 6, 1),
    two("M", "remu", OP, 7, 1),
    two("M", "mulw", OP_32, 0, 1),
    two("M", "divw", OP_32, 4, 1),
    two("M", "divuw", OP_32, 5, 1),
    two("M", "remw", OP_32, 6, 1),
    two("M", "remuw", OP_32, 7, 1),
];

/// What the hart has of Zbb: the counts, and minimum and maximum.
pub const COUNTS: [Encoding; 6] = [
    one("Zbb", "clz", OP_IMM, 1, 0x600),
    one("Zbb", "ctz", OP_IMM, 1, 0x601),
    one("Zbb", "cpop", OP_IMM, 1, 0x602),
    one("Zbb", "clzw", OP_IMM_32, 1, 0x600),
    one("Zbb", "ctzw", OP_IMM_32, 1, 0x601),
    one("Zbb", "cpopw", OP_IMM_32, 1, 0x602),
];

pub const MIN_MAX: [Encoding; 4] = [
    two("Zbb", "min", OP, 4, 5),
    two("Zbb", "minu", OP, 5, 5),
    two("Zbb", "max", OP, 6, 5),
    two("Zbb", "maxu", OP, 7, 5),
];

/// What it does not have: the rest of Zbb, then Zba, Zbc and Zbs.
pub const ABSENT: [Encoding; 33] = [
    two("Zbb", "andn", OP, 7, 0x20),
    two("Zbb", "orn", OP, 6, 0x20),
    two("Zbb", "xnor", OP, 4, 0x20),
    one("Zbb", "sext.b", OP_IMM, 1, 0x604),
    one("Zbb", "sext.h", OP_IMM, 1, 0x605),
    one("Zbb", "zext.h", OP_32, 4, 0x080),
    one("Zbb", "orc.b", OP_IMM, 5, 0x287),
    one("Zbb", "rev8", OP_IMM, 5, 0x6B8),
    two("Zbb", "rol", OP, 1, 0x30),
    two("Zbb", "ror", OP, 5, 0x30),
    two("Zbb", "rolw", OP_32, 1, 0x30),
    two("Zbb", "rorw", OP_32, 5, 0x30),
    distance("Zbb", "rori", OP_IMM, 5, 0x18),
    two("Zbb", "roriw", OP_IMM_32, 5, 0x30),
    two("Zba", "sh1add", OP, 2, 0x10),
    two("Zba", "sh2add", OP, 4, 0x10),
    two("Zba", "sh3add", OP, 6, 0x10),
    two("Zba", "add.uw", OP_32, 0, 0x04),
    two("Zba", "sh1add.uw", OP_32, 2, 0x10),
    two("Zba", "sh2add.uw", OP_32, 4, 0x10),
    two("Zba", "sh3add.uw", OP_32, 6, 0x10),
    distance("Zba", "slli.uw", OP_IMM_32, 1, 0x02),
    two("Zbc", "clmul", OP, 1, 5),
    two("Zbc", "clmulr", OP, 2, 5),
    two("Zbc", "clmulh", OP, 3, 5),
    two("Zbs", "bclr", OP, 1, 0x24),
    two("Zbs", "bext", OP, 5, 0x24),
    two("Zbs", "binv", OP, 1, 0x34),
    two("Zbs", "bset", OP, 1, 0x14),
    distance("Zbs", "bclri", OP_IMM, 1, 0x12),
    distance("Zbs", "bexti", OP_IMM, 5, 0x12),
    distance("Zbs", "binvi", OP_IMM, 1, 0x1A),
    distance("Zbs", "bseti", OP_IMM, 1, 0x0A),
];

impl Encoding {
    /// The word with these fields, each as far as it is free: rs2 counts only where there is a second source.
    pub fn word(&self, rd: u32, rs1: u32, rs2: u32) -> u32 {
        self.with((rs2 << 20) | (rs1 << 15) | (rd << 7))
    }

    /// The word with these bits where they are free.
    pub fn with(&self, bits: u32) -> u32 {
        self.value | bits & !self.mask
    }

    pub fn is(&self, word: u32) -> bool {
        word & self.mask == self.value
    }

    /// Whether it looks at the lower halves of its sources only.
    pub fn of_words(&self) -> bool {
        matches!(self.value & 0x7F, OP_32 | OP_IMM_32)
    }
}

/// The instructions of M and Zbb that the hart has.
pub fn all() -> impl Iterator<Item = &'static Encoding> {
    M.iter().chain(&COUNTS).chain(&MIN_MAX)
}

/// The one of them that a number draws: each as often as the others, where the numbers are random.
pub fn drawn(number: u64) -> &'static Encoding {
    let place = number % all().count() as u64;
    all()
        .nth(place as usize)
        .expect("a place below their count")
}

/// The one of them that a word is.
pub fn added(word: u32) -> Option<&'static Encoding> {
    all().find(|encoding| encoding.is(word))
}

/// The one of those that the hart does not have.
pub fn absent(word: u32) -> Option<&'static Encoding> {
    ABSENT.iter().find(|encoding| encoding.is(word))
}

#[cfg(test)]
mod tests {
    use super::*;

    /// A word of each with rd a0, rs1 a1, rs2 a2 or the distance 3, as the GNU assembler gives it.
    #[test]
    fn the_words_of_the_assembler() {
        let words = [
            0x02C5_8533,
            0x02C5_9533,
            0x02C5_A533,
            0x02C5_B533,
            0x02C5_C533,
            0x02C5_D533,
            0x02C5_E533,
            0x02C5_F533,
            0x02C5_853B,
            0x02C5_C53B,
            0x02C5_D53B,
            0x02C5_E53B,
            0x02C5_F53B,
            0x6005_9513,
            0x6015_9513,
            0x6025_9513,
            0x6005_951B,
            0x6015_951B,
            0x6025_951B,
            0x0AC5_C533,
            0x0AC5_D533,
            0x0AC5_E533,
            0x0AC5_F533,
        ];
        for (encoding, word) in all().zip(words) {
            assert_eq!(encoding.word(10, 11, 12), word, "{}", encoding.name);
            assert_eq!(added(word), Some(encoding));
            assert_eq!(absent(word), None);
        }
    }

    #[test]
    fn the_words_of_the_assembler_that_the_hart_does_not_have() {
        let words = [
            0x40C5_F533,
            0x40C5_E533,
            0x40C5_C533,
            0x6045_9513,
            0x6055_9513,
            0x0805_C53B,
            0x2875_D513,
            0x6B85_D513,
            0x60C5_9533,
            0x60C5_D533,
            0x60C5_953B,
            0x60C5_D53B,
            0x6035_D513,
            0x6035_D51B,
            0x20C5_A533,
            0x20C5_C533,
            0x20C5_E533,
            0x08C5_853B,
            0x20C5_A53B,
            0x20C5_C53B,
            0x20C5_E53B,
            0x0835_951B,
            0x0AC5_9533,
            0x0AC5_A533,
            0x0AC5_B533,
            0x48C5_9533,
            0x48C5_D533,
            0x68C5_9533,
            0x28C5_9533,
            0x4835_9513,
            0x4835_D513,
            0x6835_9513,
            0x2835_9513,
        ];
        for (encoding, word) in ABSENT.iter().zip(words) {
            let rs2 = word >> 20 & 31;
            assert_eq!(encoding.word(10, 11, rs2), word, "{}", encoding.name);
            assert_eq!(absent(word), Some(encoding));
            assert_eq!(added(word), None);
        }
    }

    #[test]
    fn each_is_drawn() {
        let names: Vec<_> = (23..46).map(|number| drawn(number).name).collect();
        let all: Vec<_> = all().map(|encoding| encoding.name).collect();
        assert_eq!(names, all);
    }

    #[test]
    fn the_names_of_word_forms_end_with_w() {
        for encoding in all() {
            assert_eq!(encoding.of_words(), encoding.name.ends_with('w'));
        }
    }
}
