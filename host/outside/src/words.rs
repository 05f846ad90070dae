//! The words whose text is compared: every opcode, funct3 and funct7 with varied fields, every
//! instruction of M and of the Zb extensions, every CSR address, every Zimop word with the registers
//! that matter, near misses (one bit away from each instruction and alias) and random words.

use crate::stream;
use formats::extensions::{all, ABSENT};
use formats::random::Random;
use std::collections::{BTreeMap, BTreeSet};

/// The address of the first word; each next one stands 4 bytes on.
pub use sporhulma::BASE;

/// The words of one seed, rising, each once.
pub fn sample(seed: u64) -> Vec<u32> {
    let random = &mut stream(seed, 0);
    let mut words = BTreeSet::new();
    for_all_functs(random, &mut words);
    with_edge_immediates(random, &mut words);
    of_extensions(random, &mut words);
    with_every_csr(random, &mut words);
    may_be_operations(random, &mut words);
    near_misses(&mut words);
    words.extend((0..40_000).map(|_| random.word() as u32 | 3));
    words.into_iter().collect()
}

/// A register number: x0, x1 and x5 are special to aliases and to the shadow stack.
fn register(random: &mut Random) -> u32 {
    let anything = random.below(32) as u32;
    random.pick(&[0, 1, 5, anything])
}

fn fields(random: &mut Random, funct7: u32, funct3: u32, opcode: u32) -> u32 {
    let (rd, rs1, rs2) = (register(random), register(random), register(random));
    funct7 << 25 | rs2 << 20 | rs1 << 15 | funct3 << 12 | rd << 7 | opcode
}

fn for_all_functs(random: &mut Random, words: &mut BTreeSet<u32>) {
    for functs in 0..1 << 10 {
        for opcode in 0..1 << 5 {
            for _ in 0..3 {
                words.insert(fields(random, functs >> 3, functs & 7, opcode << 2 | 3));
            }
        }
    }
}

/// Immediates of format I at the edges that aliases and signs depend on; the same bits serve the
/// other formats.
fn with_edge_immediates(random: &mut Random, words: &mut BTreeSet<u32>) {
    for opcode in [
        0x03, 0x0f, 0x13, 0x17, 0x1b, 0x23, 0x33, 0x37, 0x3b, 0x63, 0x67, 0x6f, 0x73,
    ] {
        for immediate in [
            0, 1, 2, 4, 0xff, 0x100, 0x400, 0x401, 0x43f, 0x7ff, 0x800, 0xffc, 0xffe, 0xfff, 0x0f0,
            0x833,
        ] {
            for funct3 in 0..8 {
                for _ in 0..8 {
                    words.insert(immediate << 20 | fields(random, 0, funct3, opcode) & 0xf_ffff);
                }
            }
        }
    }
}

/// Each instruction of M and Zbb that the hart has, the words one bit away, and those of Zba, Zbb,
/// Zbc and Zbs that it does not have.
fn of_extensions(random: &mut Random, words: &mut BTreeSet<u32>) {
    for encoding in all().chain(&ABSENT) {
        for _ in 0..20 {
            let word = encoding.word(register(random), register(random), register(random));
            words.insert(word);
            words.extend((0..32).map(|bit| word ^ 1 << bit));
        }
    }
}

fn with_every_csr(random: &mut Random, words: &mut BTreeSet<u32>) {
    for csr in 0..1 << 12 {
        for funct3 in [1, 2, 3, 5, 6, 7] {
            words.insert(csr << 20 | fields(random, 0, funct3, 0x73) & 0xf_ffff);
        }
    }
}

/// The 32 MOP.R and the 8 MOP.RR, and the shadow swap, with the registers that decide what they
/// mean.
fn may_be_operations(random: &mut Random, words: &mut BTreeSet<u32>) {
    let of_one = (0..32).map(|n| 0x81c0_4073 | (n >> 4) << 30 | (n >> 2 & 3) << 26 | (n & 3) << 20);
    let of_two = (0..8).map(|n| 0x8200_4073 | (n >> 2) << 30 | (n & 3) << 26);
    let swaps = (0..8).map(|n| 0x4800_202f | (n >> 1) << 25 | (n & 1) << 12);
    for operation in of_one.chain(of_two).chain(swaps) {
        for rd in [0, 1, 5, random.below(32) as u32] {
            for rs1 in [0, 1, 5, random.below(32) as u32] {
                for rs2 in [0, 1, 5, random.below(32) as u32] {
                    let second = if operation & 1 << 25 != 0 || operation & 0x7f == 0x2f {
                        rs2 << 20
                    } else {
                        0
                    };
                    words.insert(operation | second | rs1 << 15 | rd << 7);
                }
            }
        }
    }
}

/// For each name that stands first in a text so far, one word that has it, and the 32 words one bit
/// away from that.
fn near_misses(words: &mut BTreeSet<u32>) {
    words.extend([0x0000_0073, 0x0010_0073, 0x1020_0073, 0x3020_0073]);
    let mut instructions = BTreeMap::new();
    for &word in words.iter() {
        let name = disasm::text(word, BASE)
            .split(' ')
            .next()
            .map(str::to_string);
        instructions.entry(name).or_insert(word);
    }
    words.extend(
        instructions
            .values()
            .flat_map(|word| (0..32).map(move |bit| word ^ 1 << bit)),
    );
}

#[cfg(test)]
mod tests {
    use super::*;

    #[test]
    fn every_instruction_is_in_the_sample() {
        let words = sample(1);
        let mut seen = [0; 24];
        words
            .iter()
            .for_each(|&word| seen[second::family(word) as usize] += 1);
        assert!(words.len() > 150_000, "only {} words", words.len());
        assert!(
            seen.iter().all(|&count| count > 0),
            "a family is missing: {seen:?}"
        );
        for encoding in all().chain(&ABSENT) {
            let found = words.iter().any(|&word| encoding.is(word));
            assert!(found, "{} is missing", encoding.name);
        }
    }
}
