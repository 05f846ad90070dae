//! A loop of 3,000 instructions without a branch in it: more code than a page has, and more than a simulator may remember of what it
//! has decoded.

use crate::encode::*;
use crate::programs::{bare, Program, PAGE};

const LENGTH: usize = 3000;

/// Numbers of no pattern from a fixed seed (xorshift), so that the program is the same each time.
struct Numbers(u64);

impl Numbers {
    fn below(&mut self, limit: u32) -> u32 {
        self.0 ^= self.0 << 13;
        self.0 ^= self.0 >> 7;
        self.0 ^= self.0 << 17;
        (self.0 >> 32) as u32 % limit
    }

    /// Any register but x0 to x4: x2 has the page of data.
    fn register(&mut self) -> u32 {
        5 + self.below(27)
    }

    /// The offset of an aligned access into the page of data; funct3 is its width.
    fn offset(&mut self, funct3: u32) -> i32 {
        let width = 1 << (funct3 % 4);
        (self.below(2048 / width) * width) as i32
    }
}

/// Of twenty, fifteen compute, three load and two store.
fn instruction(n: &mut Numbers) -> u32 {
    let (rd, rs1, rs2) = (n.register(), n.register(), n.register());
    match n.below(20) {
        0..=2 => addi(rd, rs1, n.below(4096) as i32 - 2048),
        3 | 4 => add(rd, rs1, rs2),
        5 => sub(rd, rs1, rs2),
        6 => xor(rd, rs1, rs2),
        7 => xori(rd, rs1, n.below(4096) as i32 - 2048),
        8 => slli(rd, rs1, n.below(16) as i32),
        9 => srli(rd, rs1, n.below(16) as i32),
        10 => srai(rd, rs1, n.below(16) as i32),
        11 => sltu(rd, rs1, rs2),
        12 => addw(rd, rs1, rs2),
        13 => addiw(rd, rs1, n.below(4096) as i32 - 2048),
        14 => mul(rd, rs1, rs2),
        15..=17 => {
            let funct3 = n.below(5);
            load(funct3, rd, 2, n.offset(funct3))
        }
        _ => {
            let funct3 = n.below(4);
            store(funct3, rs2, 2, n.offset(funct3))
        }
    }
}

fn code() -> Vec<u32> {
    let mut numbers = Numbers(0x5EED_0F3A_571A_1607);
    let mut code: Vec<u32> = (1..LENGTH).map(|_| instruction(&mut numbers)).collect();
    code.push(jal(0, -4 * code.len() as i32));
    code
}

pub fn program() -> Program {
    let mut program = bare("straight loop of 3,000 instructions", &code());
    let data = program.memory.len() - PAGE;
    program.memory[data..].fill(0x5A);
    program
}

#[cfg(test)]
mod tests {
    use super::*;
    use formats::{BRANCH, JAL, JALR, LOAD, STORE};
    use sporhulma::{word, BASE};

    /// How many of its words have one of these opcodes.
    fn having(opcodes: &[u32]) -> usize {
        let has = |word: &&u32| opcodes.contains(&(*word & 0x7F));
        code().iter().filter(has).count()
    }

    /// Its one jump is its last instruction, which is reached after all the others, and leads back to the first.
    #[test]
    fn it_goes_round() {
        assert_eq!((code().len(), having(&[JAL, JALR, BRANCH])), (LENGTH, 1));
        let mut p = program();
        for pc in [4 * (LENGTH as u64 - 1), 4 * (LENGTH as u64 - 2)] {
            let answer = sporhulma::run(&mut p.hart, &mut p.memory, &p.map, LENGTH as u64 - 1);
            assert_eq!((answer.refusal, answer.trapped), (0, false));
            assert_eq!(p.hart.rest[word::PC], BASE + pc);
        }
    }

    /// It is mixed, its code stays as it was, its data change, and most registers hold something.
    #[test]
    fn it_computes_loads_and_stores() {
        let (loads, stores) = (having(&[LOAD]), having(&[STORE]));
        assert!((400..500).contains(&loads), "{loads} loads");
        assert!((250..350).contains(&stores), "{stores} stores");
        let (mut p, before) = (program(), program().memory);
        let answer = sporhulma::run(&mut p.hart, &mut p.memory, &p.map, 100 * LENGTH as u64);
        assert_eq!((answer.refusal, answer.trapped), (0, false));
        let data = (p.hart.x[2] - BASE) as usize;
        assert!(4 * LENGTH <= data && p.memory[..data] == before[..data]);
        assert!(p.memory[data..] != before[data..]);
        let held = p.hart.x[5..].iter().filter(|&&v| v != 0).count();
        assert!(held > 20, "{held} registers");
    }

    /// The same words each time: a figure of another day is of the same program.
    #[test]
    fn it_is_the_same_program() {
        let mixed = |sum: u64, word: &u32| (sum ^ u64::from(*word)).wrapping_mul(0x100_0000_01B3);
        assert_eq!(code().iter().fold(0, mixed), 0x4906_4E58_7D46_1114);
    }
}
