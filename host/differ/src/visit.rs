//! Programs of a user who looks around (rules 13.10 to 13.15): ordinary work on pages of its own, and in the middle of it visits
//! to any page of the map, by every kind of access.
//!
//! x19 to x27 hold addresses in the middle of pages of the map, and x16 what a frame that is not the user's may hold all
//! over: a pop-check there would pass.

use crate::program::{Program, RA, TABLE};
use formats::csr::SSP;
use formats::random::Random;
use formats::*;

pub const VISITED: std::ops::Range<u32> = 19..28;
pub const GUESS: u32 = 16;

/// A program of a user: loads and stores first, so that few programs end without any, then blocks with visits.
pub fn visitor(random: &mut Random) -> Vec<u32> {
    let mut program = Program {
        random,
        mode: 0,
        words: Vec::new(),
        visits: 12,
    };
    program.errands();
    for _ in 0..1 + program.random.below(3) {
        program.block(2);
    }
    for _ in 0..1 + program.random.below(3) {
        program.visit();
    }
    program.ended()
}

impl Program<'_> {
    fn errands(&mut self) {
        self.load();
        self.store();
        for _ in 0..self.random.below(4) {
            match self.random.below(4) {
                0 => self.load(),
                1 => self.store(),
                2 => self.swap_at_ssp(),
                _ => self.arithmetic(),
            }
        }
    }

    /// A look at a page that may be anyone's, or code that the program writes itself.
    pub fn visit(&mut self) {
        match self.random.below(16) {
            0..=2 => self.load_there(),
            3..=5 => self.store_there(),
            6 | 7 => self.jump_there(),
            8 => self.swap_there(),
            9 | 10 => self.swap_at_ssp(),
            11 => self.push_there(),
            12 | 13 => self.pop_there(),
            14 => self.patch(),
            _ => self.plant(),
        }
    }

    fn there(&mut self) -> u32 {
        VISITED.start + self.random.below(u64::from(VISITED.end - VISITED.start)) as u32
    }

    fn load_there(&mut self) {
        let funct3 = self.random.below(7);
        let offset = self.offset(1 << (funct3 & 3));
        let word = i(LOAD, funct3 as u32, self.scratch(), self.there(), offset);
        self.words.push(word);
    }

    fn store_there(&mut self) {
        let funct3 = self.random.below(4);
        let offset = self.offset(1 << funct3);
        let word = s(STORE, funct3 as u32, self.there(), self.scratch(), offset);
        self.words.push(word);
    }

    fn jump_there(&mut self) {
        let offset = self.offset(4);
        let word = i(JALR, 0, RA, self.there(), offset);
        self.words.push(word);
    }

    fn swap(&mut self, at: u32) {
        let funct3 = self.random.pick(&[2, 3]);
        let word = r(AMO, funct3, 0x24, self.scratch(), at, self.scratch());
        self.words.push(word);
    }

    fn swap_there(&mut self) {
        let there = self.there();
        self.swap(there);
    }

    /// The shadow stack's own page has its address in ssp alone.
    fn swap_at_ssp(&mut self) {
        let at = self.scratch();
        self.words.push(zicsr(2, at, SSP, 0));
        self.swap(at);
    }

    fn push_there(&mut self) {
        let there = self.there();
        let link = self.random.pick(&[1, 5]);
        self.words.push(zicsr(1, 0, SSP, there));
        self.words.push(push(link));
    }

    fn pop_there(&mut self) {
        let there = self.there();
        self.words.push(zicsr(1, 0, SSP, there));
        self.words.push(i(OP_IMM, 0, 5, GUESS, 0));
        self.words.push(pop_check(5));
    }

    /// Stores an addition over the word 0 that lies right behind it: where code can be written it is carried out.
    fn patch(&mut self) {
        self.words.push(u(AUIPC, 10, 0));
        self.words.push(i(LOAD, 2, 11, 10, 12));
        self.words.push(s(STORE, 2, 10, 11, 16));
        self.words.push(i(OP_IMM, 0, 12, 12, 1));
        self.words.push(0);
    }

    /// Stores a return into the table and calls it: it comes back where the table's page is executable and x8 has no tag.
    fn plant(&mut self) {
        let offset = self.offset(4);
        self.words.push(u(AUIPC, 10, 0));
        self.words.push(i(LOAD, 2, 11, 10, 16));
        self.words.push(s(STORE, 2, TABLE, 11, offset));
        self.words.push(j(0, 8));
        self.words.push(i(JALR, 0, 0, RA, 0));
        self.words.push(i(JALR, 0, RA, TABLE, offset));
    }
}
