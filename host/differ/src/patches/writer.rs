//! Lays out the words of a program that patches itself.
//!
//! x9 and x18 count loops, x31 points to the middle of the constants' page, x25 to x27 to the code's other names; x16, x17, x20 to x23 and x29 are
//! the patches' own, x6 and x7 those of calls. What else there is, is in words.rs and program.rs.

use super::pages::CODE;
use super::plan::{Kind, Plan};
use super::words::{tame, Taste, NOP};
use crate::case::PAGE;
use crate::program::Program;
use formats::random::Random;
use formats::*;

pub const RA: u32 = 1;
pub const INNER: u32 = 9;
const OUTER: u32 = 18;
pub const VALUE: u32 = 16;
pub const TURNED: u32 = 17;
pub const ADDRESS: u32 = 22;
pub const KEPT: u32 = 23;
pub const OPEN: u32 = 25;
pub const STACK: u32 = 26;
pub const AGAIN: u32 = 27;
pub const BITS: u32 = 29;
pub const CONSTANTS: u32 = 31;

/// Room for a part of a program, in bytes: more than most take, and than what ends the program.
const ROOM: u64 = 4 * 300;

/// By which of its names a word of the code is reached: from where it is run, by the page to write it, or as shadow stack.
#[derive(Clone, Copy, PartialEq, Eq, Debug)]
pub enum Name {
    Own,
    Open,
    Stack,
}

pub struct Writer<'a> {
    pub random: &'a mut Random,
    pub plan: Plan,
    /// The mode of the next word.
    pub mode: u64,
    /// Whether it is run by its second name, and the first one is out of reach.
    pub alone: bool,
    /// The virtual addresses at which the code, and its second name, start.
    pub code: u64,
    pub again: u64,
    /// Where the first word stands in the code.
    pub start: u64,
    pub words: Vec<u32>,
    /// What is in the constants' page.
    pub constants: Vec<u64>,
    /// Whether the words that come must leave memory alone.
    pub plain: bool,
    /// How often satp has turned.
    pub turns: u64,
    /// Whether the loop that is far longer than the others is still to come.
    pub far: bool,
}

impl Writer<'_> {
    /// The offset of the next word in the code.
    pub fn here(&self) -> u64 {
        self.offset(self.words.len())
    }

    pub fn offset(&self, word: usize) -> u64 {
        self.start + 4 * word as u64
    }

    /// Whether the code is fetched by Sv39 throughout.
    pub fn paged(&self) -> bool {
        self.mode < 3 && self.plan.kind != Kind::Turning
    }

    /// Where the code ends at the latest: the data may have the upper half of its last page.
    pub fn limit(&self) -> u64 {
        CODE as u64 * PAGE - if self.plan.shared { PAGE / 2 } else { 0 }
    }

    fn has_room(&self) -> bool {
        self.here() + ROOM < self.limit()
    }

    /// Room for words that are known only later; gives the place of the first.
    pub fn reserve(&mut self, words: usize) -> usize {
        let at = self.words.len();
        self.words.resize(at + words, NOP);
        at
    }

    pub fn taste(&self) -> Taste {
        Taste {
            plain: self.plain,
            skips: false,
            wild: self.plan.wild,
            upper: self.plan.shared,
            late: self.plan.late,
            mode: self.mode,
        }
    }

    pub fn filler(&mut self, words: u64) {
        let taste = self.taste();
        for _ in 0..words {
            let word = tame(self.random, taste);
            self.words.push(word);
        }
    }

    /// Fills until what stands `ahead` words on lies so many bytes behind a multiple of 8.
    pub fn align(&mut self, ahead: usize, rest: u64) {
        if (self.here() + 4 * ahead as u64) % 8 != rest {
            self.filler(1);
        }
    }

    /// Goes to an offset ahead: straight on if it is near, else by a jump.
    pub fn go_to(&mut self, offset: u64) {
        let words = (offset - self.here()) / 4;
        if words <= 24 {
            return self.filler(words);
        }
        let at = self.reserve(words as usize);
        self.words[at..].fill(0);
        self.words[at] = j(0, 4 * words);
    }

    /// The word that loads a constant.
    pub fn constant(&mut self, rd: u32, value: u64) -> u32 {
        let at = self.constants.len() as u64;
        assert!(8 * at < PAGE, "the constants have a page");
        self.constants.push(value);
        i(LOAD, 3, rd, CONSTANTS, (8 * at).wrapping_sub(PAGE / 2))
    }

    /// The three words, at place `at` of the program, that give the address of an offset in the code by one of its names.
    pub fn address(&self, at: usize, rd: u32, name: Name, offset: u64) -> [u32; 3] {
        let base = match name {
            Name::Own => {
                let distance = offset.wrapping_sub(self.offset(at));
                let upper = distance.wrapping_add(0x800) >> 12;
                let low = i(OP_IMM, 0, rd, rd, distance);
                return [u(AUIPC, rd, upper as u32), low, NOP];
            }
            Name::Open => OPEN,
            Name::Stack => STACK,
        };
        from_base(rd, base, offset)
    }

    /// Carries a part of the program out so many times.
    pub fn repeated<T>(
        &mut self,
        counter: u32,
        times: u64,
        body: impl FnOnce(&mut Self) -> T,
    ) -> T {
        if times == 1 {
            return body(self);
        }
        self.words.push(i(OP_IMM, 0, counter, 0, times));
        let start = self.here();
        let made = body(self);
        self.words.push(i(OP_IMM, 0, counter, counter, u64::MAX));
        self.words.push(b(0, counter, 0, 8));
        let back = start.wrapping_sub(self.here());
        self.words.push(j(0, back));
        made
    }

    /// How often a patch and what it patches are run: code that is larger than what is remembered has to be passed more than once too.
    pub fn times(&mut self) -> u64 {
        let few: &[u64] = &[1, 1, 1, 2];
        let many: &[u64] = &[1, 1, 2, 3, 4, 6, 9];
        let more: &[u64] = &[2, 3, 4, 5, 7, 10, 14];
        self.random.pick(match (self.plan.long, self.plan.late) {
            (true, _) => few,
            (_, true) => more,
            _ => many,
        })
    }

    /// The whole program. It ends with a jump to its start, or to where it has gone down to, sometimes behind an ECALL.
    pub fn program(&mut self) {
        if self.plan.descends {
            let times = 1 + self.random.below(3);
            self.repeated(OUTER, times, |writer| writer.part(2));
            self.descend();
        }
        let start = self.here();
        if self.plan.long {
            self.straight();
        }
        let units = match self.plan.late {
            true => 1 + self.random.below(3),
            false => 1 + self.random.below(5),
        };
        self.part(units);
        // Turned once more, so that each word is run with Sv39 and without.
        if self.plan.kind == Kind::Turning && self.turns % 2 == 0 && self.random.chance(80) {
            self.turn_satp();
        }
        if self.plan.traps && self.random.chance(15) {
            self.words.push(ECALL);
        }
        let back = start.wrapping_sub(self.here());
        self.words.push(j(0, back));
    }

    fn part(&mut self, units: u64) {
        self.patch();
        for _ in 1..units {
            if self.has_room() {
                self.unit();
            }
        }
    }

    fn unit(&mut self) {
        match self.random.below(32) {
            15..=18 if self.plan.late => self.crowd(),
            19 | 20 if self.plan.late && self.plan.traps => self.fault(),
            0..=5 if self.mode > 0 => self.setting(),
            4..=8 if self.paged() && !self.alone => self.twice(),
            4..=12 if self.plan.kind == Kind::Turning => self.setting(),
            9 if !self.plan.shared && self.plan.traps => self.block(),
            10 => {
                let words = self.random.below(40);
                self.filler(words);
            }
            13 | 14 => self.padded(),
            _ => self.patch(),
        }
    }

    /// What other runs are made of: calls with pushes and pop-checks, loops, and seldom a trap.
    fn block(&mut self) {
        self.warm();
        let mut program = Program {
            random: self.random,
            mode: self.mode,
            words: Vec::new(),
            visits: 0,
        };
        program.block(1);
        if program.words.len() <= 150 {
            self.words.extend(program.words);
        }
    }

    /// More than 1,024 words straight on, or 4,096, and in them a word that was patched before them. Those of 4,096 are passed at least twice in a
    /// row, so that each word has had its entry taken by another one.
    fn straight(&mut self) {
        let (before, behind) = (self.random.below(900), self.random.below(100));
        if self.plan.late {
            self.repeated(OUTER, 2, |writer| {
                writer.far(before);
                writer.filler(4096 - before + behind);
            });
        } else {
            self.far(before);
            self.filler(1024 - before + behind);
        }
    }
}

/// The three words that give the address of an offset from a register.
pub fn from_base(rd: u32, base: u32, offset: u64) -> [u32; 3] {
    let upper = offset.wrapping_add(0x800) >> 12;
    [
        u(LUI, rd, upper as u32),
        r(OP, 0, 0, rd, rd, base),
        i(OP_IMM, 0, rd, rd, offset),
    ]
}
