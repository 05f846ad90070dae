//! What the tests share: a hart with memory and map to step, map entries, and an encoder of words.
//!
//! Bits of CSRs and of leaves, and words, stand here again, as the manuals have them: a test by the simulator's own would agree with any.
//!
//! Each test file uses a part of it, hence the allowance for what one of them leaves unused.
#![allow(dead_code)]

use second::{run, step, step_word, Answer, Hart};

pub const USER: u64 = 0;
pub const SUPERVISOR: u64 = 1;
pub const MACHINE: u64 = 3;

pub const START: u64 = 0x8000_0000;
pub const SV39: u64 = 8 << 60;
pub const STATUS: u64 = 0xA_0000_0000;

pub const SIE: u64 = 1 << 1;
pub const MIE: u64 = 1 << 3;
pub const SPIE: u64 = 1 << 5;
pub const MPIE: u64 = 1 << 7;
pub const SPP: u64 = 1 << 8;
pub const MPP_S: u64 = 1 << 11;
pub const MPP_M: u64 = 3 << 11;
pub const MPRV: u64 = 1 << 17;
pub const SUM: u64 = 1 << 18;
pub const MXR: u64 = 1 << 19;
pub const SPELP: u64 = 1 << 23;
pub const MPELP: u64 = 1 << 41;

pub const LPE: u64 = 1 << 2;
pub const SSE: u64 = 1 << 3;
pub const MLPE: u64 = 1 << 10;
pub const PMM_7: u64 = 2 << 32;
pub const PMM_16: u64 = 3 << 32;

pub const V: u64 = 1;
pub const R: u64 = 2;
pub const W: u64 = 4;
pub const X: u64 = 8;
pub const U: u64 = 16;
pub const A: u64 = 64;
pub const D: u64 = 128;

pub const PUSH_X1: u32 = 0xCE10_4073;
pub const PUSH_X5: u32 = 0xCE50_4073;
pub const POP_X1: u32 = 0xCDC0_C073;
pub const POP_X5: u32 = 0xCDC2_C073;
pub const READ_SSP_X10: u32 = 0xCDC0_4573;
pub const NOP: u32 = 0x0000_0013;
pub const ECALL: u32 = 0x0000_0073;
pub const EBREAK: u32 = 0x0010_0073;
pub const SRET: u32 = 0x1020_0073;
pub const MRET: u32 = 0x3020_0073;

/// A hart with what it is lent.
#[derive(Clone, PartialEq, Eq, Debug)]
pub struct World {
    pub h: Hart,
    pub mem: Vec<u8>,
    pub map: Vec<u64>,
}

/// A legal hart in this mode, with pc at the start of sixteen pages of memory and no map.
pub fn world(mode: u64) -> World {
    let mut rest = [0; 20];
    rest[0] = START;
    rest[1] = mode;
    rest[11] = STATUS;
    World {
        h: Hart::from_words(&[0; 32], &rest),
        mem: vec![0; 16 * 4_096],
        map: Vec::new(),
    }
}

/// The same under Sv39, with virtual page 5 on the second page of memory with these flags.
pub fn paged(mode: u64, flags: u64) -> World {
    let mut w = world(mode);
    w.h.satp = SV39;
    w.map = vec![5, leaf(1, flags)];
    w
}

/// The same with the shadow stack on in S and U, and ssp in the middle of the page.
pub fn shadowed(mode: u64, flags: u64) -> World {
    let mut w = paged(mode, flags);
    w.h.menvcfg = SSE;
    w.h.senvcfg = SSE;
    w.h.ssp = 0x5800;
    w
}

/// A map entry for a page of memory, counted from 0.
pub fn leaf(page: u64, flags: u64) -> u64 {
    (0x8_0000 + page) << 10 | flags
}

impl World {
    pub fn word(&mut self, word: u32) -> Answer {
        step_word(&mut self.h, &mut self.mem, &self.map, word)
    }

    pub fn step(&mut self) -> Answer {
        step(&mut self.h, &mut self.mem, &self.map)
    }

    pub fn run(&mut self, budget: u64) -> Answer {
        run(&mut self.h, &mut self.mem, &self.map, budget)
    }

    /// Places words at an offset of memory.
    pub fn place(&mut self, at: usize, words: &[u32]) {
        for (i, word) in words.iter().enumerate() {
            self.mem[at + 4 * i..at + 4 * i + 4].copy_from_slice(&word.to_le_bytes());
        }
    }

    pub fn place_double(&mut self, at: usize, value: u64) {
        self.mem[at..at + 8].copy_from_slice(&value.to_le_bytes());
    }

    pub fn double(&self, at: usize) -> u64 {
        u64::from_le_bytes(self.mem[at..at + 8].try_into().unwrap())
    }

    /// Takes the word and demands a trap to M with this cause and tval that changes nothing else.
    #[track_caller]
    pub fn traps(&mut self, word: u32, cause: u64, tval: u64) {
        let expected = self.after_trap_to_machine(cause, tval);
        let answer = self.word(word);
        assert_eq!(answer, trapped(1, cause), "tval {:#x}", self.h.mtval);
        assert_eq!(*self, expected);
    }

    /// What a trap to M must leave of this world.
    pub fn after_trap_to_machine(&self, cause: u64, tval: u64) -> World {
        let mut after = self.clone();
        let h = &mut after.h;
        let saved_enable = if h.mstatus & MIE != 0 { MPIE } else { 0 };
        let saved_elp = if h.elp == 1 { MPELP } else { 0 };
        h.mstatus &= !(MIE | MPIE | MPP_M | MPELP);
        h.mstatus |= saved_enable | saved_elp | h.mode << 11;
        (h.mepc, h.mcause, h.mtval) = (h.pc, cause, tval);
        (h.pc, h.mode, h.elp) = (h.mtvec, MACHINE, 0);
        after
    }

    /// Takes the word and demands that it is carried out.
    #[track_caller]
    pub fn passes(&mut self, word: u32) {
        assert_eq!(self.word(word), quiet(1), "tval {:#x}", self.h.mtval);
    }
}

/// x3 after the word with x1 and x2 set; nothing else but pc may have changed.
#[track_caller]
pub fn result(word: u32, x1: u64, x2: u64) -> u64 {
    let mut w = world(USER);
    (w.h.x[1], w.h.x[2]) = (x1, x2);
    let mut after = w.clone();
    w.passes(word);
    after.h.x[3] = w.h.x[3];
    after.h.pc += 4;
    assert_eq!(w, after, "{word:#x}");
    w.h.x[3]
}

pub fn quiet(count: u64) -> Answer {
    Answer {
        refusal: 0,
        count,
        trapped: false,
        cause: 0,
    }
}

pub fn trapped(count: u64, cause: u64) -> Answer {
    Answer {
        refusal: 0,
        count,
        trapped: true,
        cause,
    }
}

pub fn refused(refusal: u64) -> Answer {
    Answer {
        refusal,
        count: 0,
        trapped: false,
        cause: 0,
    }
}

pub const fn i_word(opcode: u32, funct3: u32, rd: u32, rs1: u32, immediate: i32) -> u32 {
    (immediate as u32) << 20 | rs1 << 15 | funct3 << 12 | rd << 7 | opcode
}

pub const fn r_word(opcode: u32, funct3: u32, funct7: u32, rd: u32, rs1: u32, rs2: u32) -> u32 {
    funct7 << 25 | rs2 << 20 | rs1 << 15 | funct3 << 12 | rd << 7 | opcode
}

pub fn load(funct3: u32, rd: u32, rs1: u32, offset: i32) -> u32 {
    i_word(0x03, funct3, rd, rs1, offset)
}

pub fn store(funct3: u32, rs1: u32, rs2: u32, offset: i32) -> u32 {
    let offset = offset as u32;
    (offset >> 5 & 0x7F) << 25 | rs2 << 20 | rs1 << 15 | funct3 << 12 | (offset & 0x1F) << 7 | 0x23
}

pub fn branch(funct3: u32, rs1: u32, rs2: u32, offset: i32) -> u32 {
    let o = offset as u32;
    (o >> 12 & 1) << 31
        | (o >> 5 & 0x3F) << 25
        | rs2 << 20
        | rs1 << 15
        | funct3 << 12
        | (o >> 1 & 0xF) << 8
        | (o >> 11 & 1) << 7
        | 0x63
}

pub fn jal(rd: u32, offset: i32) -> u32 {
    let o = offset as u32;
    (o >> 20 & 1) << 31
        | (o >> 1 & 0x3FF) << 21
        | (o >> 11 & 1) << 20
        | (o >> 12 & 0xFF) << 12
        | rd << 7
        | 0x6F
}

pub fn jalr(rd: u32, rs1: u32, offset: i32) -> u32 {
    i_word(0x67, 0, rd, rs1, offset)
}

/// The 32-bit (funct3 2) or 64-bit (funct3 3) shadow swap.
pub fn swap(funct3: u32, rd: u32, rs1: u32, rs2: u32) -> u32 {
    r_word(0x2F, funct3, 0b01001 << 2, rd, rs1, rs2)
}

/// A CSR instruction; `source` is a register or, from funct3 5 on, a number.
pub fn csr(funct3: u32, rd: u32, address: u32, source: u32) -> u32 {
    address << 20 | source << 15 | funct3 << 12 | rd << 7 | 0x73
}

/// A plain generator of test numbers (xorshift), so that each run tests the same.
pub struct Numbers(pub u64);

impl Numbers {
    pub fn next(&mut self) -> u64 {
        self.0 ^= self.0 << 13;
        self.0 ^= self.0 >> 7;
        self.0 ^= self.0 << 17;
        self.0
    }
}
