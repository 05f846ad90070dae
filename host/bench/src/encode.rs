//! Words of the few instructions that the benchmark's programs use, under their names.

use formats::{b, i, j, r, s, JALR, LOAD, OP, OP_32, OP_IMM, OP_IMM_32, STORE};
pub use formats::{zicsr, ECALL, MRET};

/// A landing pad for every label: AUIPC of 0 to x0.
pub const LPAD: u32 = 0x17;

pub fn addi(rd: u32, rs1: u32, imm: i32) -> u32 {
    i(OP_IMM, 0, rd, rs1, imm as u64)
}

pub fn addiw(rd: u32, rs1: u32, imm: i32) -> u32 {
    i(OP_IMM_32, 0, rd, rs1, imm as u64)
}

pub fn xori(rd: u32, rs1: u32, imm: i32) -> u32 {
    i(OP_IMM, 4, rd, rs1, imm as u64)
}

pub fn slli(rd: u32, rs1: u32, shamt: i32) -> u32 {
    i(OP_IMM, 1, rd, rs1, shamt as u64)
}

pub fn srli(rd: u32, rs1: u32, shamt: i32) -> u32 {
    i(OP_IMM, 5, rd, rs1, shamt as u64)
}

pub fn srai(rd: u32, rs1: u32, shamt: i32) -> u32 {
    i(OP_IMM, 5, rd, rs1, 0x400 | shamt as u64)
}

pub fn add(rd: u32, rs1: u32, rs2: u32) -> u32 {
    r(OP, 0, 0, rd, rs1, rs2)
}

pub fn sub(rd: u32, rs1: u32, rs2: u32) -> u32 {
    r(OP, 0, 0x20, rd, rs1, rs2)
}

pub fn xor(rd: u32, rs1: u32, rs2: u32) -> u32 {
    r(OP, 4, 0, rd, rs1, rs2)
}

pub fn sltu(rd: u32, rs1: u32, rs2: u32) -> u32 {
    r(OP, 3, 0, rd, rs1, rs2)
}

/// The M extension: funct7 1.
pub fn mul(rd: u32, rs1: u32, rs2: u32) -> u32 {
    r(OP, 0, 1, rd, rs1, rs2)
}

pub fn mulh(rd: u32, rs1: u32, rs2: u32) -> u32 {
    r(OP, 1, 1, rd, rs1, rs2)
}

pub fn div(rd: u32, rs1: u32, rs2: u32) -> u32 {
    r(OP, 4, 1, rd, rs1, rs2)
}

/// Minimum and maximum of Zbb: funct7 5.
pub fn min(rd: u32, rs1: u32, rs2: u32) -> u32 {
    r(OP, 4, 5, rd, rs1, rs2)
}

pub fn max(rd: u32, rs1: u32, rs2: u32) -> u32 {
    r(OP, 6, 5, rd, rs1, rs2)
}

pub fn addw(rd: u32, rs1: u32, rs2: u32) -> u32 {
    r(OP_32, 0, 0, rd, rs1, rs2)
}

/// A load; funct3 is its width: 0 LB, 1 LH, 2 LW, 3 LD, 4 LBU.
pub fn load(funct3: u32, rd: u32, rs1: u32, offset: i32) -> u32 {
    i(LOAD, funct3, rd, rs1, offset as u64)
}

/// A store; funct3 is its width: 0 SB, 1 SH, 2 SW, 3 SD.
pub fn store(funct3: u32, rs2: u32, rs1: u32, offset: i32) -> u32 {
    s(STORE, funct3, rs1, rs2, offset as u64)
}

pub fn bne(rs1: u32, rs2: u32, offset: i32) -> u32 {
    b(1, rs1, rs2, offset as u64)
}

pub fn jal(rd: u32, offset: i32) -> u32 {
    j(rd, offset as u64)
}

pub fn jalr(rd: u32, rs1: u32, offset: i32) -> u32 {
    i(JALR, 0, rd, rs1, offset as u64)
}

/// Shadow push of x1.
pub const SSPUSH_X1: u32 = 0xCE10_4073;
/// Shadow pop-check of x1.
pub const SSPOPCHK_X1: u32 = 0xCDC0_C073;
