//! Words of the base formats from their fields, as the unprivileged manual draws them: what differ, outside and bench make
//! their programs with. `extensions` has the instructions of M and Zbb by name and those
//! beside them, by which the desk names an illegal word; `corners` has what they are tried with. `hex` writes Intel HEX. `csr` and `leaf` are the
//! second simulator's: the places of fields in CSRs and in leaves of the map, as it has them from the text. It uses nothing from here.
//! `random` has the numbers that programs and cases are drawn with, and `number` reads one that was typed.

pub mod corners;
pub mod extensions;
pub mod hex;
pub mod number;
pub mod random;

pub use second::{csrs as csr, leaf};

pub const LOAD: u32 = 0x03;
pub const MISC_MEM: u32 = 0x0F;
pub const OP_IMM: u32 = 0x13;
pub const AUIPC: u32 = 0x17;
pub const OP_IMM_32: u32 = 0x1B;
pub const STORE: u32 = 0x23;
pub const AMO: u32 = 0x2F;
pub const OP: u32 = 0x33;
pub const LUI: u32 = 0x37;
pub const OP_32: u32 = 0x3B;
pub const BRANCH: u32 = 0x63;
pub const JALR: u32 = 0x67;
pub const JAL: u32 = 0x6F;
pub const SYSTEM: u32 = 0x73;

pub const ECALL: u32 = 0x0000_0073;
pub const EBREAK: u32 = 0x0010_0073;
pub const SRET: u32 = 0x1020_0073;
pub const MRET: u32 = 0x3020_0073;

pub const fn r(opcode: u32, funct3: u32, funct7: u32, rd: u32, rs1: u32, rs2: u32) -> u32 {
    (funct7 << 25) | (rs2 << 20) | (rs1 << 15) | (funct3 << 12) | (rd << 7) | opcode
}

/// `imm` counts with its low 12 bits.
pub fn i(opcode: u32, funct3: u32, rd: u32, rs1: u32, imm: u64) -> u32 {
    ((imm as u32) << 20) | (rs1 << 15) | (funct3 << 12) | (rd << 7) | opcode
}

/// `imm` counts with its low 12 bits.
pub fn s(opcode: u32, funct3: u32, rs1: u32, rs2: u32, imm: u64) -> u32 {
    let imm = imm as u32;
    r(opcode, funct3, (imm >> 5) & 0x7F, imm & 0x1F, rs1, rs2)
}

/// `offset` counts with its bits 12 to 1.
pub fn b(funct3: u32, rs1: u32, rs2: u32, offset: u64) -> u32 {
    let offset = offset as u32;
    let high = ((offset >> 12) & 1) << 6 | (offset >> 5) & 0x3F;
    let low = (offset & 0x1E) | (offset >> 11) & 1;
    r(BRANCH, funct3, high, low, rs1, rs2)
}

/// `upper` is the word's upper 20 bits.
pub fn u(opcode: u32, rd: u32, upper: u32) -> u32 {
    (upper << 12) | (rd << 7) | opcode
}

/// `offset` counts with its bits 20 to 1.
pub fn j(rd: u32, offset: u64) -> u32 {
    let offset = offset as u32;
    let upper = ((offset >> 20) & 1) << 19
        | ((offset >> 1) & 0x3FF) << 9
        | ((offset >> 11) & 1) << 8
        | (offset >> 12) & 0xFF;
    u(JAL, rd, upper)
}

/// A CSR instruction; `source` is rs1, or the immediate where funct3 is 5 to 7.
pub fn zicsr(funct3: u32, rd: u32, address: u16, source: u32) -> u32 {
    i(SYSTEM, funct3, rd, source, address.into())
}

/// MOP.R.n, `number` 0 to 31.
pub fn mop_r(number: u32, rd: u32, rs1: u32) -> u32 {
    let bits = (number >> 4) << 30 | ((number >> 2) & 3) << 26 | (number & 3) << 20;
    0x81C0_4073 | bits | (rs1 << 15) | (rd << 7)
}

/// MOP.RR.n, `number` 0 to 7.
pub fn mop_rr(number: u32, rd: u32, rs1: u32, rs2: u32) -> u32 {
    let bits = (number >> 2) << 30 | (number & 3) << 26;
    0x8200_4073 | bits | (rs2 << 20) | (rs1 << 15) | (rd << 7)
}

/// The shadow push of x1 or x5.
pub fn push(register: u32) -> u32 {
    mop_rr(7, 0, 0, register)
}

/// The shadow pop-check of x1 or x5.
pub fn pop_check(register: u32) -> u32 {
    mop_r(28, 0, register)
}

/// The low 12 bits of `imm` with their sign, as loads, stores, JALR and OP-IMM read them.
pub fn signed12(imm: u64) -> u64 {
    ((imm << 52) as i64 >> 52) as u64
}

#[cfg(test)]
mod tests {
    use super::*;

    // Words of docs/HART.md (3.18, chapter 14) and, for the formats, of the GNU assembler.
    #[test]
    fn the_words_of_document_01() {
        assert_eq!(push(1), 0xCE10_4073);
        assert_eq!(push(5), 0xCE50_4073);
        assert_eq!(pop_check(1), 0xCDC0_C073);
        assert_eq!(pop_check(5), 0xCDC2_C073);
        assert_eq!(mop_r(28, 10, 0), 0xCDC0_4573);
        assert_eq!(i(JALR, 0, 1, 10, 0), 0x0005_00E7);
        assert_eq!(u(AUIPC, 0, 0x12345), 0x1234_5017);
    }

    #[test]
    fn the_formats() {
        assert_eq!(r(OP, 0, 0x20, 10, 11, 12), 0x40C5_8533); // sub a0,a1,a2
        assert_eq!(i(OP_IMM, 0, 10, 11, -1_i64 as u64), 0xFFF5_8513); // addi a0,a1,-1
        assert_eq!(s(STORE, 3, 2, 1, 8), 0x0011_3423); // sd ra,8(sp)
        assert_eq!(s(STORE, 3, 8, 1, -24_i64 as u64), 0xFE14_3423); // sd ra,-24(s0)
        assert_eq!(b(1, 10, 0, -4_i64 as u64), 0xFE05_1EE3); // bnez a0,.-4
        assert_eq!(j(1, 0x7FE), 0x7FE0_00EF); // jal ra,.+2046
        assert_eq!(j(0, -4_i64 as u64), 0xFFDF_F06F); // j .-4
    }
}
