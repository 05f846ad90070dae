//! Words from fields: what the generator of programs is written with, with signed immediates.

pub use formats::{
    r as r_type, u as u_type, zicsr as csr, AUIPC, EBREAK, ECALL, JALR, LOAD, LUI, MISC_MEM, MRET,
    OP, OP_32, OP_IMM, OP_IMM_32, SRET, SYSTEM,
};

/// Format I; the immediate's low 12 bits count.
pub fn i_type(opcode: u32, funct3: u32, rd: u32, rs1: u32, immediate: i32) -> u32 {
    formats::i(opcode, funct3, rd, rs1, immediate as u64)
}

pub fn store(funct3: u32, rs2: u32, rs1: u32, offset: i32) -> u32 {
    formats::s(formats::STORE, funct3, rs1, rs2, offset as u64)
}

pub fn branch(funct3: u32, rs1: u32, rs2: u32, offset: i32) -> u32 {
    formats::b(funct3, rs1, rs2, offset as u64)
}

pub fn jal(rd: u32, offset: i32) -> u32 {
    formats::j(rd, offset as u64)
}

pub fn addi(rd: u32, rs1: u32, immediate: i32) -> u32 {
    i_type(OP_IMM, 0, rd, rs1, immediate)
}

/// csrr rd,csr
pub fn csr_read(rd: u32, address: u16) -> u32 {
    csr(2, rd, address, 0)
}

/// csrw csr,rs1
pub fn csr_write(address: u16, rs1: u32) -> u32 {
    csr(1, 0, address, rs1)
}

/// Puts `value`, sign-extended from 32 bits, into rd: two words.
pub fn constant(rd: u32, value: i32) -> [u32; 2] {
    let high = (value as u32).wrapping_add(0x800) >> 12;
    [u_type(LUI, rd, high), i_type(OP_IMM_32, 0, rd, rd, value)]
}

#[cfg(test)]
mod tests {
    use super::*;

    fn text(word: u32) -> String {
        disasm::text(word, 0x8000_0000)
    }

    #[test]
    fn the_formats_are_the_manual_s() {
        assert_eq!(text(r_type(OP, 0, 0x20, 10, 11, 12)), "sub a0,a1,a2");
        assert_eq!(text(i_type(LOAD, 3, 10, 11, -8)), "ld a0,-8(a1)");
        assert_eq!(text(store(3, 10, 11, -8)), "sd a0,-8(a1)");
        assert_eq!(text(branch(1, 10, 11, -4096)), "bne a0,a1,0x7ffff000");
        assert_eq!(text(branch(6, 10, 11, 4094)), "bltu a0,a1,0x80000ffe");
        assert_eq!(text(jal(10, -0x10_0000)), "jal a0,0x7ff00000");
        assert_eq!(text(jal(0, 0xf_fffe)), "j 0x800ffffe");
        assert_eq!(text(csr(5, 0, 0x340, 31)), "csrwi mscratch,31");
    }

    #[test]
    fn a_constant_is_two_words() {
        assert_eq!(
            constant(10, 0x1fff).map(text),
            ["lui a0,0x2", "addiw a0,a0,-1"]
        );
        assert_eq!(
            constant(10, i32::MAX).map(text),
            ["lui a0,0x80000", "addiw a0,a0,-1"]
        );
    }
}
