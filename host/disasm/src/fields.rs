//! The fields of an instruction word, as the unprivileged manual's formats R, I, S, B, U and J name
//! them.

use crate::names::register;

/// A 32-bit instruction word.
#[derive(Clone, Copy)]
pub struct Word(pub u32);

impl Word {
    /// Bits `high` down to `low`, as a number.
    pub fn bits(self, high: u32, low: u32) -> u32 {
        self.0 << (31 - high) >> (31 - high + low)
    }

    pub fn opcode(self) -> u32 {
        self.bits(6, 0)
    }

    pub fn funct3(self) -> usize {
        self.bits(14, 12) as usize
    }

    pub fn funct7(self) -> u32 {
        self.bits(31, 25)
    }

    pub fn rd(self) -> u32 {
        self.bits(11, 7)
    }

    pub fn rs1(self) -> u32 {
        self.bits(19, 15)
    }

    pub fn rs2(self) -> u32 {
        self.bits(24, 20)
    }

    /// The CSR's address, of a CSR instruction.
    pub fn csr(self) -> u16 {
        self.bits(31, 20) as u16
    }

    pub fn rd_name(self) -> &'static str {
        register(self.rd() as usize)
    }

    pub fn rs1_name(self) -> &'static str {
        register(self.rs1() as usize)
    }

    pub fn rs2_name(self) -> &'static str {
        register(self.rs2() as usize)
    }

    /// The immediate of format I.
    pub fn imm_i(self) -> i32 {
        self.0 as i32 >> 20
    }

    /// The immediate of format S.
    pub fn imm_s(self) -> i32 {
        (self.0 as i32 >> 25 << 5) | self.rd() as i32
    }

    /// The offset of format B, a multiple of 2.
    pub fn imm_b(self) -> i32 {
        let sign = self.0 as i32 >> 31 << 12;
        sign | (self.bits(7, 7) << 11 | self.bits(30, 25) << 5 | self.bits(11, 8) << 1) as i32
    }

    /// The 20 bits of format U, not shifted: that is how GNU writes them.
    pub fn imm_u(self) -> u32 {
        self.bits(31, 12)
    }

    /// The offset of format J, a multiple of 2.
    pub fn imm_j(self) -> i32 {
        let sign = self.0 as i32 >> 31 << 20;
        sign | (self.bits(19, 12) << 12 | self.bits(20, 20) << 11 | self.bits(30, 21) << 1) as i32
    }
}

#[cfg(test)]
mod tests {
    use super::*;

    /// Words as the GNU assembler gives them.
    #[test]
    fn immediates() {
        assert_eq!(Word(0xff81_3503).imm_i(), -8); // ld a0,-8(sp)
        assert_eq!(Word(0xfea1_3c23).imm_s(), -8); // sd a0,-8(sp)
        assert_eq!(Word(0x00a1_3423).imm_s(), 8); // sd a0,8(sp)
        assert_eq!(Word(0xfe00_0ee3).imm_b(), -4); // beqz zero,.-4
        assert_eq!(Word(0x0000_0463).imm_b(), 8); // beqz zero,.+8
        assert_eq!(Word(0xffdf_f06f).imm_j(), -4); // j .-4
        assert_eq!(Word(0x0020_006f).imm_j(), 2); // j .+2
    }
}
