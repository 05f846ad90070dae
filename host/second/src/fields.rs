//! The fields of an instruction word, and the operands of each of the manual's formats.
//!
//! Immediates are sign-extended to 64 bits. Formats with the same operands share a type.

/// Formats U and J: a destination and an immediate.
#[derive(Clone, Copy, PartialEq, Eq, Debug)]
pub struct Upper {
    pub rd: u8,
    pub immediate: u64,
}

/// Format I: a destination, a source and an immediate.
#[derive(Clone, Copy, PartialEq, Eq, Debug)]
pub struct Immediate {
    pub rd: u8,
    pub rs1: u8,
    pub immediate: u64,
}

/// Formats S and B: two sources and an immediate.
#[derive(Clone, Copy, PartialEq, Eq, Debug)]
pub struct Sources {
    pub rs1: u8,
    pub rs2: u8,
    pub immediate: u64,
}

/// Format R: three registers.
#[derive(Clone, Copy, PartialEq, Eq, Debug)]
pub struct Registers {
    pub rd: u8,
    pub rs1: u8,
    pub rs2: u8,
}

#[inline]
pub fn opcode(word: u32) -> u32 {
    word & 0x7F
}

#[inline]
pub fn rd(word: u32) -> u8 {
    (word >> 7 & 31) as u8
}

#[inline]
pub fn funct3(word: u32) -> u32 {
    word >> 12 & 7
}

#[inline]
pub fn rs1(word: u32) -> u8 {
    (word >> 15 & 31) as u8
}

#[inline]
pub fn rs2(word: u32) -> u8 {
    (word >> 20 & 31) as u8
}

#[inline]
pub fn funct7(word: u32) -> u32 {
    word >> 25
}

/// The bits above a six-bit shift distance.
#[inline]
pub fn funct6(word: u32) -> u32 {
    word >> 26
}

/// The bits above aq and rl.
#[inline]
pub fn funct5(word: u32) -> u32 {
    word >> 27
}

/// The bits above rs1, where an instruction of format I has no immediate.
#[inline]
pub fn funct12(word: u32) -> u32 {
    word >> 20
}

/// The address in a CSR instruction.
#[inline]
pub fn csr_address(word: u32) -> u16 {
    (word >> 20) as u16
}

#[inline]
pub fn u_format(word: u32) -> Upper {
    let immediate = (word & 0xFFFF_F000) as i32;
    Upper {
        rd: rd(word),
        immediate: immediate as u64,
    }
}

#[inline]
pub fn j_format(word: u32) -> Upper {
    let sign = word as i32 >> 31 << 20;
    let bits_19_12 = word & 0x000F_F000;
    let bit_11 = (word >> 20 & 1) << 11;
    let bits_10_1 = (word >> 21 & 0x3FF) << 1;
    let immediate = sign | (bits_19_12 | bit_11 | bits_10_1) as i32;
    Upper {
        rd: rd(word),
        immediate: immediate as u64,
    }
}

#[inline]
pub fn i_format(word: u32) -> Immediate {
    let immediate = word as i32 >> 20;
    Immediate {
        rd: rd(word),
        rs1: rs1(word),
        immediate: immediate as u64,
    }
}

#[inline]
pub fn s_format(word: u32) -> Sources {
    let high = word as i32 >> 25 << 5;
    let low = (word >> 7 & 0x1F) as i32;
    Sources {
        rs1: rs1(word),
        rs2: rs2(word),
        immediate: (high | low) as u64,
    }
}

#[inline]
pub fn b_format(word: u32) -> Sources {
    let sign = word as i32 >> 31 << 12;
    let bit_11 = (word >> 7 & 1) << 11;
    let bits_10_5 = (word >> 25 & 0x3F) << 5;
    let bits_4_1 = (word >> 8 & 0xF) << 1;
    let immediate = sign | (bit_11 | bits_10_5 | bits_4_1) as i32;
    Sources {
        rs1: rs1(word),
        rs2: rs2(word),
        immediate: immediate as u64,
    }
}

#[inline]
pub fn r_format(word: u32) -> Registers {
    Registers {
        rd: rd(word),
        rs1: rs1(word),
        rs2: rs2(word),
    }
}
