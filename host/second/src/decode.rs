//! From a word to the instruction that it is, and to the number of its family.

use crate::alu::{Comparison, Operation, WordOperation};
use crate::fields::*;
use crate::memory::{Extension, Width};

#[derive(Clone, Copy, PartialEq, Eq, Debug)]
pub enum CsrOperation {
    Write,
    Set,
    Clear,
}

/// The operands of a CSR instruction. `source` is a register, or itself the number if `immediate`.
#[derive(Clone, Copy, PartialEq, Eq, Debug)]
pub struct CsrOperands {
    pub rd: u8,
    pub source: u8,
    pub immediate: bool,
    pub address: u16,
}

/// One case for each family. `link` is the register that holds a return address, x1 or x5.
#[derive(Clone, Copy, PartialEq, Eq, Debug)]
pub enum Instruction {
    Illegal,
    Lui(Upper),
    Auipc(Upper),
    Jal(Upper),
    Jalr(Immediate),
    Branch(Comparison, Sources),
    Load(Width, Extension, Immediate),
    Store(Width, Sources),
    OpImm(Operation, Immediate),
    OpImm32(WordOperation, Immediate),
    Op(Operation, Registers),
    Op32(WordOperation, Registers),
    Fence,
    Ecall,
    Ebreak,
    Sret,
    Mret,
    Csr(CsrOperation, CsrOperands),
    ReadSsp { rd: u8 },
    Push { link: u8 },
    PopCheck { link: u8 },
    Swap(Width, Registers),
    MopR { rd: u8 },
    MopRr { rd: u8 },
}

use Instruction::Illegal;

/// The number of the word's family; 0 is illegal.
pub fn family(word: u32) -> u64 {
    match decode(word) {
        Instruction::Illegal => 0,
        Instruction::Lui(..) => 1,
        Instruction::Auipc(..) => 2,
        Instruction::Jal(..) => 3,
        Instruction::Jalr(..) => 4,
        Instruction::Branch(..) => 5,
        Instruction::Load(..) => 6,
        Instruction::Store(..) => 7,
        Instruction::OpImm(..) => 8,
        Instruction::OpImm32(..) => 9,
        Instruction::Op(..) => 10,
        Instruction::Op32(..) => 11,
        Instruction::Fence => 12,
        Instruction::Ecall => 13,
        Instruction::Ebreak => 14,
        Instruction::Sret => 15,
        Instruction::Mret => 16,
        Instruction::Csr(..) => 17,
        Instruction::ReadSsp { .. } => 18,
        Instruction::Push { .. } => 19,
        Instruction::PopCheck { .. } => 20,
        Instruction::Swap(..) => 21,
        Instruction::MopR { .. } => 22,
        Instruction::MopRr { .. } => 23,
    }
}

/// The instruction of a word. The opcodes are those of the manual's opcode map.
///
/// Always inlined, so that a step executes what it decodes without handing it over in memory.
#[inline(always)]
pub fn decode(word: u32) -> Instruction {
    match opcode(word) {
        0b011_0111 => Instruction::Lui(u_format(word)),
        0b001_0111 => Instruction::Auipc(u_format(word)),
        0b110_1111 => Instruction::Jal(j_format(word)),
        0b110_0111 => jalr(word),
        0b110_0011 => branch(word),
        0b000_0011 => load(word),
        0b010_0011 => store(word),
        0b001_0011 => op_imm(word),
        0b001_1011 => op_imm_32(word),
        0b011_0011 => op(word),
        0b011_1011 => op_32(word),
        0b000_1111 => fence(word),
        0b010_1111 => swap(word),
        0b111_0011 => system(word),
        _ => Illegal,
    }
}

fn jalr(word: u32) -> Instruction {
    match funct3(word) {
        0 => Instruction::Jalr(i_format(word)),
        _ => Illegal,
    }
}

fn branch(word: u32) -> Instruction {
    let comparison = match funct3(word) {
        0 => Comparison::Equal,
        1 => Comparison::NotEqual,
        4 => Comparison::Less,
        5 => Comparison::NotLess,
        6 => Comparison::LessUnsigned,
        7 => Comparison::NotLessUnsigned,
        _ => return Illegal,
    };
    Instruction::Branch(comparison, b_format(word))
}

fn load(word: u32) -> Instruction {
    let (width, extension) = match funct3(word) {
        0 => (Width::Byte, Extension::Sign),
        1 => (Width::Half, Extension::Sign),
        2 => (Width::Word, Extension::Sign),
        3 => (Width::Double, Extension::Sign),
        4 => (Width::Byte, Extension::Zero),
        5 => (Width::Half, Extension::Zero),
        6 => (Width::Word, Extension::Zero),
        _ => return Illegal,
    };
    Instruction::Load(width, extension, i_format(word))
}

fn store(word: u32) -> Instruction {
    let width = match funct3(word) {
        0 => Width::Byte,
        1 => Width::Half,
        2 => Width::Word,
        3 => Width::Double,
        _ => return Illegal,
    };
    Instruction::Store(width, s_format(word))
}

/// A shift's immediate keeps its funct6 above the distance; the shift looks at the distance only. Zbb's counts stand among
/// the shifts, by all twelve bits.
fn op_imm(word: u32) -> Instruction {
    let operation = match (funct3(word), funct6(word)) {
        (0, _) => Operation::Add,
        (1, 0b00_0000) => Operation::Sll,
        (1, _) => match funct12(word) {
            0x600 => Operation::Clz,
            0x601 => Operation::Ctz,
            0x602 => Operation::Cpop,
            _ => return Illegal,
        },
        (2, _) => Operation::Slt,
        (3, _) => Operation::Sltu,
        (4, _) => Operation::Xor,
        (5, 0b00_0000) => Operation::Srl,
        (5, 0b01_0000) => Operation::Sra,
        (6, _) => Operation::Or,
        (7, _) => Operation::And,
        _ => return Illegal,
    };
    Instruction::OpImm(operation, i_format(word))
}

fn op_imm_32(word: u32) -> Instruction {
    let operation = match (funct3(word), funct7(word)) {
        (0, _) => WordOperation::Add,
        (1, 0b000_0000) => WordOperation::Sll,
        (1, _) => match funct12(word) {
            0x600 => WordOperation::Clz,
            0x601 => WordOperation::Ctz,
            0x602 => WordOperation::Cpop,
            _ => return Illegal,
        },
        (5, 0b000_0000) => WordOperation::Srl,
        (5, 0b010_0000) => WordOperation::Sra,
        _ => return Illegal,
    };
    Instruction::OpImm32(operation, i_format(word))
}

/// With funct7 1 M's, with 5 the minimum and maximum of Zbb. Always inlined: the list is so long that the compiler would not.
#[inline(always)]
fn op(word: u32) -> Instruction {
    let operation = match (funct3(word), funct7(word)) {
        (0, 0b000_0000) => Operation::Add,
        (0, 0b010_0000) => Operation::Sub,
        (1, 0b000_0000) => Operation::Sll,
        (2, 0b000_0000) => Operation::Slt,
        (3, 0b000_0000) => Operation::Sltu,
        (4, 0b000_0000) => Operation::Xor,
        (5, 0b000_0000) => Operation::Srl,
        (5, 0b010_0000) => Operation::Sra,
        (6, 0b000_0000) => Operation::Or,
        (7, 0b000_0000) => Operation::And,
        (0, 0b000_0001) => Operation::Mul,
        (1, 0b000_0001) => Operation::Mulh,
        (2, 0b000_0001) => Operation::Mulhsu,
        (3, 0b000_0001) => Operation::Mulhu,
        (4, 0b000_0001) => Operation::Div,
        (5, 0b000_0001) => Operation::Divu,
        (6, 0b000_0001) => Operation::Rem,
        (7, 0b000_0001) => Operation::Remu,
        (4, 0b000_0101) => Operation::Min,
        (5, 0b000_0101) => Operation::Minu,
        (6, 0b000_0101) => Operation::Max,
        (7, 0b000_0101) => Operation::Maxu,
        _ => return Illegal,
    };
    Instruction::Op(operation, r_format(word))
}

fn op_32(word: u32) -> Instruction {
    let operation = match (funct3(word), funct7(word)) {
        (0, 0b000_0000) => WordOperation::Add,
        (0, 0b010_0000) => WordOperation::Sub,
        (1, 0b000_0000) => WordOperation::Sll,
        (5, 0b000_0000) => WordOperation::Srl,
        (5, 0b010_0000) => WordOperation::Sra,
        (0, 0b000_0001) => WordOperation::Mul,
        (4, 0b000_0001) => WordOperation::Div,
        (5, 0b000_0001) => WordOperation::Divu,
        (6, 0b000_0001) => WordOperation::Rem,
        (7, 0b000_0001) => WordOperation::Remu,
        _ => return Illegal,
    };
    Instruction::Op32(operation, r_format(word))
}

/// FENCE with any fields; funct3 1 is FENCE.I, which this hart does not have.
fn fence(word: u32) -> Instruction {
    match funct3(word) {
        0 => Instruction::Fence,
        _ => Illegal,
    }
}

/// Of the AMO opcode only the shadow swap, with any aq and rl.
fn swap(word: u32) -> Instruction {
    let width = match (funct3(word), funct5(word)) {
        (2, 0b0_1001) => Width::Word,
        (3, 0b0_1001) => Width::Double,
        _ => return Illegal,
    };
    Instruction::Swap(width, r_format(word))
}

fn system(word: u32) -> Instruction {
    let (operation, immediate) = match funct3(word) {
        0 => return privileged(word),
        1 => (CsrOperation::Write, false),
        2 => (CsrOperation::Set, false),
        3 => (CsrOperation::Clear, false),
        5 => (CsrOperation::Write, true),
        6 => (CsrOperation::Set, true),
        7 => (CsrOperation::Clear, true),
        _ => return may_be_operation(word),
    };
    let operands = CsrOperands {
        rd: rd(word),
        source: rs1(word),
        immediate,
        address: csr_address(word),
    };
    Instruction::Csr(operation, operands)
}

fn privileged(word: u32) -> Instruction {
    match word {
        0x0000_0073 => Instruction::Ecall,
        0x0010_0073 => Instruction::Ebreak,
        0x1020_0073 => Instruction::Sret,
        0x3020_0073 => Instruction::Mret,
        _ => Illegal,
    }
}

/// Zimop. The shadow words are single words of it; all others only write 0.
fn may_be_operation(word: u32) -> Instruction {
    const READ_SSP: u32 = 0xCDC0_4073;
    const RD: u32 = 31 << 7;
    // The fixed bits of each form: those that do not hold its number n or a register.
    const MOP_R_FIXED: u32 = 0xB3C0_0000;
    const MOP_R: u32 = 0x81C0_0000;
    const MOP_RR_FIXED: u32 = 0xB200_0000;
    const MOP_RR: u32 = 0x8200_0000;
    let rd = rd(word);
    match word {
        0xCE10_4073 => Instruction::Push { link: 1 },
        0xCE50_4073 => Instruction::Push { link: 5 },
        0xCDC0_C073 => Instruction::PopCheck { link: 1 },
        0xCDC2_C073 => Instruction::PopCheck { link: 5 },
        _ if word & !RD == READ_SSP && rd != 0 => Instruction::ReadSsp { rd },
        _ if word & MOP_R_FIXED == MOP_R => Instruction::MopR { rd },
        _ if word & MOP_RR_FIXED == MOP_RR => Instruction::MopRr { rd },
        _ => Illegal,
    }
}
