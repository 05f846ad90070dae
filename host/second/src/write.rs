//! The word of an instruction that is given as eight numbers (the layout is that of include/sporhulma.h), packed by the manuals' formats.
//!
//! What is no instruction is found by its numbers, one after the other: every field has its reach, every operation is one that the
//! manuals list, and what an instruction does not have is 0.

/// The numbers that an instruction may have: those that are not asked for must be 0.
struct Numbers {
    operation: u64,
    rd: u64,
    rs1: u64,
    rs2: u64,
    immediate: u64,
    first: u64,
    second: u64,
}

/// The word of eight numbers; none where no instruction has them.
pub fn write(numbers: &[u64; 8]) -> Option<u32> {
    let [family, operation, rd, rs1, rs2, immediate, first, second] = *numbers;
    let mut n = Numbers {
        operation,
        rd,
        rs1,
        rs2,
        immediate,
        first,
        second,
    };
    let word = match family {
        1 => n.upper(0b011_0111),
        2 => n.upper(0b001_0111),
        3 => n.jump(),
        4 => n.immediate(0b110_0111, &[0]),
        5 => n.branch(),
        6 => n.immediate(0b000_0011, &[0, 1, 2, 3, 4, 5, 6]),
        7 => n.store(),
        8 => n.op_imm(0b001_0011, 64, &[0, 2, 3, 4, 6, 7]),
        9 => n.op_imm(0b001_1011, 32, &[0]),
        10 => n.op(0b011_0011, &OP),
        11 => n.op(0b011_1011, &OP_32),
        12 => n.fence(),
        13 => Some(0x0000_0073),
        14 => Some(0x0010_0073),
        15 => Some(0x1020_0073),
        16 => Some(0x3020_0073),
        17 => n.csr(),
        18 => n.read_ssp(),
        19 => n.push(),
        20 => n.pop_check(),
        21 => n.swap(),
        22 => n.mop_r(),
        23 => n.mop_rr(),
        _ => None,
    }?;
    n.nothing_left().then_some(word)
}

/// funct7 and funct3 of OP: RV64I's, M's, and the minimum and maximum of Zbb.
#[rustfmt::skip]
const OP: [(u64, u64); 22] = [
    (0, 0), (0, 1), (0, 2), (0, 3), (0, 4), (0, 5), (0, 6), (0, 7), (0x20, 0), (0x20, 5),
    (1, 0), (1, 1), (1, 2), (1, 3), (1, 4), (1, 5), (1, 6), (1, 7),
    (5, 4), (5, 5), (5, 6), (5, 7),
];

/// The same of OP-32.
#[rustfmt::skip]
const OP_32: [(u64, u64); 10] = [
    (0, 0), (0, 1), (0, 5), (0x20, 0), (0x20, 5),
    (1, 0), (1, 4), (1, 5), (1, 6), (1, 7),
];

/// Takes a number away, if it is below `end`.
fn below(number: &mut u64, end: u64) -> Option<u32> {
    let taken = std::mem::take(number);
    (taken < end).then_some(taken as u32)
}

/// Bits `high` to `low` of a number, as a number.
fn bits(number: u32, high: u32, low: u32) -> u32 {
    number >> low & ((1 << (high - low + 1)) - 1)
}

const SYSTEM: u32 = 0b111_0011;
/// funct3 of Zimop in SYSTEM, in its place.
const MOP: u32 = 0b100 << 12 | SYSTEM;

impl Numbers {
    /// Whether all that was there has been taken.
    fn nothing_left(&self) -> bool {
        let left = [
            self.operation,
            self.rd,
            self.rs1,
            self.rs2,
            self.immediate,
            self.first,
            self.second,
        ];
        left == [0; 7]
    }

    /// The registers, each in its place.
    fn rd(&mut self) -> Option<u32> {
        Some(below(&mut self.rd, 32)? << 7)
    }

    fn rs1(&mut self) -> Option<u32> {
        Some(below(&mut self.rs1, 32)? << 15)
    }

    fn rs2(&mut self) -> Option<u32> {
        Some(below(&mut self.rs2, 32)? << 20)
    }

    /// The operation as funct3, in its place, where it is one of a list.
    fn funct3(&mut self, known: &[u64]) -> Option<u32> {
        let operation = std::mem::take(&mut self.operation);
        known
            .contains(&operation)
            .then_some((operation as u32) << 12)
    }

    /// The immediate as a signed number of so many bits that is a multiple of `step`.
    fn signed(&mut self, width: u32, step: i64) -> Option<u32> {
        let number = std::mem::take(&mut self.immediate) as i64;
        let half = 1i64 << (width - 1);
        (number >= -half && number < half && number % step == 0).then_some(number as u32)
    }

    /// Format U.
    fn upper(&mut self, opcode: u32) -> Option<u32> {
        Some(self.signed(32, 4096)? | self.rd()? | opcode)
    }

    /// Format J, bits 20, 10:1, 11 and 19:12.
    fn jump(&mut self) -> Option<u32> {
        let to = self.signed(21, 2)?;
        let distance = bits(to, 20, 20) << 31
            | bits(to, 10, 1) << 21
            | bits(to, 11, 11) << 20
            | bits(to, 19, 12) << 12;
        Some(distance | self.rd()? | 0b110_1111)
    }

    /// Format I.
    fn immediate(&mut self, opcode: u32, known: &[u64]) -> Option<u32> {
        let number = bits(self.signed(12, 1)?, 11, 0) << 20;
        Some(number | self.rs1()? | self.funct3(known)? | self.rd()? | opcode)
    }

    /// Format B, bits 12, 10:5, 4:1 and 11.
    fn branch(&mut self) -> Option<u32> {
        let to = self.signed(13, 2)?;
        let high = bits(to, 12, 12) << 31 | bits(to, 10, 5) << 25;
        let low = bits(to, 4, 1) << 8 | bits(to, 11, 11) << 7;
        let funct3 = self.funct3(&[0, 1, 4, 5, 6, 7])?;
        Some(high | self.rs2()? | self.rs1()? | funct3 | low | 0b110_0011)
    }

    /// Format S.
    fn store(&mut self) -> Option<u32> {
        let number = self.signed(12, 1)?;
        let fields = bits(number, 11, 5) << 25 | bits(number, 4, 0) << 7;
        let funct3 = self.funct3(&[0, 1, 2, 3])?;
        Some(fields | self.rs2()? | self.rs1()? | funct3 | 0b010_0011)
    }

    /// The counts of Zbb, shifts below `width`, and all else of format I.
    fn op_imm(&mut self, opcode: u32, width: u64, known: &[u64]) -> Option<u32> {
        let (funct12, funct3) = match self.operation {
            0x3001 | 0x3009 | 0x3011 => ((self.operation >> 3) as u32, 1),
            1 => (below(&mut self.immediate, width)?, 1),
            5 => (below(&mut self.immediate, width)?, 5),
            0x2005 => (below(&mut self.immediate, width)? | 0x400, 5),
            _ => return self.immediate(opcode, known),
        };
        self.operation = 0;
        Some(funct12 << 20 | self.rs1()? | funct3 << 12 | self.rd()? | opcode)
    }

    /// Format R.
    fn op(&mut self, opcode: u32, known: &[(u64, u64)]) -> Option<u32> {
        let operation = std::mem::take(&mut self.operation);
        let (funct7, funct3) = (operation >> 8, operation & 0xFF);
        let known = known.contains(&(funct7, funct3));
        let fields = known.then_some((funct7 as u32) << 25 | (funct3 as u32) << 12)?;
        Some(fields | self.rs2()? | self.rs1()? | self.rd()? | opcode)
    }

    fn fence(&mut self) -> Option<u32> {
        let fm = below(&mut self.operation, 16)?;
        let (pred, succ) = (below(&mut self.first, 16)?, below(&mut self.second, 16)?);
        let fields = fm << 28 | pred << 24 | succ << 20;
        Some(fields | self.rs1()? | self.rd()? | 0b000_1111)
    }

    fn csr(&mut self) -> Option<u32> {
        let address = below(&mut self.first, 4096)? << 20;
        let funct3 = self.funct3(&[1, 2, 3, 5, 6, 7])?;
        Some(address | self.rs1()? | funct3 | self.rd()? | SYSTEM)
    }

    /// SSRDP is MOP.R.28 with rs1 x0; with rd x0 it would only write 0 to it.
    fn read_ssp(&mut self) -> Option<u32> {
        let rd = self.rd()?;
        (rd != 0).then_some(0xCDC0_0000 | rd | MOP)
    }

    /// SSPUSH is MOP.RR.7 with rs2 x1 or x5.
    fn push(&mut self) -> Option<u32> {
        let link = matches!(self.rs2, 1 | 5);
        let word = 0xCE00_0000 | self.rs2()? | MOP;
        link.then_some(word)
    }

    /// SSPOPCHK is MOP.R.28 with rs1 x1 or x5.
    fn pop_check(&mut self) -> Option<u32> {
        let link = matches!(self.rs1, 1 | 5);
        let word = 0xCDC0_0000 | self.rs1()? | MOP;
        link.then_some(word)
    }

    /// SSAMOSWAP: funct5 01001, then aq and rl.
    fn swap(&mut self) -> Option<u32> {
        let funct3 = match std::mem::take(&mut self.operation) {
            0x2402 => 2,
            0x2403 => 3,
            _ => return None,
        };
        let order = below(&mut self.first, 2)? << 26 | below(&mut self.second, 2)? << 25;
        let registers = self.rs2()? | self.rs1()? | self.rd()?;
        Some(0b01001 << 27 | order | registers | funct3 << 12 | 0b010_1111)
    }

    /// 1n00nn0111nn, but for the words of Zicfiss.
    fn mop_r(&mut self) -> Option<u32> {
        let n = below(&mut self.operation, 32)?;
        let shadow = match (n, self.rd, self.rs1) {
            (28, 0, rs1) => matches!(rs1, 1 | 5),
            (28, _, 0) => true,
            _ => false,
        };
        let number = bits(n, 4, 4) << 30 | bits(n, 3, 2) << 26 | bits(n, 1, 0) << 20;
        let word = 0x81C0_0000 | number | self.rs1()? | self.rd()? | MOP;
        (!shadow).then_some(word)
    }

    /// 1n00nn1, but for the words of Zicfiss.
    fn mop_rr(&mut self) -> Option<u32> {
        let n = below(&mut self.operation, 8)?;
        let shadow = n == 7 && (self.rd, self.rs1) == (0, 0) && matches!(self.rs2, 1 | 5);
        let number = bits(n, 2, 2) << 30 | bits(n, 1, 0) << 26;
        let word = 0x8200_0000 | number | self.rs2()? | self.rs1()? | self.rd()? | MOP;
        (!shadow).then_some(word)
    }
}
