//! The table of mnemonics: for each name, and each number of operands that it may have, where the operands go among the eight numbers of
//! an instruction (include/sporhulma.h) and what the others are.
//!
//! The names are the manual's and GNU's aliases for one instruction. An alias is here where the disassembler prints it, or where it is a
//! branch with its operands exchanged.

use crate::operand::Operand::{self, *};
use sporhulma::number::{FAMILY, FIRST, IMMEDIATE, OPERATION, RD, RS1, RS2, SECOND};

pub struct Row {
    pub name: &'static str,
    pub operands: &'static [Operand],
    /// The instruction's numbers, 0 where an operand goes.
    pub numbers: [u64; 8],
}

const fn row(name: &'static str, operands: &'static [Operand], family: u64, operation: u64) -> Row {
    let mut numbers = [0; 8];
    numbers[FAMILY] = family;
    numbers[OPERATION] = operation;
    Row {
        name,
        operands,
        numbers,
    }
}

impl Row {
    /// The same with a number that no operand gives.
    const fn with(mut self, at: usize, number: i64) -> Row {
        self.numbers[at] = number as u64;
        self
    }

    /// How it is written: `addi rd,rs1,N`.
    pub fn usage(&self) -> String {
        let operands: Vec<String> = self.operands.iter().map(Operand::usage).collect();
        format!("{} {}", self.name, operands.join(","))
            .trim_end()
            .to_string()
    }
}

const TWELVE: Operand = Number(IMMEDIATE, (-2048, 2047));
const D: Operand = Register(RD);
const S: Operand = Register(RS1);
const T: Operand = Register(RS2);
const DS: &[Operand] = &[D, S];
const DT: &[Operand] = &[D, T];
const DST: &[Operand] = &[D, S, T];
const DSI: &[Operand] = &[D, S, TWELVE];
const DS6: &[Operand] = &[D, S, Number(IMMEDIATE, (0, 63))];
const DS5: &[Operand] = &[D, S, Number(IMMEDIATE, (0, 31))];
const DU: &[Operand] = &[D, Upper];
const JUMP: Operand = Target((-1_048_576, 1_048_574));
const NEAR: Operand = Target((-4096, 4094));
const STA: &[Operand] = &[S, T, NEAR];
const TSA: &[Operand] = &[T, S, NEAR];
const SA: &[Operand] = &[S, NEAR];
const TA: &[Operand] = &[T, NEAR];
const LOAD: &[Operand] = &[D, Memory];
const STORE: &[Operand] = &[T, Memory];
const FIVE: Operand = Number(RS1, (0, 31));
const DCS: &[Operand] = &[D, Csr, S];
const DCN: &[Operand] = &[D, Csr, FIVE];
const CS: &[Operand] = &[Csr, S];
const CN: &[Operand] = &[Csr, FIVE];
const SWAP: &[Operand] = &[D, T, Base];

/// `mop.r.N` and `mop.rr.N` stand for all their numbers.
#[rustfmt::skip]
pub static ROWS: &[Row] = &[
    row("lui", DU, 1, 0),
    row("auipc", DU, 2, 0), row("lpad", &[Upper], 2, 0),
    row("jal", &[D, JUMP], 3, 0), row("jal", &[JUMP], 3, 0).with(RD, 1), row("j", &[JUMP], 3, 0),
    row("jalr", DSI, 4, 0), row("jalr", &[D, Place], 4, 0), row("jalr", &[Place], 4, 0).with(RD, 1),
    row("jr", &[Place], 4, 0), row("ret", &[], 4, 0).with(RS1, 1),

    row("beq", STA, 5, 0), row("bne", STA, 5, 1), row("blt", STA, 5, 4), row("bge", STA, 5, 5), row("bltu", STA, 5, 6), row("bgeu", STA, 5, 7),
    row("bgt", TSA, 5, 4), row("ble", TSA, 5, 5), row("bgtu", TSA, 5, 6), row("bleu", TSA, 5, 7),
    row("beqz", SA, 5, 0), row("bnez", SA, 5, 1), row("bltz", SA, 5, 4), row("bgez", SA, 5, 5), row("bgtz", TA, 5, 4), row("blez", TA, 5, 5),

    row("lb", LOAD, 6, 0), row("lh", LOAD, 6, 1), row("lw", LOAD, 6, 2), row("ld", LOAD, 6, 3), row("lbu", LOAD, 6, 4), row("lhu", LOAD, 6, 5),
    row("lwu", LOAD, 6, 6),
    row("sb", STORE, 7, 0), row("sh", STORE, 7, 1), row("sw", STORE, 7, 2), row("sd", STORE, 7, 3),

    row("addi", DSI, 8, 0), row("slti", DSI, 8, 2), row("sltiu", DSI, 8, 3), row("xori", DSI, 8, 4), row("ori", DSI, 8, 6), row("andi", DSI, 8, 7),
    row("slli", DS6, 8, 1), row("srli", DS6, 8, 5), row("srai", DS6, 8, 0x2005),
    row("clz", DS, 8, 0x3001), row("ctz", DS, 8, 0x3009), row("cpop", DS, 8, 0x3011),
    row("nop", &[], 8, 0), row("li", &[D, TWELVE], 8, 0), row("mv", DS, 8, 0),
    row("seqz", DS, 8, 3).with(IMMEDIATE, 1), row("not", DS, 8, 4).with(IMMEDIATE, -1), row("zext.b", DS, 8, 7).with(IMMEDIATE, 255),

    row("addiw", DSI, 9, 0), row("slliw", DS5, 9, 1), row("srliw", DS5, 9, 5), row("sraiw", DS5, 9, 0x2005),
    row("clzw", DS, 9, 0x3001), row("ctzw", DS, 9, 0x3009), row("cpopw", DS, 9, 0x3011), row("sext.w", DS, 9, 0),

    row("add", DST, 10, 0), row("sub", DST, 10, 0x2000), row("sll", DST, 10, 1), row("slt", DST, 10, 2), row("sltu", DST, 10, 3),
    row("xor", DST, 10, 4), row("srl", DST, 10, 5), row("sra", DST, 10, 0x2005), row("or", DST, 10, 6), row("and", DST, 10, 7),
    row("mul", DST, 10, 0x100), row("mulh", DST, 10, 0x101), row("mulhsu", DST, 10, 0x102), row("mulhu", DST, 10, 0x103),
    row("div", DST, 10, 0x104), row("divu", DST, 10, 0x105), row("rem", DST, 10, 0x106), row("remu", DST, 10, 0x107),
    row("min", DST, 10, 0x504), row("minu", DST, 10, 0x505), row("max", DST, 10, 0x506), row("maxu", DST, 10, 0x507),
    row("neg", DT, 10, 0x2000), row("sltz", DS, 10, 2), row("sgtz", DT, 10, 2), row("snez", DT, 10, 3),

    row("addw", DST, 11, 0), row("subw", DST, 11, 0x2000), row("sllw", DST, 11, 1), row("srlw", DST, 11, 5), row("sraw", DST, 11, 0x2005),
    row("mulw", DST, 11, 0x100), row("divw", DST, 11, 0x104), row("divuw", DST, 11, 0x105), row("remw", DST, 11, 0x106),
    row("remuw", DST, 11, 0x107), row("negw", DT, 11, 0x2000),

    row("fence", &[], 12, 0).with(FIRST, 15).with(SECOND, 15), row("fence", &[Set(FIRST), Set(SECOND)], 12, 0),
    row("fence.tso", &[], 12, 8).with(FIRST, 3).with(SECOND, 3),
    row(".insn", &[Literal("i MISC_MEM"), Literal("0"), D, S, Fence], 12, 0),

    row("ecall", &[], 13, 0), row("ebreak", &[], 14, 0), row("sret", &[], 15, 0), row("mret", &[], 16, 0),

    row("csrrw", DCS, 17, 1), row("csrrs", DCS, 17, 2), row("csrrc", DCS, 17, 3),
    row("csrrwi", DCN, 17, 5), row("csrrsi", DCN, 17, 6), row("csrrci", DCN, 17, 7),
    row("csrr", &[D, Csr], 17, 2), row("csrw", CS, 17, 1), row("csrs", CS, 17, 2), row("csrc", CS, 17, 3),
    row("csrwi", CN, 17, 5), row("csrsi", CN, 17, 6), row("csrci", CN, 17, 7), row("unimp", &[], 17, 1).with(FIRST, 0xC00),

    row("ssrdp", &[D], 18, 0), row("sspush", &[T], 19, 0), row("sspopchk", &[S], 20, 0),
    row("ssamoswap.w", SWAP, 21, 0x2402), row("ssamoswap.w.aq", SWAP, 21, 0x2402).with(FIRST, 1),
    row("ssamoswap.w.rl", SWAP, 21, 0x2402).with(SECOND, 1), row("ssamoswap.w.aqrl", SWAP, 21, 0x2402).with(FIRST, 1).with(SECOND, 1),
    row("ssamoswap.d", SWAP, 21, 0x2403), row("ssamoswap.d.aq", SWAP, 21, 0x2403).with(FIRST, 1),
    row("ssamoswap.d.rl", SWAP, 21, 0x2403).with(SECOND, 1), row("ssamoswap.d.aqrl", SWAP, 21, 0x2403).with(FIRST, 1).with(SECOND, 1),
    row("mop.r.N", DS, 22, 0), row("mop.rr.N", DST, 23, 0),
];

/// The rows of a name; of several, each has another number of operands.
pub fn rows(name: &str) -> impl Iterator<Item = &'static Row> + '_ {
    ROWS.iter().filter(move |row| row.name == name)
}

/// The name by which the table has a mnemonic, and the number that stands in it.
pub fn numbered(mnemonic: &str) -> (&str, Option<u64>) {
    for (name, start) in [("mop.r.N", "mop.r."), ("mop.rr.N", "mop.rr.")] {
        let Some(digits) = mnemonic.strip_prefix(start) else {
            continue;
        };
        if let Ok(n) = digits.parse() {
            if digits == format!("{n}") {
                return (name, Some(n));
            }
        }
    }
    (mnemonic, None)
}
