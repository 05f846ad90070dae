//! An instruction as eight numbers (family, operation, rd, rs1, rs2, immediate, and two that are left), read from a word: the layout is that
//! of include/sporhulma.h, the fields are the manuals'.

use crate::decode::family;
use crate::fields::*;

/// The eight numbers of a word; none where it is illegal.
pub fn read(word: u32) -> Option<[u64; 8]> {
    let family = family(word);
    let [operation, rd, rs1, rs2, number, first, second] = match family {
        0 => return None,
        1 | 2 => upper(u_format(word)),
        3 => upper(j_format(word)),
        4 => immediate(0, i_format(word)),
        5 => sources(word, b_format(word)),
        6 => immediate(funct3(word), i_format(word)),
        7 => sources(word, s_format(word)),
        8 | 9 => op_imm(word, if family == 8 { 6 } else { 5 }),
        10 | 11 => registers(word, (funct7(word) << 8 | funct3(word)).into()),
        12 => fence(word),
        13..=16 => [0; 7],
        17 => csr(word),
        18 => [0, rd(word).into(), 0, 0, 0, 0, 0],
        19 => [0, 0, 0, rs2(word).into(), 0, 0, 0],
        20 => [0, 0, rs1(word).into(), 0, 0, 0, 0],
        21 => swap(word),
        22 => [mop_r(word), rd(word).into(), rs1(word).into(), 0, 0, 0, 0],
        _ => registers(word, mop_rr(word)),
    };
    Some([family, operation, rd, rs1, rs2, number, first, second])
}

/// All but the family.
type Seven = [u64; 7];

fn immediate(operation: u32, fields: Immediate) -> Seven {
    let (rd, rs1) = (fields.rd.into(), fields.rs1.into());
    [operation.into(), rd, rs1, 0, fields.immediate, 0, 0]
}

fn upper(fields: Upper) -> Seven {
    [0, fields.rd.into(), 0, 0, fields.immediate, 0, 0]
}

fn sources(word: u32, fields: Sources) -> Seven {
    let (rs1, rs2) = (fields.rs1.into(), fields.rs2.into());
    [funct3(word).into(), 0, rs1, rs2, fields.immediate, 0, 0]
}

fn registers(word: u32, operation: u64) -> Seven {
    let Registers { rd, rs1, rs2 } = r_format(word);
    [operation, rd.into(), rs1.into(), rs2.into(), 0, 0, 0]
}

/// A shift's distance has so many bits, and what stands above it says which shift. A count has all twelve bits to say which.
fn op_imm(word: u32, distance_bits: u32) -> Seven {
    let fields = i_format(word);
    let (funct3, distance) = (funct3(word), funct12(word) & ((1 << distance_bits) - 1));
    let above = funct12(word) - distance;
    let (operation, number) = match (funct3, above) {
        (1, 0x600) => (funct12(word) << 3 | 1, 0),
        // funct7 begins at bit 5 of the twelve.
        (1 | 5, _) => (above >> 5 << 8 | funct3, distance.into()),
        _ => (funct3, fields.immediate),
    };
    let fields = Immediate {
        immediate: number,
        ..fields
    };
    immediate(operation, fields)
}

/// fm, and the sets of what is before and behind.
fn fence(word: u32) -> Seven {
    let (fm, pred, succ) = (word >> 28, word >> 24 & 15, word >> 20 & 15);
    let (rd, rs1) = (rd(word).into(), rs1(word).into());
    [fm.into(), rd, rs1, 0, 0, pred.into(), succ.into()]
}

fn csr(word: u32) -> Seven {
    let (rd, rs1) = (rd(word).into(), rs1(word).into());
    let address = csr_address(word).into();
    [funct3(word).into(), rd, rs1, 0, 0, address, 0]
}

/// The operation has funct5 with aq and rl 0.
fn swap(word: u32) -> Seven {
    let mut seven = registers(word, (funct5(word) << 2 << 8 | funct3(word)).into());
    seven[5] = (word >> 26 & 1).into();
    seven[6] = (word >> 25 & 1).into();
    seven
}

/// The number of MOP.R: bits 30, 27, 26, 21 and 20.
fn mop_r(word: u32) -> u64 {
    ((word >> 30 & 1) << 4 | (word >> 26 & 3) << 2 | word >> 20 & 3).into()
}

/// The number of MOP.RR: bits 30, 27 and 26.
fn mop_rr(word: u32) -> u64 {
    ((word >> 30 & 1) << 2 | word >> 26 & 3).into()
}
