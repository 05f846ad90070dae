//! CSR instructions: every CSR of docs/HART.md, 5.1, its neighbours and any address, with values that touch each field.

use crate::maker::Maker;
use formats::csr as address;
use formats::csr::field::*;
use formats::random::Random;
use formats::zicsr;
use sporhulma::word::*;

/// Every CSR: its address, and its word in the hart.
pub const CSRS: [(u16, usize); 18] = [
    (address::SSP, SSP),
    (address::SSTATUS, MSTATUS),
    (address::STVEC, STVEC),
    (address::SENVCFG, SENVCFG),
    (address::SSCRATCH, SSCRATCH),
    (address::SEPC, SEPC),
    (address::SCAUSE, SCAUSE),
    (address::STVAL, STVAL),
    (address::SATP, SATP),
    (address::MSTATUS, MSTATUS),
    (address::MEDELEG, MEDELEG),
    (address::MTVEC, MTVEC),
    (address::MENVCFG, MENVCFG),
    (address::MSCRATCH, MSCRATCH),
    (address::MEPC, MEPC),
    (address::MCAUSE, MCAUSE),
    (address::MTVAL, MTVAL),
    (address::MSECCFG, MSECCFG),
];

/// The places in `CSRS` of those whose fields do not take every value: sstatus, senvcfg, satp, mstatus, medeleg, menvcfg,
/// mseccfg.
const FIELDED: [usize; 7] = [1, 3, 8, 9, 10, 12, 17];

/// A CSR instruction, mostly on a CSR that the mode may touch.
pub fn instruction(maker: &mut Maker) -> u32 {
    let (address, value) = target(maker);
    let funct3 = maker.random.pick(&[1, 1, 2, 3, 5, 6, 7]);
    let rs1 = maker.register();
    if funct3 < 4 {
        maker.case.set(rs1, value);
    }
    zicsr(funct3, maker.register(), address, rs1)
}

/// An address and a value for it.
fn target(maker: &mut Maker) -> (u16, u64) {
    let mut chosen = candidate(maker.random);
    for _ in 0..3 {
        if u64::from(chosen.0 >> 8 & 3) <= maker.view.mode {
            break;
        }
        chosen = candidate(maker.random);
    }
    let old = maker.case.hart.rest[chosen.1];
    let value = value(maker.random, chosen.1, old);
    let address = match maker.random.below(16) {
        0 => chosen.0 ^ maker.random.one_bit(0xFFF) as u16,
        1 => chosen.0.wrapping_add(maker.random.pick(&[1, u16::MAX])) & 0xFFF,
        2 if maker.random.chance(50) => maker.random.below(4096) as u16,
        _ => chosen.0,
    };
    (address, value)
}

fn candidate(random: &mut Random) -> (u16, usize) {
    if random.chance(40) {
        CSRS[random.pick(&FIELDED)]
    } else {
        random.pick(&CSRS)
    }
}

/// A value for a CSR: any word, one bit of it turned, or one of its fields given every value in turn.
fn value(random: &mut Random, word: usize, old: u64) -> u64 {
    let any = random.word();
    match random.below(6) {
        0 => any,
        1 => random.pick(&[0, u64::MAX]),
        2 => old ^ random.one_bit(u64::MAX),
        _ => match word {
            MSTATUS => old & !MPP | random.below(4) << MPP_SHIFT ^ random.one_bit(MSTATUS_FIELDS),
            SATP => {
                random.below(16) << SATP_MODE_SHIFT | if random.chance(40) { any >> 20 } else { 0 }
            }
            MEDELEG => any & MEDELEG_FIELDS,
            MENVCFG | SENVCFG => any & (LPE | SSE) | (any >> 40 << PMM_SHIFT) & PMM,
            MSECCFG => any & MLPE | (any >> 40 << PMM_SHIFT) & PMM,
            SSP => old.wrapping_add(random.below(24)),
            _ => old.wrapping_add(random.below(8)),
        },
    }
}
