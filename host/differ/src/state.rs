//! The hart's words of a case: mode, CSRs and registers, legal ones, biased to what decides; and what follows from them.

pub use formats::csr::field::{
    LPE, MEDELEG_FIELDS, MLPE, MPP, MPP_SHIFT, MPRV, MSTATUS_FIELDS, MXR, PMM, PMM_SHIFT, SSE, SUM,
    SV39,
};

use crate::case::{Case, PAGE};
use crate::world::{Role, World};
use formats::random::Random;
use second::{Kind, Regime};
use sporhulma::word::*;

/// UXL and SXL as every mstatus word holds them.
pub const XLENS: u64 = sporhulma::MSTATUS_CLEAR;

/// Of a hundred cases so many are made for rule 7.2 e.
pub const LIFTED: u64 = 11;

/// What a case's state means for the next instruction: only to aim at what matters, no answer depends on it.
#[derive(Clone, Copy)]
pub struct View {
    pub mode: u64,
    /// Whether satp says Sv39; whether it is in force stands in the next two.
    pub sv39: bool,
    /// Of fetches; its bits are those that the mode's PMM would mask in the fetch address if it were masked.
    pub fetch: Regime,
    /// Of loads, stores and swaps. They are spared by rule 7.2 e: in M with MPRV and MXR both set.
    pub data: Regime,
    pub pads: bool,
}

impl View {
    pub fn of(rest: &[u64; 20]) -> View {
        let hart = second::Hart::from_words(&[0; 32], rest);
        View {
            mode: hart.mode,
            sv39: hart.satp == SV39,
            fetch: Regime::of(&hart, Kind::Fetch),
            data: Regime::of(&hart, Kind::Load),
            pads: second::pads_on(&hart),
        }
    }
}

fn sometimes(random: &mut Random, percent: u64, bits: u64) -> u64 {
    if random.chance(percent) {
        bits
    } else {
        0
    }
}

/// The words that decide how an instruction runs. An effective mode below M and Sv39 are frequent.
pub fn settings(random: &mut Random, case: &mut Case) {
    let rest = &mut case.hart.rest;
    rest[MODE] = random.pick(&[0, 0, 0, 1, 1, 1, 3, 3]);
    rest[SATP] = sometimes(random, 75, SV39);
    let mpp = random.pick(&[0, 0, 1, 1, 3]) << MPP_SHIFT;
    let often = MPRV | SUM | MXR;
    rest[MSTATUS] = XLENS | random.word() & MSTATUS_FIELDS & !(MPP | often) | mpp;
    rest[MSTATUS] |= sometimes(random, 50, MPRV) | sometimes(random, 70, SUM);
    rest[MSTATUS] |= sometimes(random, 50, MXR);
    for (word, enables) in [
        (MENVCFG, [LPE, SSE]),
        (SENVCFG, [LPE, SSE]),
        (MSECCFG, [MLPE, 0]),
    ] {
        rest[word] = random.pick(&[0, 2, 3]) << PMM_SHIFT;
        rest[word] |= sometimes(random, 40, enables[0]) | sometimes(random, 80, enables[1]);
    }
    rest[MEDELEG] = match random.below(4) {
        0 => 0,
        1 => MEDELEG_FIELDS,
        _ => random.word() & MEDELEG_FIELDS,
    };
    rest[ELP] = u64::from(random.chance(15));
}

/// Turns the settings into those where rule 7.2 e lifts masking, with any MPP: by chance few harts have all of it.
pub fn lifting(random: &mut Random, case: &mut Case) {
    let rest = &mut case.hart.rest;
    rest[MODE] = 3;
    rest[MSTATUS] = rest[MSTATUS] & !MPP | MPRV | MXR | random.pick(&[0, 1, 3]) << MPP_SHIFT;
}

/// The words that only keep something: scratch, cause, tval, the handlers' addresses and where they return to;
/// `astray` of a hundred of these addresses point anywhere.
pub fn keepers(random: &mut Random, world: &World, astray: u64, case: &mut Case) {
    let sv39 = case.hart.rest[SATP] == SV39;
    let rest = &mut case.hart.rest;
    for word in [SSCRATCH, SCAUSE, STVAL, MSCRATCH, MCAUSE, MTVAL] {
        rest[word] = random.word();
    }
    rest[STVEC] = world.at(Role::Handler, sv39, PAGE / 2);
    rest[MTVEC] = world.at(Role::Handler, false, 0);
    rest[SEPC] = world.at(Role::Code, sv39, random.below(PAGE / 4) * 4);
    rest[MEPC] = world.at(Role::Code, sv39, random.below(PAGE / 4) * 4);
    for word in [STVEC, MTVEC, SEPC, MEPC] {
        if random.chance(astray) {
            rest[word] = random.word() & !3;
        }
    }
}

/// Values for the registers: small, near the ends of each width, or any.
pub fn registers(random: &mut Random, case: &mut Case) {
    const ENDS: [u64; 8] = [
        0,
        1,
        u64::MAX,
        1 << 63,
        (1 << 63) - 1,
        1 << 31,
        (1 << 31) - 1,
        0xFFFF_FFFF,
    ];
    case.hart.x[0] = 0;
    for register in &mut case.hart.x[1..] {
        let word = random.word();
        *register = match word & 7 {
            0 => ENDS[(word >> 3) as usize & 7],
            1 => word >> 56,
            2 => !(word >> 56),
            _ => word,
        };
    }
}
