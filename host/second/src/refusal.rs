//! Refusals: when a call takes nothing, and which number it then gives.

use crate::csrs::field::*;
use crate::hart::{Hart, BELOW_EIGHT, BELOW_FOUR, MACHINE, SUPERVISOR, USER};
use crate::leaf::{ENTRIES, NUMBERS, PAGE};

const MOST_MEMORY: usize = 1_048_576;
const MOST_MAP_WORDS: usize = 2 * ENTRIES;
const MOST_BUDGET: u64 = 1_000_000;

/// The lowest refusal that applies to a step, or 0.
pub fn of_step(h: &Hart, mem: &[u8], map: &[u64]) -> u64 {
    if !hart_is_possible(h) {
        1
    } else if !memory_fits(mem) {
        2
    } else if !map_is_well_formed(map) {
        3
    } else {
        0
    }
}

/// The lowest refusal that applies to a run, or 0.
pub fn of_run(h: &Hart, mem: &[u8], map: &[u64], budget: u64) -> u64 {
    match of_step(h, mem, map) {
        0 if budget > MOST_BUDGET => 4,
        refusal => refusal,
    }
}

fn hart_is_possible(h: &Hart) -> bool {
    h.x[0] == 0
        && h.pc & BELOW_FOUR == 0
        && matches!(h.mode, USER | SUPERVISOR | MACHINE)
        && h.elp <= 1
        && h.ssp & BELOW_EIGHT == 0
        && csrs_are_possible(h)
}

/// Whether each CSR holds a value that some write could leave. Scratch, cause and tval hold any word.
fn csrs_are_possible(h: &Hart) -> bool {
    let on_a_word = [h.stvec, h.sepc, h.mtvec, h.mepc];
    on_a_word.iter().all(|value| value & BELOW_FOUR == 0)
        && mstatus_is_possible(h.mstatus)
        && h.medeleg & !MEDELEG_FIELDS == 0
        && matches!(h.satp, BARE | SV39)
        && masking_is_possible(h.senvcfg, ENVCFG_FIELDS)
        && masking_is_possible(h.menvcfg, ENVCFG_FIELDS)
        && masking_is_possible(h.mseccfg, MSECCFG_FIELDS)
}

fn mstatus_is_possible(mstatus: u64) -> bool {
    let fixed = mstatus & !MSTATUS_FIELDS;
    let mpp = (mstatus & MPP) >> MPP_SHIFT;
    fixed == UXL_IS_64 | SXL_IS_64 && mpp != 2
}

/// For a CSR with a PMM field: no bit outside its fields, and PMM not the reserved 1.
fn masking_is_possible(value: u64, fields: u64) -> bool {
    value & !fields == 0 && (value & PMM) >> PMM_SHIFT != 1
}

/// Whether memory has a length that every call takes.
pub fn memory_fits(mem: &[u8]) -> bool {
    !mem.is_empty() && mem.len() % PAGE as usize == 0 && mem.len() <= MOST_MEMORY
}

fn map_is_well_formed(map: &[u64]) -> bool {
    let numbers = || map.iter().step_by(2);
    map.len() % 2 == 0
        && map.len() <= MOST_MAP_WORDS
        && numbers().all(|&number| number < NUMBERS)
        && numbers()
            .zip(numbers().skip(1))
            .all(|(one, next)| one < next)
}
