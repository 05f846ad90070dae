//! Landing pads: who has them on, when one is expected, and the check of the word that must be one.

use crate::csrs::field::{LPE, MLPE};
use crate::decode::{decode, Instruction};
use crate::hart::{Hart, SUPERVISOR, USER};
use crate::trap::{Trap, LANDING_PAD_FAULT, SOFTWARE_CHECK};

/// The register whose bits 31:12 hold the expected label.
const LABEL_REGISTER: u8 = 7;
const LABEL: u64 = 0xFFFF_F000;

/// Whether pads are on in the current mode.
pub fn enabled(h: &Hart) -> bool {
    match h.mode {
        USER => h.senvcfg & LPE != 0,
        SUPERVISOR => h.menvcfg & LPE != 0,
        _ => h.mseccfg & MLPE != 0,
    }
}

/// A JALR through x1 or x5 is a return, through x7 a jump whose target software has guarded.
pub fn after_jalr(h: &mut Hart, rs1: u8) {
    let expected = enabled(h) && !matches!(rs1, 1 | 5 | 7);
    h.elp = u64::from(expected);
}

/// Where a pad is expected, the word must be one; then it is expected no more.
pub fn check(h: &mut Hart, word: u32) -> Result<(), Trap> {
    if h.elp == 0 || !enabled(h) {
        return Ok(());
    }
    if !is_pad(h, word) {
        return Err(Trap {
            cause: SOFTWARE_CHECK,
            tval: LANDING_PAD_FAULT,
        });
    }
    h.elp = 0;
    Ok(())
}

/// A pad is AUIPC of x0 whose label is 0 or that of x7.
fn is_pad(h: &Hart, word: u32) -> bool {
    let label = u64::from(word) & LABEL;
    matches!(decode(word), Instruction::Auipc(operands) if operands.rd == 0)
        && (label == 0 || label == h.get(LABEL_REGISTER) & LABEL)
}
