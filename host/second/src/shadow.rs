//! The shadow stack: who has it on, and what push, pop-check, the read of ssp and the swap do.
//!
//! Each checks and reaches memory first and changes the hart last, so that a trap changes nothing.

use crate::access::{Access, Kind};
use crate::csrs::field::SSE;
use crate::fields::Registers;
use crate::hart::{Hart, MACHINE, SUPERVISOR, USER};
use crate::memory::{read, read_extended, write, Extension, Width};
use crate::translate::translate;
use crate::trap::{Trap, SHADOW_STACK_FAULT, SOFTWARE_CHECK};

pub const SLOT: Width = Width::Double;
const SLOT_BYTES: u64 = 8;

/// Whether the shadow stack is on in the current mode. U has it only while S has it too.
pub fn enabled(h: &Hart) -> bool {
    match h.mode {
        USER => h.menvcfg & h.senvcfg & SSE != 0,
        SUPERVISOR => h.menvcfg & SSE != 0,
        _ => false,
    }
}

/// Whether the CSR ssp and the swap may be used in the current mode: always in M.
pub fn reachable(h: &Hart) -> bool {
    h.mode == MACHINE || enabled(h)
}

/// Where a push stores.
pub fn below(ssp: u64) -> u64 {
    ssp.wrapping_sub(SLOT_BYTES)
}

/// Stores a link register below ssp and then lowers ssp. Off, it is a Zimop word with rd = x0.
pub fn push(h: &mut Hart, mem: &mut [u8], map: &[u64], link: u8) -> Result<(), Trap> {
    if !enabled(h) {
        return Ok(());
    }
    let top = below(h.ssp);
    let access = Access::new(Kind::Push, top, SLOT);
    let at = translate(h, map, mem.len(), access)?;
    write(mem, at, SLOT, h.get(link));
    h.ssp = top;
    Ok(())
}

/// Compares a link register with the word at ssp, and raises ssp if they are equal.
pub fn pop_check(h: &mut Hart, mem: &[u8], map: &[u64], link: u8) -> Result<(), Trap> {
    if !enabled(h) {
        return Ok(());
    }
    let access = Access::new(Kind::Pop, h.ssp, SLOT);
    let at = translate(h, map, mem.len(), access)?;
    if read(mem, at, SLOT) != h.get(link) {
        return Err(Trap {
            cause: SOFTWARE_CHECK,
            tval: SHADOW_STACK_FAULT,
        });
    }
    h.ssp = h.ssp.wrapping_add(SLOT_BYTES);
    Ok(())
}

/// Reads ssp into a register, or 0 where the shadow stack is off.
pub fn read_ssp(h: &mut Hart, rd: u8) {
    let value = if enabled(h) { h.ssp } else { 0 };
    h.set(rd, value);
}

/// Exchanges a word of a shadow page with a register. The 32-bit form gives the old word sign-extended.
pub fn swap(
    h: &mut Hart,
    mem: &mut [u8],
    map: &[u64],
    width: Width,
    operands: Registers,
    word: u32,
) -> Result<(), Trap> {
    if !reachable(h) {
        return Err(Trap::illegal(word));
    }
    let access = Access::new(Kind::Swap, h.get(operands.rs1), width);
    let at = translate(h, map, mem.len(), access)?;
    let old = read_extended(mem, at, width, Extension::Sign);
    write(mem, at, width, h.get(operands.rs2));
    h.set(operands.rd, old);
    Ok(())
}
