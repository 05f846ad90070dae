//! Traps and the returns from them: where a trap goes, what it saves, and what MRET and SRET restore.

use crate::csrs::field::*;
use crate::hart::{Hart, MACHINE, SUPERVISOR, USER};
use crate::pads;

pub const INSTRUCTION_MISALIGNED: u64 = 0;
pub const FETCH_ACCESS_FAULT: u64 = 1;
pub const ILLEGAL_INSTRUCTION: u64 = 2;
pub const BREAKPOINT: u64 = 3;
pub const LOAD_MISALIGNED: u64 = 4;
pub const LOAD_ACCESS_FAULT: u64 = 5;
pub const STORE_MISALIGNED: u64 = 6;
pub const STORE_ACCESS_FAULT: u64 = 7;
pub const ECALL_FROM_USER: u64 = 8;
pub const ECALL_FROM_SUPERVISOR: u64 = 9;
pub const ECALL_FROM_MACHINE: u64 = 11;
pub const FETCH_PAGE_FAULT: u64 = 12;
pub const LOAD_PAGE_FAULT: u64 = 13;
pub const STORE_PAGE_FAULT: u64 = 15;
pub const SOFTWARE_CHECK: u64 = 18;

/// The tval of a software check: which of the two checks failed.
pub const LANDING_PAD_FAULT: u64 = 2;
pub const SHADOW_STACK_FAULT: u64 = 3;

/// Why an instruction was not carried out.
#[derive(Clone, Copy, PartialEq, Eq, Debug)]
pub struct Trap {
    pub cause: u64,
    pub tval: u64,
}

impl Trap {
    pub fn illegal(word: u32) -> Trap {
        Trap {
            cause: ILLEGAL_INSTRUCTION,
            tval: u64::from(word),
        }
    }

    pub fn breakpoint(pc: u64) -> Trap {
        Trap {
            cause: BREAKPOINT,
            tval: pc,
        }
    }

    /// ECALL: the cause names the mode that called.
    pub fn environment_call(mode: u64) -> Trap {
        let cause = match mode {
            USER => ECALL_FROM_USER,
            SUPERVISOR => ECALL_FROM_SUPERVISOR,
            _ => ECALL_FROM_MACHINE,
        };
        Trap { cause, tval: 0 }
    }
}

/// Delivers a trap: to S if it came from below M and medeleg gives its cause away, else to M.
pub fn deliver(h: &mut Hart, trap: Trap) {
    let delegated = h.medeleg >> trap.cause & 1 == 1;
    if h.mode != MACHINE && delegated {
        deliver_to_supervisor(h, trap);
    } else {
        deliver_to_machine(h, trap);
    }
    h.elp = 0;
}

fn deliver_to_supervisor(h: &mut Hart, trap: Trap) {
    h.sepc = h.pc;
    h.scause = trap.cause;
    h.stval = trap.tval;
    put(&mut h.mstatus, SPP, h.mode == SUPERVISOR);
    put(&mut h.mstatus, SPELP, h.elp == 1);
    let enabled = h.mstatus & SIE != 0;
    put(&mut h.mstatus, SPIE, enabled);
    put(&mut h.mstatus, SIE, false);
    h.mode = SUPERVISOR;
    h.pc = h.stvec;
}

fn deliver_to_machine(h: &mut Hart, trap: Trap) {
    h.mepc = h.pc;
    h.mcause = trap.cause;
    h.mtval = trap.tval;
    h.mstatus = h.mstatus & !MPP | h.mode << MPP_SHIFT;
    put(&mut h.mstatus, MPELP, h.elp == 1);
    let enabled = h.mstatus & MIE != 0;
    put(&mut h.mstatus, MPIE, enabled);
    put(&mut h.mstatus, MIE, false);
    h.mode = MACHINE;
    h.pc = h.mtvec;
}

/// MRET, which only M may do.
pub fn mret(h: &mut Hart, word: u32) -> Result<(), Trap> {
    if h.mode != MACHINE {
        return Err(Trap::illegal(word));
    }
    let saved_enable = h.mstatus & MPIE != 0;
    put(&mut h.mstatus, MIE, saved_enable);
    put(&mut h.mstatus, MPIE, true);
    let new_mode = h.mpp();
    h.mstatus &= !MPP;
    enter(h, new_mode, MPELP);
    h.pc = h.mepc;
    Ok(())
}

/// SRET, which S and M may do.
pub fn sret(h: &mut Hart, word: u32) -> Result<(), Trap> {
    if h.mode == USER {
        return Err(Trap::illegal(word));
    }
    let saved_enable = h.mstatus & SPIE != 0;
    put(&mut h.mstatus, SIE, saved_enable);
    put(&mut h.mstatus, SPIE, true);
    let new_mode = if h.mstatus & SPP != 0 {
        SUPERVISOR
    } else {
        USER
    };
    h.mstatus &= !SPP;
    enter(h, new_mode, SPELP);
    h.pc = h.sepc;
    Ok(())
}

/// What both returns do on the way to the new mode. The saved ELP counts only where pads are on.
fn enter(h: &mut Hart, new_mode: u64, saved_elp: u64) {
    h.mode = new_mode;
    let expected = h.mstatus & saved_elp != 0 && pads::enabled(h);
    h.elp = u64::from(expected);
    h.mstatus &= !saved_elp;
    if new_mode != MACHINE {
        h.mstatus &= !MPRV;
    }
}

/// Sets or clears one bit.
fn put(word: &mut u64, bit: u64, value: bool) {
    if value {
        *word |= bit;
    } else {
        *word &= !bit;
    }
}
