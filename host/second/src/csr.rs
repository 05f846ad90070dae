//! The CSRs: which address names which, who may touch it, what a read gives and what a write leaves.

use crate::csrs as address;
use crate::csrs::field::*;
use crate::decode::{CsrOperands, CsrOperation};
use crate::hart::{Hart, BELOW_EIGHT, BELOW_FOUR};
use crate::shadow;
use crate::trap::Trap;

#[derive(Clone, Copy, PartialEq, Eq, Debug)]
enum Csr {
    Ssp,
    Sstatus,
    Stvec,
    Senvcfg,
    Sscratch,
    Sepc,
    Scause,
    Stval,
    Satp,
    Mstatus,
    Medeleg,
    Mtvec,
    Menvcfg,
    Mscratch,
    Mepc,
    Mcause,
    Mtval,
    Mseccfg,
}

fn named(number: u16) -> Option<Csr> {
    Some(match number {
        address::SSP => Csr::Ssp,
        address::SSTATUS => Csr::Sstatus,
        address::STVEC => Csr::Stvec,
        address::SENVCFG => Csr::Senvcfg,
        address::SSCRATCH => Csr::Sscratch,
        address::SEPC => Csr::Sepc,
        address::SCAUSE => Csr::Scause,
        address::STVAL => Csr::Stval,
        address::SATP => Csr::Satp,
        address::MSTATUS => Csr::Mstatus,
        address::MEDELEG => Csr::Medeleg,
        address::MTVEC => Csr::Mtvec,
        address::MENVCFG => Csr::Menvcfg,
        address::MSCRATCH => Csr::Mscratch,
        address::MEPC => Csr::Mepc,
        address::MCAUSE => Csr::Mcause,
        address::MTVAL => Csr::Mtval,
        address::MSECCFG => Csr::Mseccfg,
        _ => return None,
    })
}

/// A CSR instruction. Set and Clear with source x0 or number 0 do not write.
pub fn access(
    h: &mut Hart,
    operation: CsrOperation,
    operands: CsrOperands,
    word: u32,
) -> Result<(), Trap> {
    let csr = reached(h, operands.address).ok_or(Trap::illegal(word))?;
    let old = read(h, csr);
    let source = if operands.immediate {
        u64::from(operands.source)
    } else {
        h.get(operands.source)
    };
    match operation {
        CsrOperation::Write => write(h, csr, source),
        CsrOperation::Set if operands.source != 0 => write(h, csr, old | source),
        CsrOperation::Clear if operands.source != 0 => write(h, csr, old & !source),
        CsrOperation::Set | CsrOperation::Clear => {}
    }
    h.set(operands.rd, old);
    Ok(())
}

/// The CSR at this address, if there is one and the current mode may touch it.
fn reached(h: &Hart, address: u16) -> Option<Csr> {
    let lowest_mode = u64::from(address >> 8 & 3);
    let csr = named(address)?;
    let allowed = h.mode >= lowest_mode && (csr != Csr::Ssp || shadow::reachable(h));
    allowed.then_some(csr)
}

fn read(h: &Hart, csr: Csr) -> u64 {
    match csr {
        Csr::Ssp => h.ssp,
        Csr::Sstatus => h.mstatus & (SSTATUS_FIELDS | UXL),
        Csr::Stvec => h.stvec,
        Csr::Senvcfg => h.senvcfg & senvcfg_fields(h),
        Csr::Sscratch => h.sscratch,
        Csr::Sepc => h.sepc,
        Csr::Scause => h.scause,
        Csr::Stval => h.stval,
        Csr::Satp => h.satp,
        Csr::Mstatus => h.mstatus,
        Csr::Medeleg => h.medeleg,
        Csr::Mtvec => h.mtvec,
        Csr::Menvcfg => h.menvcfg,
        Csr::Mscratch => h.mscratch,
        Csr::Mepc => h.mepc,
        Csr::Mcause => h.mcause,
        Csr::Mtval => h.mtval,
        Csr::Mseccfg => h.mseccfg,
    }
}

fn write(h: &mut Hart, csr: Csr, value: u64) {
    match csr {
        Csr::Ssp => h.ssp = value & !BELOW_EIGHT,
        Csr::Sstatus => h.mstatus = replaced(h.mstatus, value, SSTATUS_FIELDS),
        Csr::Stvec => h.stvec = value & !BELOW_FOUR,
        Csr::Senvcfg => h.senvcfg = with_masking(h.senvcfg, value, senvcfg_fields(h)),
        Csr::Sscratch => h.sscratch = value,
        Csr::Sepc => h.sepc = value & !BELOW_FOUR,
        Csr::Scause => h.scause = value,
        Csr::Stval => h.stval = value,
        Csr::Satp => h.satp = satp_after(h.satp, value),
        Csr::Mstatus => h.mstatus = mstatus_after(h.mstatus, value),
        Csr::Medeleg => h.medeleg = value & MEDELEG_FIELDS,
        Csr::Mtvec => h.mtvec = value & !BELOW_FOUR,
        Csr::Menvcfg => h.menvcfg = with_masking(h.menvcfg, value, ENVCFG_FIELDS),
        Csr::Mscratch => h.mscratch = value,
        Csr::Mepc => h.mepc = value & !BELOW_FOUR,
        Csr::Mcause => h.mcause = value,
        Csr::Mtval => h.mtval = value,
        Csr::Mseccfg => h.mseccfg = with_masking(h.mseccfg, value, MSECCFG_FIELDS),
    }
}

/// What software sees of senvcfg: its SSE only while menvcfg.SSE is 1.
fn senvcfg_fields(h: &Hart) -> u64 {
    if h.menvcfg & SSE != 0 {
        ENVCFG_FIELDS
    } else {
        ENVCFG_FIELDS & !SSE
    }
}

/// The old word with these fields taken from the written value.
fn replaced(old: u64, value: u64, fields: u64) -> u64 {
    old & !fields | value & fields
}

/// The reserved mode 2 in MPP keeps the old MPP.
fn mstatus_after(old: u64, value: u64) -> u64 {
    let fields = if (value & MPP) >> MPP_SHIFT == 2 {
        MSTATUS_FIELDS & !MPP
    } else {
        MSTATUS_FIELDS
    };
    replaced(old, value, fields)
}

/// The reserved setting 1 in PMM keeps the old PMM.
fn with_masking(old: u64, value: u64, fields: u64) -> u64 {
    let fields = if (value & PMM) >> PMM_SHIFT == 1 {
        fields & !PMM
    } else {
        fields
    };
    replaced(old, value, fields)
}

/// Only MODE is kept; a MODE that is neither Bare nor Sv39 changes nothing.
fn satp_after(old: u64, value: u64) -> u64 {
    match value >> SATP_MODE_SHIFT << SATP_MODE_SHIFT {
        mode @ (BARE | SV39) => mode,
        _ => old,
    }
}
