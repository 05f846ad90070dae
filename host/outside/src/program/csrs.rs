//! CSR instructions for the comparison with QEMU: reads of CSRs that both sides have, and writes of
//! values that both take alike.
//!
//! Not written, since the two may differ there and each be right: epc with bits 1:0 set and tvec in
//! another mode than direct (the hart has no such bits), MPP 2, bits that docs/HART.md does not
//! name (5.20), and satp, menvcfg, senvcfg, mseccfg and ssp, which QEMU 7.2 has otherwise or not at all.
//! Below a CSR's mode each access must be illegal on both sides.

use super::body::{holder, source, target};
use super::{handler_address, DELEGATED, M_HANDLERS, S_HANDLERS};
use crate::encode::*;
use formats::csr::field::{MIE, MPIE, MPP, MPP_SHIFT, MPRV, MXR, SIE, SPIE, SPP, SUM};
use formats::csr::*;
use formats::random::Random;

/// What may be written to a CSR.
#[derive(Clone, Copy)]
enum Write {
    Nothing,
    Anything,
    MultiplesOfFour,
    /// Any choice of these bits.
    Bits(i32),
    Handlers([u64; 2]),
}

const CSRS: [(u16, Write); 19] = [
    (SSTATUS, Write::Bits((SIE | SPIE | SPP | SUM | MXR) as i32)),
    (STVEC, Write::Handlers(S_HANDLERS)),
    (SSCRATCH, Write::Anything),
    (SEPC, Write::MultiplesOfFour),
    (SCAUSE, Write::Anything),
    (STVAL, Write::Anything),
    (SATP, Write::Nothing),
    // MPP is seen to below.
    (
        MSTATUS,
        Write::Bits((SIE | MIE | SPIE | MPIE | SPP | MPRV | SUM | MXR) as i32),
    ),
    (MEDELEG, Write::Bits(DELEGATED)),
    (MTVEC, Write::Handlers(M_HANDLERS)),
    (MSCRATCH, Write::Anything),
    (MEPC, Write::MultiplesOfFour),
    (MCAUSE, Write::Anything),
    (MTVAL, Write::Anything),
    (0x000, Write::Anything), // the rest is on neither side
    (0x1ff, Write::Anything),
    (0x3ff, Write::Anything),
    (0x5ff, Write::Anything),
    (0x9ff, Write::Anything),
];

/// The words of one access, with those that make the value to be written.
pub fn access(random: &mut Random) -> Vec<u32> {
    let (address, write) = random.pick(&CSRS);
    let rd = target(random);
    if random.once_in(3) {
        return vec![csr(random.pick(&[2, 3, 6, 7]), rd, address, 0)];
    }
    let (operation, number) = (1 + random.below(3) as u32, random.below(32) as u32);
    let by_number = random.once_in(3);
    match write {
        Write::Nothing => vec![csr_read(rd, address)],
        Write::Handlers(handlers) => {
            let register = holder(random);
            let [high, low, sum] = handler_address(register, random.pick(&handlers));
            vec![high, low, sum, csr(1, rd, address, register)]
        }
        Write::Anything if by_number => vec![csr(operation | 4, rd, address, number)],
        Write::Anything => vec![csr(operation, rd, address, source(random))],
        Write::MultiplesOfFour if by_number => vec![csr(operation | 4, rd, address, number & 28)],
        Write::MultiplesOfFour => {
            let register = target(random);
            vec![
                i_type(OP_IMM, 7, register, source(random), -4),
                csr(operation, rd, address, register),
            ]
        }
        Write::Bits(bits) if by_number => {
            vec![csr(operation | 4, rd, address, number & bits as u32)]
        }
        Write::Bits(bits) => {
            let (register, value) = (
                target(random),
                random.word() as i32 & bits | previous(random, address, operation),
            );
            let [high, low] = constant(register, value);
            vec![high, low, csr(operation, rd, address, register)]
        }
    }
}

/// MPP, for a write of mstatus: each mode for CSRRW, and all or no bits for the others, which so
/// never make a 2 of it.
fn previous(random: &mut Random, address: u16, operation: u32) -> i32 {
    match (address, operation) {
        (MSTATUS, 1) => random.pick(&[0, 1 << MPP_SHIFT, MPP as i32]),
        (MSTATUS, _) => random.pick(&[0, MPP as i32]),
        _ => 0,
    }
}
