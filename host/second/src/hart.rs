//! The hart: its registers, mode, ELP, ssp and CSRs, and the words in which a host hands it over.

use crate::csrs::field::{MPP, MPP_SHIFT};

pub const USER: u64 = 0;
pub const SUPERVISOR: u64 = 1;
pub const MACHINE: u64 = 3;

/// The bits of pc, tvec and epc that read zero.
pub const BELOW_FOUR: u64 = 3;
/// The bits of ssp that read zero.
pub const BELOW_EIGHT: u64 = 7;

/// The mode and ELP are whole words, so that a refused hart goes back exactly as it came.
#[derive(Clone, PartialEq, Eq, Debug)]
pub struct Hart {
    pub x: [u64; 32],
    pub pc: u64,
    pub mode: u64,
    pub elp: u64,
    pub ssp: u64,
    pub stvec: u64,
    /// The stored word: its SSE bit stays while menvcfg.SSE is 0.
    pub senvcfg: u64,
    pub sscratch: u64,
    pub sepc: u64,
    pub scause: u64,
    pub stval: u64,
    pub satp: u64,
    pub mstatus: u64,
    pub medeleg: u64,
    pub mtvec: u64,
    pub menvcfg: u64,
    pub mscratch: u64,
    pub mepc: u64,
    pub mcause: u64,
    pub mtval: u64,
    pub mseccfg: u64,
}

impl Hart {
    /// The hart of these words; `rest` is in the order of the boundary, which is that of the fields.
    pub fn from_words(x: &[u64; 32], rest: &[u64; 20]) -> Hart {
        Hart {
            x: *x,
            pc: rest[0],
            mode: rest[1],
            elp: rest[2],
            ssp: rest[3],
            stvec: rest[4],
            senvcfg: rest[5],
            sscratch: rest[6],
            sepc: rest[7],
            scause: rest[8],
            stval: rest[9],
            satp: rest[10],
            mstatus: rest[11],
            medeleg: rest[12],
            mtvec: rest[13],
            menvcfg: rest[14],
            mscratch: rest[15],
            mepc: rest[16],
            mcause: rest[17],
            mtval: rest[18],
            mseccfg: rest[19],
        }
    }

    /// The words of this hart, in the same order.
    pub fn to_words(&self) -> ([u64; 32], [u64; 20]) {
        let rest = [
            self.pc,
            self.mode,
            self.elp,
            self.ssp,
            self.stvec,
            self.senvcfg,
            self.sscratch,
            self.sepc,
            self.scause,
            self.stval,
            self.satp,
            self.mstatus,
            self.medeleg,
            self.mtvec,
            self.menvcfg,
            self.mscratch,
            self.mepc,
            self.mcause,
            self.mtval,
            self.mseccfg,
        ];
        (self.x, rest)
    }

    #[inline]
    pub(crate) fn get(&self, register: u8) -> u64 {
        self.x[usize::from(register)]
    }

    /// Writes a register; a write of x0 is lost.
    #[inline]
    pub(crate) fn set(&mut self, register: u8, value: u64) {
        if register != 0 {
            self.x[usize::from(register)] = value;
        }
    }

    /// The address of the next word in line.
    #[inline]
    pub(crate) fn next_pc(&self) -> u64 {
        self.pc.wrapping_add(4)
    }

    /// The mode that mstatus.MPP names.
    #[inline]
    pub(crate) fn mpp(&self) -> u64 {
        (self.mstatus & MPP) >> MPP_SHIFT
    }
}
