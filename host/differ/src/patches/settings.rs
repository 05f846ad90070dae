//! Changes of the setting in the middle of a run: by CSRRW, and by MRET and SRET, which may stay in their mode or go down.

use super::plan::Kind;
use super::writer::*;
use crate::program::TABLE;
use crate::state::{LPE, MPP_SHIFT, MPRV, MXR, PMM_SHIFT, SSE, SUM, SV39};
use formats::csr::field::{MPP, SPP};
use formats::csr::{MENVCFG, MEPC, MSECCFG, MSTATUS, SATP, SENVCFG, SEPC, SSTATUS};
use formats::*;

/// One bit of PMM: 0 becomes 2, and 2 becomes 0.
const MASKS: u64 = 2 << PMM_SHIFT;

/// What M turns, and what S does.
const MACHINE: [(u16, u64); 11] = [
    (MSTATUS, MPRV),
    (MSTATUS, MXR),
    (MSTATUS, SUM),
    (MSTATUS, SUM | MXR),
    (MENVCFG, LPE),
    (MENVCFG, MASKS | SSE),
    (SENVCFG, SSE),
    (SENVCFG, LPE | MASKS),
    (SATP, SV39),
    (SATP, SV39),
    (MSECCFG, MASKS),
];
const SUPERVISOR: [(u16, u64); 4] = [
    (SSTATUS, MXR),
    (SSTATUS, SUM),
    (SENVCFG, SSE | LPE),
    (SENVCFG, MASKS),
];

impl Writer<'_> {
    /// A change of the setting, in M or S.
    pub fn setting(&mut self) {
        match self.mode {
            1 if self.plan.kind == Kind::Turning && self.random.chance(60) => self.turn_satp(),
            _ if self.random.chance(25) => self.come_back(),
            mode => {
                let all: &[(u16, u64)] = if mode == 3 { &MACHINE } else { &SUPERVISOR };
                let (csr, bits) = self.random.pick(all);
                self.turn_and_back(csr, bits);
            }
        }
    }

    /// Turns Sv39 on or off, and perhaps another code on.
    pub fn turn_satp(&mut self) {
        self.turns += 1;
        self.turn(SATP, SV39);
    }

    fn turn(&mut self, csr: u16, bits: u64) {
        let constant = self.constant(TURNED, bits);
        self.words.push(constant);
        self.write(csr);
    }

    fn write(&mut self, csr: u16) {
        self.words.extend([
            zicsr(2, VALUE, csr, 0),
            r(OP, 4, 0, VALUE, VALUE, TURNED),
            zicsr(1, 0, csr, VALUE),
        ]);
    }

    /// Turns them and turns them back. Between the two memory may be out of reach, or another: sometimes an access made before is made again.
    fn turn_and_back(&mut self, csr: u16, bits: u64) {
        let glance = self.random.chance(50).then(|| self.glance());
        self.warm();
        self.words.extend(glance);
        self.turn(csr, bits);
        let before = std::mem::replace(&mut self.plain, true);
        self.warm();
        let words = 1 + self.random.below(6);
        self.filler(words);
        self.words.extend(glance);
        self.plain = before;
        self.write(csr);
    }

    /// A load or a store of a page of data, or a load of the code by another name, where it has one all along.
    fn glance(&mut self) -> u32 {
        let named = !matches!(self.plan.kind, Kind::Physical | Kind::Turning);
        let at: &[u32] = if named {
            &[TABLE, CONSTANTS, OPEN, STACK]
        } else {
            &[TABLE, CONSTANTS]
        };
        let load = i(LOAD, 3, 15, self.random.pick(at), 0);
        let store = s(STORE, 3, TABLE, 0, 8);
        self.random.pick(&[load, load, store])
    }

    /// A return that stays in the mode: MRET with MPP M, or SRET with SPP S. It leaves U there, and what MPRV wants is put back.
    fn come_back(&mut self) {
        let (epc, status, field, back) = match self.mode {
            3 => (MEPC, MSTATUS, MPP, MRET),
            _ => (SEPC, SSTATUS, SPP, SRET),
        };
        let moved = self.plan.kind == Kind::Moved && self.mode == 3;
        let below = if moved {
            self.plan.below << MPP_SHIFT
        } else {
            0
        };
        let constants = [self.constant(TURNED, field), self.constant(BITS, below)];
        self.words.extend(constants);
        let at = self.reserve(2);
        self.words
            .extend([zicsr(1, 0, epc, VALUE), zicsr(2, 0, status, TURNED)]);
        self.warm();
        self.words.push(back);
        let behind = self.here() - self.offset(at);
        self.words[at] = u(AUIPC, VALUE, 0);
        self.words[at + 1] = i(OP_IMM, 0, VALUE, VALUE, behind);
        self.words.push(zicsr(2, 0, status, BITS));
    }

    /// Goes down to where the plan says, by the name that the code has there.
    pub fn descend(&mut self) {
        let by_mret = self.mode == 3;
        let (epc, status, back, base) = match by_mret {
            true => (MEPC, MSTATUS, MRET, self.code),
            false => (SEPC, SSTATUS, SRET, self.again),
        };
        // MPP is what it should be, SPP may not.
        let field = if by_mret { 0 } else { SPP };
        let at = self.reserve(1);
        let field = self.constant(TURNED, field);
        self.words
            .extend([field, zicsr(1, 0, epc, VALUE), zicsr(3, 0, status, TURNED)]);
        self.warm();
        self.words.push(back);
        self.words[at] = self.constant(VALUE, base.wrapping_add(self.here()));
        self.mode = self.plan.below;
        self.alone = !by_mret;
    }
}
