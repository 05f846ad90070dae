//! Traps and returns: delegation, what is saved, and what MRET and SRET restore.

mod common;
use common::*;

#[test]
fn calls_and_breakpoints() {
    for (mode, cause) in [(USER, 8), (SUPERVISOR, 9), (MACHINE, 11)] {
        let mut w = world(mode);
        w.h.mtval = 5;
        w.h.mtvec = 0x9000_0000;
        w.clone().traps(ECALL, cause, 0);
        w.traps(EBREAK, 3, START);
    }
}

#[test]
fn a_trap_to_m_saves_and_clears() {
    for elp in [0, 1] {
        let mut w = world(SUPERVISOR);
        w.h.elp = elp;
        w.h.mtvec = 0x9000_0000;
        w.h.mstatus = STATUS | SIE | MIE | SPP | MPRV | SUM | MXR | SPELP;
        w.traps(ECALL, 9, 0);
        let saved_elp = if elp == 1 { MPELP } else { 0 };
        let status = STATUS | SIE | MPIE | SPP | MPP_S | MPRV | SUM | MXR | SPELP | saved_elp;
        assert_eq!(w.h.mstatus, status);
        assert_eq!((w.h.mode, w.h.pc, w.h.mepc), (MACHINE, 0x9000_0000, START));
        assert_eq!((w.h.elp, w.h.mcause), (0, 9));
    }
}

#[test]
fn a_trap_to_s_saves_and_clears() {
    for (mode, cause, spp) in [(USER, 8, 0), (SUPERVISOR, 9, SPP)] {
        let mut w = world(mode);
        w.h.elp = 1;
        w.h.medeleg = 1 << cause;
        w.h.stvec = 0x9000_0000;
        w.h.mstatus = STATUS | SIE | MIE | MPP_M | MPRV | MPELP;
        w.h.stval = 5;
        let mut after = w.clone();
        after.h.mstatus = STATUS | MIE | SPIE | MPP_M | MPRV | MPELP | SPELP | spp;
        (after.h.sepc, after.h.scause, after.h.stval) = (START, cause, 0);
        (after.h.pc, after.h.mode, after.h.elp) = (0x9000_0000, SUPERVISOR, 0);
        assert_eq!(w.word(ECALL), trapped(1, cause));
        assert_eq!(w, after);
    }
}

#[test]
fn a_trap_to_s_clears_the_saved_bits_too() {
    let mut w = world(USER);
    w.h.medeleg = 1 << 8;
    w.h.mstatus = STATUS | SPIE | SPP | SPELP;
    w.word(ECALL);
    assert_eq!(w.h.mstatus, STATUS);
}

#[test]
fn m_delegates_nothing_of_its_own() {
    let mut w = world(MACHINE);
    w.h.medeleg = 0x4_B3FF;
    w.traps(0, 2, 0);
}

#[test]
fn each_cause_has_its_bit() {
    for (word, cause) in [(0, 2), (EBREAK, 3), (load(3, 1, 0, 1), 4), (jal(0, 2), 0)] {
        let mut w = world(USER);
        w.h.medeleg = 0x4_B3FF & !(1 << cause);
        w.word(word);
        assert_eq!((w.h.mode, w.h.mcause), (MACHINE, cause));
        let mut w = world(USER);
        w.h.medeleg = 1 << cause;
        w.word(word);
        assert_eq!((w.h.mode, w.h.scause), (SUPERVISOR, cause));
    }
}

#[test]
fn returns_need_their_mode() {
    world(USER).traps(MRET, 2, u64::from(MRET));
    world(SUPERVISOR).traps(MRET, 2, u64::from(MRET));
    world(USER).traps(SRET, 2, u64::from(SRET));
}

#[test]
fn mret_restores() {
    for (mpp, mode) in [(0, USER), (MPP_S, SUPERVISOR), (MPP_M, MACHINE)] {
        for (mpie, mie) in [(0, 0), (MPIE, MIE)] {
            let mut w = world(MACHINE);
            w.h.mepc = 0x1234;
            w.h.mstatus = STATUS | mpp | mpie | (MIE ^ mie) | SPELP | MPELP | MPRV | SIE | SPP;
            let mut after = w.clone();
            let kept = STATUS | SPELP | SIE | SPP | MPIE | mie;
            after.h.mstatus = if mode == MACHINE { kept | MPRV } else { kept };
            (after.h.pc, after.h.mode) = (0x1234, mode);
            w.passes(MRET);
            assert_eq!(w, after);
        }
    }
}

#[test]
fn sret_restores() {
    for from in [SUPERVISOR, MACHINE] {
        for (spp, mode) in [(0, USER), (SPP, SUPERVISOR)] {
            for (spie, sie) in [(0, 0), (SPIE, SIE)] {
                let mut w = world(from);
                w.h.sepc = 0x1234;
                w.h.mstatus = STATUS | spp | spie | (SIE ^ sie) | SPELP | MPELP | MPRV | MIE;
                w.h.mstatus |= MPP_M;
                let mut after = w.clone();
                after.h.mstatus = STATUS | MPELP | MIE | MPP_M | SPIE | sie;
                (after.h.pc, after.h.mode) = (0x1234, mode);
                w.passes(SRET);
                assert_eq!(w, after);
            }
        }
    }
}

/// The saved ELP comes back exactly if the new mode has pads on; whether the old one has is nothing.
#[test]
fn returns_restore_elp_by_the_new_mode() {
    let table = [
        (MRET, 0, 0, LPE, MLPE, 0),
        (MRET, 0, LPE, 0, 0, 1),
        (MRET, MPP_S, 0, LPE, 0, 1),
        (MRET, MPP_S, LPE, 0, MLPE, 0),
        (MRET, MPP_M, 0, 0, MLPE, 1),
        (MRET, MPP_M, LPE, LPE, 0, 0),
        (SRET, 0, LPE, 0, 0, 1),
        (SRET, 0, 0, LPE, MLPE, 0),
        (SRET, SPP, 0, LPE, 0, 1),
        (SRET, SPP, LPE, 0, MLPE, 0),
    ];
    for (word, previous, senvcfg, menvcfg, mseccfg, elp) in table {
        let saved = if word == MRET { MPELP } else { SPELP };
        for bit in [0, saved] {
            let mut w = world(MACHINE);
            (w.h.senvcfg, w.h.menvcfg, w.h.mseccfg) = (senvcfg, menvcfg, mseccfg);
            w.h.mstatus = STATUS | previous | bit;
            w.passes(word);
            assert_eq!(
                w.h.elp,
                if bit == 0 { 0 } else { elp },
                "{word:#x} {previous:#x}"
            );
            assert_eq!(w.h.mstatus & (MPELP | SPELP), 0);
        }
    }
}

/// A return clears an ELP that was still set while pads were off.
#[test]
fn returns_drop_an_old_elp() {
    let mut w = world(MACHINE);
    w.h.elp = 1;
    w.passes(MRET);
    assert_eq!(w.h.elp, 0);
}
