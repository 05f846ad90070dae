//! Landing pads: when ELP is set, what passes the check, its place in the order, and the enables.

mod common;
use common::*;

/// A hart that expects a pad, with pads on in its mode only.
fn expecting(mode: u64) -> World {
    let mut w = world(mode);
    w.h.elp = 1;
    match mode {
        USER => w.h.senvcfg = LPE,
        SUPERVISOR => w.h.menvcfg = LPE,
        _ => w.h.mseccfg = MLPE,
    }
    w
}

#[test]
fn each_mode_has_its_enable() {
    for mode in [USER, SUPERVISOR, MACHINE] {
        expecting(mode).traps(NOP, 18, 2);
        let mut w = expecting(mode);
        match mode {
            USER => (w.h.senvcfg, w.h.menvcfg, w.h.mseccfg) = (0, LPE, MLPE),
            SUPERVISOR => (w.h.senvcfg, w.h.menvcfg, w.h.mseccfg) = (LPE, 0, MLPE),
            _ => (w.h.senvcfg, w.h.menvcfg, w.h.mseccfg) = (LPE, LPE, 0),
        }
        w.passes(NOP);
        assert_eq!(w.h.elp, 1, "the skipped check leaves ELP");
    }
}

#[test]
fn jalr_sets_elp_by_rs1() {
    for rs1 in 0..32 {
        for (lpe, old, expected) in [
            (LPE, 0, ![1, 5, 7].contains(&rs1)),
            (0, 0, false),
            (0, 1, false),
        ] {
            let mut w = world(USER);
            (w.h.senvcfg, w.h.elp) = (lpe, old);
            w.passes(jalr(1, rs1, 0));
            assert_eq!(w.h.elp, u64::from(expected), "x{rs1}, LPE {lpe}, ELP {old}");
        }
    }
}

#[test]
fn jal_and_branches_leave_elp() {
    for word in [jal(1, 8), branch(0, 0, 0, 8), NOP] {
        let mut w = world(USER);
        w.h.senvcfg = LPE;
        w.passes(word);
        assert_eq!(w.h.elp, 0);
        let mut w = world(USER);
        w.h.elp = 1;
        w.passes(word);
        assert_eq!(w.h.elp, 1);
    }
}

#[test]
fn labels() {
    let table = [
        (0x0000_0017, 0, true),
        (0x0000_0017, u64::MAX, true),
        (0xFFFF_F017, 0xFFFF_F000, true),
        (0xFFFF_F017, 0x1234_5678_FFFF_FABC, true),
        (0x8000_0017, 0xFFFF_FFFF_8000_0000, true),
        (0x8000_0017, 0x0000_0000_0000_0000, false),
        (0x0000_1017, 0x0000_0000_0000_0FFF, false),
        (0x0000_1017, 0x0000_0001_0000_0000, false),
        (0x0000_1097, 0x0000_0000_0000_1000, false),
        (0x0000_0097, 0, false),
        (0x0000_0037, 0, false),
    ];
    for (word, x7, passes) in table {
        let mut w = expecting(USER);
        w.h.x[7] = x7;
        if passes {
            let mut after = w.clone();
            (after.h.elp, after.h.pc) = (0, START + 4);
            w.passes(word);
            assert_eq!(w, after);
        } else {
            w.traps(word, 18, 2);
        }
    }
}

#[test]
fn the_check_comes_before_illegal_instruction() {
    for word in [0, MRET, ECALL, EBREAK, csr(1, 0, 0xFFF, 0)] {
        expecting(USER).traps(word, 18, 2);
    }
}

#[test]
fn the_check_comes_after_fetch_faults() {
    let mut w = expecting(USER);
    w.h.pc = 0;
    let after = w.after_trap_to_machine(1, 0);
    assert_eq!(w.step(), trapped(1, 1));
    assert_eq!(w, after);
    assert_eq!(w.h.mstatus & MPELP, MPELP);
}

#[test]
fn a_failed_check_can_be_delegated() {
    let mut w = expecting(USER);
    w.h.medeleg = 1 << 18;
    assert_eq!(w.word(NOP), trapped(1, 18));
    assert_eq!((w.h.mode, w.h.scause, w.h.stval), (SUPERVISOR, 18, 2));
    assert_eq!((w.h.mstatus & SPELP, w.h.elp), (SPELP, 0));
}

#[test]
fn without_expectation_nothing_is_checked() {
    let mut w = expecting(USER);
    w.h.elp = 0;
    w.passes(0x0000_1017);
    w.passes(NOP);
}

/// ELP that stayed while pads were off is checked once they are on.
#[test]
fn turning_pads_on_wakes_the_check() {
    let mut w = world(MACHINE);
    w.h.elp = 1;
    w.h.x[1] = MLPE;
    w.passes(csr(1, 0, 0x747, 1));
    assert_eq!(w.h.elp, 1);
    w.traps(NOP, 18, 2);
}

#[test]
fn a_call_through_a_register_and_its_pad() {
    let mut w = world(USER);
    w.h.senvcfg = LPE;
    w.h.x[10] = START + 0x10;
    w.h.x[7] = 0x0004_2000;
    w.place(0, &[jalr(1, 10, 0), NOP, NOP, ECALL]);
    w.place(0x10, &[0x0004_2017, jalr(0, 1, 0)]);
    assert_eq!(w.run(10), trapped(6, 8));
    assert_eq!(w.h.mepc, START + 0xC);
}
