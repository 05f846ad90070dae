//! The shadow stack: enables, push, pop-check, the read of ssp, the swap, and the other Zimop words.

mod common;
use common::*;

const SHADOW: u64 = V | W | U | A | D;

#[test]
fn push_stores_below_ssp() {
    for (word, link) in [(PUSH_X1, 1), (PUSH_X5, 5)] {
        let mut w = shadowed(USER, SHADOW);
        w.h.x[link] = 0x1122_3344_5566_7788;
        let mut after = w.clone();
        after.place_double(0x17F8, 0x1122_3344_5566_7788);
        after.h.ssp = 0x57F8;
        after.h.pc += 4;
        w.passes(word);
        assert_eq!(w, after);
    }
}

#[test]
fn pop_check_compares() {
    for (word, link) in [(POP_X1, 1), (POP_X5, 5)] {
        let mut w = shadowed(USER, SHADOW);
        w.place_double(0x1800, 0x1122_3344_5566_7788);
        w.h.x[link] = 0x1122_3344_5566_7788;
        let mut after = w.clone();
        after.h.ssp = 0x5808;
        after.h.pc += 4;
        let mut passed = w.clone();
        passed.passes(word);
        assert_eq!(passed, after);
        w.h.x[link] ^= 1 << 63;
        w.traps(word, 18, 3);
    }
}

#[test]
fn pop_wraps() {
    let mut w = shadowed(SUPERVISOR, 0);
    w.h.ssp = u64::MAX - 7;
    w.map = vec![(1 << 27) - 1, leaf(2, V | W | A | D)];
    w.passes(POP_X1);
    assert_eq!(w.h.ssp, 0);
}

#[test]
fn the_mask_moves_the_access_but_not_ssp() {
    let mut w = shadowed(USER, SHADOW);
    w.h.senvcfg |= PMM_7;
    w.h.ssp = 0x5400_0000_0000_5800;
    w.h.x[1] = 9;
    w.passes(PUSH_X1);
    assert_eq!((w.h.ssp, w.double(0x17F8)), (0x5400_0000_0000_57F8, 9));
    w.passes(POP_X1);
    assert_eq!(w.h.ssp, 0x5400_0000_0000_5800);
    w.h.ssp = 0x5400_0000_0000_7000;
    w.traps(POP_X1, 15, 0x7000);
}

/// Off, the words are Zimop words: they reach no memory and write 0 to rd.
#[test]
fn off_they_write_0() {
    let off = [
        (MACHINE, SSE, SSE),
        (SUPERVISOR, 0, SSE),
        (USER, SSE, 0),
        (USER, 0, SSE),
    ];
    for (mode, menvcfg, senvcfg) in off {
        let mut w = world(mode);
        (w.h.menvcfg, w.h.senvcfg, w.h.ssp) = (menvcfg, senvcfg, 64);
        (w.h.x[1], w.h.x[5], w.h.x[10]) = (1, 5, 10);
        for word in [PUSH_X1, PUSH_X5, POP_X1, POP_X5] {
            let mut w = w.clone();
            let mut after = w.clone();
            after.h.pc += 4;
            w.passes(word);
            assert_eq!(w, after, "mode {mode}, {word:#x}");
        }
        w.passes(READ_SSP_X10);
        assert_eq!((w.h.x[10], w.h.ssp), (0, 64), "mode {mode}");
    }
}

/// MPRV does not lend M the shadow stack of another mode.
#[test]
fn push_in_m_with_mprv_is_a_zimop_word() {
    let mut w = shadowed(MACHINE, SHADOW);
    w.h.mstatus = STATUS | MPRV;
    let mut after = w.clone();
    after.h.pc += 4;
    w.passes(PUSH_X1);
    assert_eq!(w, after);
}

#[test]
fn supervisor_needs_menvcfg_only() {
    let mut w = shadowed(SUPERVISOR, V | W | A | D);
    w.h.senvcfg = 0;
    w.h.x[1] = 3;
    w.passes(PUSH_X1);
    assert_eq!((w.h.ssp, w.double(0x17F8)), (0x57F8, 3));
    w.passes(READ_SSP_X10);
    assert_eq!(w.h.x[10], 0x57F8);
}

#[test]
fn other_zimop_words_write_0() {
    let words = [
        0x81C0_4573,
        0xCDC0_C573,
        0xCDC1_4573,
        0xCDF0_4573,
        0x8200_4573,
        0xCE10_4573,
        0xCE20_4573,
        0xCE10_C573,
    ];
    for mode in [USER, SUPERVISOR, MACHINE] {
        for word in words {
            let mut w = shadowed(mode, SHADOW);
            w.h.x[10] = 7;
            let mut after = w.clone();
            after.h.x[10] = 0;
            after.h.pc += 4;
            w.passes(word);
            assert_eq!(w, after, "{word:#x}");
        }
    }
}

#[test]
fn swap_exchanges() {
    let mut w = shadowed(USER, SHADOW);
    w.place_double(0x1800, 0x1111_1111_8222_2222);
    w.h.x[10] = 0x5800;
    w.h.x[11] = 0x3333_3333_4444_4444;
    let mut double = w.clone();
    double.passes(swap(3, 12, 10, 11));
    assert_eq!(double.h.x[12], 0x1111_1111_8222_2222);
    assert_eq!(double.double(0x1800), 0x3333_3333_4444_4444);
    let mut single = w.clone();
    single.passes(swap(2, 12, 10, 11));
    assert_eq!(single.h.x[12], 0xFFFF_FFFF_8222_2222);
    assert_eq!(single.double(0x1800), 0x1111_1111_4444_4444);
    let mut same = w.clone();
    same.passes(swap(3, 10, 10, 10) | 3 << 25);
    assert_eq!(
        (same.h.x[10], same.double(0x1800)),
        (0x1111_1111_8222_2222, 0x5800)
    );
    w.passes(swap(3, 0, 10, 11));
    assert_eq!((w.h.x[0], w.double(0x1800)), (0, 0x3333_3333_4444_4444));
}

#[test]
fn swap_is_illegal_without_the_enables() {
    let word = swap(3, 12, 10, 11);
    for (mode, menvcfg, senvcfg) in [
        (SUPERVISOR, 0, SSE),
        (USER, SSE, 0),
        (USER, 0, SSE),
        (USER, 0, 0),
    ] {
        let mut w = shadowed(mode, SHADOW);
        (w.h.menvcfg, w.h.senvcfg) = (menvcfg, senvcfg);
        w.h.x[10] = 0x5801;
        w.traps(word, 2, u64::from(word));
    }
    let mut w = shadowed(SUPERVISOR, V | W | A | D);
    w.h.senvcfg = 0;
    w.h.x[10] = 0x5800;
    w.passes(word);
}

#[test]
fn swap_tval_is_transformed() {
    let mut w = shadowed(USER, SHADOW);
    w.h.senvcfg |= PMM_16;
    w.h.x[10] = 0x1234_0000_0000_7000;
    w.clone().traps(swap(3, 12, 10, 11), 15, 0x7000);
    w.h.satp = 0;
    w.h.x[10] = 0x1234_FFFF_0000_7001;
    w.traps(swap(3, 12, 10, 11), 7, 0x0000_FFFF_0000_7001);
}
