//! RV64I: arithmetic, immediates, jumps, branches, loads and stores.

mod common;
use common::*;

const MIN: u64 = 1 << 63;
const MIN_32: u64 = 0xFFFF_FFFF_8000_0000;

#[test]
fn op() {
    let table = [
        (0, 0x00, u64::MAX, 2, 1),
        (0, 0x20, 1, 2, u64::MAX),
        (1, 0x00, 3, 64 + 63, MIN),
        (2, 0x00, MIN, 1, 1),
        (2, 0x00, 1, MIN, 0),
        (2, 0x00, 1, 1, 0),
        (3, 0x00, MIN, 1, 0),
        (3, 0x00, 1, MIN, 1),
        (4, 0x00, 0b1100, 0b1010, 0b0110),
        (5, 0x00, MIN, 64 + 63, 1),
        (5, 0x20, MIN, 64 + 63, u64::MAX),
        (5, 0x20, MIN >> 1, 62, 1),
        (6, 0x00, 0b1100, 0b1010, 0b1110),
        (7, 0x00, 0b1100, 0b1010, 0b1000),
    ];
    for (funct3, funct7, a, b, expected) in table {
        let word = r_word(0x33, funct3, funct7, 3, 1, 2);
        assert_eq!(
            result(word, a, b),
            expected,
            "funct3 {funct3}, funct7 {funct7:#x}"
        );
    }
}

#[test]
fn op_imm() {
    let table = [
        (0, -1, 0, u64::MAX),
        (0, -2048, 0, 0xFFFF_FFFF_FFFF_F800),
        (0, 2047, 1, 2048),
        (1, 63, 3, MIN),
        (2, -1, 0, 0),
        (2, -1, MIN, 1),
        (3, -1, 0, 1),
        (3, -1, u64::MAX, 0),
        (4, -1, 0b1010, !0b1010),
        (5, 63, MIN, 1),
        (5, 0x400 | 63, MIN, u64::MAX),
        (5, 0x400, MIN, MIN),
        (6, -2048, 1, 0xFFFF_FFFF_FFFF_F801),
        (7, -2048, u64::MAX, 0xFFFF_FFFF_FFFF_F800),
    ];
    for (funct3, immediate, a, expected) in table {
        let word = i_word(0x13, funct3, 3, 1, immediate);
        assert_eq!(result(word, a, 0), expected, "funct3 {funct3}, {immediate}");
    }
}

#[test]
fn op_32() {
    let table = [
        (0, 0x00, 0x7FFF_FFFF, 1, MIN_32),
        (0, 0x00, 0xABCD_0000_FFFF_FFFF, 0x1234_0000_0000_0001, 0),
        (0, 0x20, 0, 1, u64::MAX),
        (0, 0x20, MIN_32, 1, 0x7FFF_FFFF),
        (1, 0x00, 3, 32 + 31, MIN_32),
        (5, 0x00, MIN_32, 32 + 31, 1),
        (5, 0x00, 0x8000_0000, 0, MIN_32),
        (5, 0x20, 0x8000_0000, 31, u64::MAX),
        (5, 0x20, 0xFFFF_FFFF_4000_0000, 30, 1),
    ];
    for (funct3, funct7, a, b, expected) in table {
        let word = r_word(0x3B, funct3, funct7, 3, 1, 2);
        assert_eq!(
            result(word, a, b),
            expected,
            "funct3 {funct3}, funct7 {funct7:#x}"
        );
    }
}

#[test]
fn op_imm_32() {
    let table = [
        (0, -1, 0, u64::MAX),
        (0, 1, 0x7FFF_FFFF, MIN_32),
        (0, 0, 0xFFFF_FFFF_7FFF_FFFF, 0x7FFF_FFFF),
        (1, 31, 3, MIN_32),
        (5, 31, 0x8000_0000, 1),
        (5, 0x400 | 31, 0x8000_0000, u64::MAX),
    ];
    for (funct3, immediate, a, expected) in table {
        let word = i_word(0x1B, funct3, 3, 1, immediate);
        assert_eq!(result(word, a, 0), expected, "funct3 {funct3}, {immediate}");
    }
}

#[test]
fn upper_immediates() {
    assert_eq!(result(0x8000_01B7, 0, 0), MIN_32);
    assert_eq!(result(0x7FFF_F1B7, 0, 0), 0x7FFF_F000);
    assert_eq!(result(0x8000_0197, 0, 0), 0);
    assert_eq!(result(0x0000_1197, 0, 0), START + 0x1000);
}

#[test]
fn x0_stays_0() {
    let mut w = world(MACHINE);
    w.h.x[1] = 7;
    for word in [
        0x8000_0037,
        0x0000_1017,
        i_word(0x13, 0, 0, 1, 1),
        r_word(0x33, 0, 0, 0, 1, 1),
        csr(1, 0, 0x300, 1),
    ] {
        w.passes(word);
        assert_eq!(w.h.x[0], 0, "{word:#x}");
    }
}

#[test]
fn branches() {
    let (minus, one) = (u64::MAX, 1);
    let table = [
        (0, [false, false, true]),
        (1, [true, true, false]),
        (4, [true, false, false]),
        (5, [false, true, true]),
        (6, [false, true, false]),
        (7, [true, false, true]),
    ];
    for (funct3, taken) in table {
        for ((a, b), taken) in [(minus, one), (one, minus), (one, one)]
            .into_iter()
            .zip(taken)
        {
            let mut w = world(USER);
            (w.h.x[1], w.h.x[2]) = (a, b);
            w.clone().passes(branch(funct3, 1, 2, -4096));
            w.passes(branch(funct3, 1, 2, 4092));
            let expected = if taken { START + 4092 } else { START + 4 };
            assert_eq!(w.h.pc, expected, "funct3 {funct3}, {a:#x}, {b:#x}");
        }
    }
    let mut w = world(USER);
    w.passes(branch(0, 0, 0, -4096));
    assert_eq!(w.h.pc, START - 4096);
}

#[test]
fn a_misaligned_branch_traps_only_if_taken() {
    world(USER).traps(branch(0, 0, 0, 6), 0, START + 6);
    let mut w = world(USER);
    w.passes(branch(1, 0, 0, 6));
    assert_eq!(w.h.pc, START + 4);
}

#[test]
fn jumps() {
    for offset in [0, 4, -4, 0xF_FFFC, -0x10_0000, 0x800, 0x1000] {
        let mut w = world(USER);
        w.passes(jal(1, offset));
        assert_eq!(w.h.pc, START.wrapping_add(i64::from(offset) as u64));
        assert_eq!(w.h.x[1], START + 4);
    }
    world(USER).traps(jal(1, 2), 0, START + 2);
    let mut w = world(USER);
    w.h.x[1] = 0x1003;
    w.passes(jalr(1, 1, -2));
    assert_eq!((w.h.pc, w.h.x[1]), (0x1000, START + 4));
}

#[test]
fn pc_wraps() {
    let mut w = world(USER);
    w.h.pc = u64::MAX - 3;
    w.passes(jal(1, 8));
    assert_eq!((w.h.pc, w.h.x[1]), (4, 0));
}

#[test]
fn loads() {
    let mut w = world(MACHINE);
    w.place_double(0x200, 0xFEDC_BA98_F654_B2F0);
    w.h.x[1] = START + 0x210;
    for (funct3, expected) in [
        (0, 0xFFFF_FFFF_FFFF_FFF0),
        (1, 0xFFFF_FFFF_FFFF_B2F0),
        (2, 0xFFFF_FFFF_F654_B2F0),
        (3, 0xFEDC_BA98_F654_B2F0),
        (4, 0xF0),
        (5, 0xB2F0),
        (6, 0xF654_B2F0),
    ] {
        w.passes(load(funct3, 3, 1, -16));
        assert_eq!(w.h.x[3], expected, "funct3 {funct3}");
    }
}

#[test]
fn stores_change_their_own_bytes() {
    for (funct3, bytes) in [(0, 1), (1, 2), (2, 4), (3, 8)] {
        let mut w = world(MACHINE);
        w.mem.fill(0x55);
        w.h.x[1] = START + 0x200;
        w.h.x[2] = 0x0807_0605_0403_0201;
        let mut after = w.clone();
        after.h.pc += 4;
        for i in 0..bytes {
            after.mem[0x1F8 + i] = 1 + i as u8;
        }
        w.passes(store(funct3, 1, 2, -8));
        assert_eq!(w, after);
    }
}

#[test]
fn a_load_to_x0_still_faults() {
    world(MACHINE).traps(load(3, 0, 0, 0), 5, 0);
}
