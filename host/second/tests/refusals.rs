//! Refusals 1 to 4: each bad value with its nearest good one, their order, and that nothing changes.

mod common;
use common::*;
use second::Hart;

const FRESH: [u64; 20] = {
    let mut rest = [0; 20];
    rest[0] = START;
    rest[1] = MACHINE;
    rest[11] = STATUS;
    rest
};

const PMM_1: u64 = 1 << 32;

/// Each word of `rest` with values that a hart can hold and values that it can't.
const WORDS: [(usize, &[u64], &[u64]); 20] = [
    (0, &[0, 4, u64::MAX - 3], &[1, 2, 3, START + 2]),
    (1, &[0, 1, 3], &[2, 4, 5, u64::MAX]),
    (2, &[0, 1], &[2, 3, u64::MAX]),
    (3, &[0, 8, u64::MAX - 7], &[1, 2, 4, 12]),
    (4, &[4, u64::MAX - 3], &[1, 2, 3]),
    (
        5,
        &[LPE | SSE, PMM_7, PMM_16, SSE],
        &[PMM_1, 1, 2, 1 << 4, 1 << 34, MLPE],
    ),
    (6, &[1, u64::MAX], &[]),
    (7, &[4, u64::MAX - 3], &[1, 2]),
    (8, &[1, u64::MAX], &[]),
    (9, &[1, u64::MAX], &[]),
    (
        10,
        &[0, SV39],
        &[1, SV39 | 1, 9 << 60, 1 << 60, SV39 | 1 << 44],
    ),
    (
        11,
        &[
            STATUS,
            STATUS | MPP_S,
            STATUS | MPP_M,
            STATUS | 0x200_008E_19AA,
        ],
        &[
            0,
            STATUS | 2 << 11,
            STATUS | 1 << 32,
            2 << 32,
            2 << 34,
            STATUS | 1,
        ],
    ),
    (
        12,
        &[0x4_B3FF, 1 << 18],
        &[1 << 10, 1 << 11, 1 << 14, 1 << 16, 1 << 17, 1 << 19],
    ),
    (13, &[4, u64::MAX - 3], &[1, 2]),
    (
        14,
        &[LPE | SSE, PMM_7, PMM_16],
        &[PMM_1, PMM_1 | LPE, 1, 1 << 5, 1 << 63],
    ),
    (15, &[1, u64::MAX], &[]),
    (16, &[4, u64::MAX - 3], &[1, 2]),
    (17, &[1, u64::MAX], &[]),
    (18, &[1, u64::MAX], &[]),
    (
        19,
        &[MLPE, PMM_7, PMM_16 | MLPE],
        &[PMM_1, LPE, SSE, 1 << 9, 1 << 11, 1 << 34],
    ),
];

/// The answer to one word of the hart set to a value, and whether all stayed if it was refused.
#[track_caller]
fn refusal_with(index: usize, value: u64) -> u64 {
    let mut w = world(MACHINE);
    let mut rest = FRESH;
    rest[index] = value;
    w.h = Hart::from_words(&[0; 32], &rest);
    let before = w.clone();
    let answer = w.word(NOP);
    if answer.refusal != 0 {
        assert_eq!(answer, refused(answer.refusal));
        assert_eq!(w, before);
        assert_eq!(w.h.to_words().1, rest);
    }
    answer.refusal
}

#[test]
fn words_of_the_hart_go_through() {
    let x = std::array::from_fn(|i| 1_000 + i as u64);
    let rest = std::array::from_fn(|i| 2_000 + i as u64);
    let h = Hart::from_words(&x, &rest);
    assert_eq!(h.to_words(), (x, rest));
    assert_eq!((h.pc, h.mode, h.elp, h.ssp), (2_000, 2_001, 2_002, 2_003));
    assert_eq!((h.senvcfg, h.satp, h.mstatus), (2_005, 2_010, 2_011));
    assert_eq!((h.menvcfg, h.mtval, h.mseccfg), (2_014, 2_018, 2_019));
}

#[test]
fn each_word_has_its_good_and_bad_values() {
    for (index, good, bad) in WORDS {
        for &value in good {
            assert_eq!(refusal_with(index, value), 0, "word {index} = {value:#x}");
        }
        for &value in bad {
            assert_eq!(refusal_with(index, value), 1, "word {index} = {value:#x}");
        }
    }
}

/// Each bit of mstatus alone: accepted exactly for the named ones.
#[test]
fn mstatus_bit_by_bit() {
    let named = [1, 3, 5, 7, 8, 11, 17, 18, 19, 23, 33, 35, 41];
    for bit in 0..64 {
        let expected = u64::from(!named.contains(&bit));
        assert_eq!(refusal_with(11, STATUS | 1 << bit), expected, "bit {bit}");
    }
}

#[test]
fn register_0_must_be_0() {
    let mut w = world(MACHINE);
    w.h.x[0] = 1;
    assert_eq!(w.step(), refused(1));
    assert_eq!(w.h.x[0], 1);
}

#[test]
fn memory_sizes() {
    for (size, refusal) in [
        (0, 2),
        (1, 2),
        (4_095, 2),
        (4_096, 0),
        (4_097, 2),
        (6_144, 2),
    ] {
        let mut w = world(MACHINE);
        w.mem = vec![0xFF; size];
        assert_eq!(w.word(NOP).refusal, refusal, "{size} bytes");
        assert!(w.mem.iter().all(|&byte| byte == 0xFF));
    }
}

#[test]
fn map_forms() {
    let top = (1 << 27) - 1;
    let table: [(&[u64], u64); 9] = [
        (&[], 0),
        (&[0], 3),
        (&[0, u64::MAX], 0),
        (&[0, 0, 1], 3),
        (&[top, 0], 0),
        (&[top + 1, 0], 3),
        (&[4, 9, 5, 1], 0),
        (&[5, 0, 5, 0], 3),
        (&[6, 0, 5, 0], 3),
    ];
    for (map, refusal) in table {
        let mut w = world(MACHINE);
        w.map = map.to_vec();
        assert_eq!(w.word(NOP).refusal, refusal, "{map:?}");
        assert_eq!(w.run(0).refusal, refusal, "{map:?}");
    }
}

#[test]
fn budgets() {
    let mut w = world(MACHINE);
    assert_eq!(w.run(1_000_001), refused(4));
    assert_eq!(w.run(u64::MAX), refused(4));
    assert_eq!(w, world(MACHINE));
    assert_eq!(w.run(0), quiet(0));
    assert_eq!(w, world(MACHINE));
    w.place(0, &[jal(0, 0)]);
    assert_eq!(w.run(1_000_000), quiet(1_000_000));
}

#[test]
fn the_lowest_number_is_given() {
    let mut w = world(MACHINE);
    w.h.ssp = 1;
    w.mem = Vec::new();
    w.map = vec![0];
    assert_eq!(w.run(1_000_001), refused(1));
    w.h.ssp = 0;
    assert_eq!(w.run(1_000_001), refused(2));
    w.mem = vec![0; 4_096];
    assert_eq!(w.run(1_000_001), refused(3));
    w.map = Vec::new();
    assert_eq!(w.run(1_000_001), refused(4));
}
