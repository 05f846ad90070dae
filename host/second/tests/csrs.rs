//! CSRs: which there are, who may touch them, what a write leaves and what a read shows.

mod common;
use common::*;

/// Each CSR's address, the value of its named bits, and what they read at the least.
const CSRS: [(u32, u64, u64); 18] = [
    (0x011, !7, 0),
    (0x100, 0x2_008C_0122, 0x2_0000_0000),
    (0x105, !3, 0),
    (0x10A, 0x3_0000_000C, 0),
    (0x140, !0, 0),
    (0x141, !3, 0),
    (0x142, !0, 0),
    (0x143, !0, 0),
    (0x180, SV39, 0),
    (0x300, 0x20A_008E_19AA, STATUS),
    (0x302, 0x4_B3FF, 0),
    (0x305, !3, 0),
    (0x30A, 0x3_0000_000C, 0),
    (0x340, !0, 0),
    (0x341, !3, 0),
    (0x342, !0, 0),
    (0x343, !0, 0),
    (0x747, 0x3_0000_0400, 0),
];

const ALL_ADDRESSES: std::ops::Range<u32> = 0..4_096;

/// Writes x3 into the CSR and gives what a read then shows.
fn written(w: &mut World, address: u32, value: u64) -> u64 {
    w.h.x[3] = value;
    w.passes(csr(1, 0, address, 3));
    w.passes(csr(2, 4, address, 0));
    w.h.x[4]
}

#[test]
fn exactly_these_exist_for_their_modes() {
    for mode in [USER, SUPERVISOR, MACHINE] {
        for address in ALL_ADDRESSES {
            let known = CSRS.iter().any(|csr| csr.0 == address);
            let reachable = known && mode >= u64::from(address >> 8 & 3);
            let mut w = world(mode);
            w.h.menvcfg = SSE;
            w.h.senvcfg = SSE;
            let read = csr(2, 1, address, 0);
            if reachable {
                w.passes(read);
            } else {
                w.traps(read, 2, u64::from(read));
            }
        }
    }
}

#[test]
fn a_write_reaches_the_named_bits_only() {
    for (address, named, least) in CSRS {
        let mut w = world(MACHINE);
        w.h.menvcfg = SSE;
        let ones = if address == 0x180 {
            SV39 | ((1 << 60) - 1)
        } else {
            !0
        };
        assert_eq!(written(&mut w, address, ones), named, "CSR {address:#x}");
        assert_eq!(written(&mut w, address, 0), least, "CSR {address:#x}");
        w.passes(NOP);
    }
}

/// Whatever is written, the hart stays one that is not refused.
#[test]
fn no_write_leaves_what_is_refused() {
    let mut numbers = Numbers(0x5EED);
    let mut w = world(MACHINE);
    for round in 0..20_000 {
        let (address, _, _) = CSRS[numbers.next() as usize % CSRS.len()];
        w.h.x[3] = numbers.next() & numbers.next();
        let funct3 = [1, 2, 3, 5, 6, 7][numbers.next() as usize % 6];
        let answer = w.word(csr(funct3, 5, address, 3));
        assert_eq!(answer, quiet(1), "round {round}, CSR {address:#x}");
    }
}

#[test]
fn write_set_and_clear() {
    let mut w = world(MACHINE);
    w.h.mscratch = 0b1100;
    w.h.x[1] = 0b1010;
    for (funct3, after) in [(1, 0b1010), (2, 0b1110), (3, 0b0100)] {
        let mut w = w.clone();
        w.passes(csr(funct3, 2, 0x340, 1));
        assert_eq!((w.h.x[2], w.h.mscratch, w.h.pc), (0b1100, after, START + 4));
    }
    for (funct3, after) in [(5, 0b1010), (6, 0b1110), (7, 0b0100)] {
        let mut w = w.clone();
        w.passes(csr(funct3, 2, 0x340, 0b1010));
        assert_eq!((w.h.x[2], w.h.mscratch), (0b1100, after));
    }
    w.passes(csr(1, 1, 0x340, 1));
    assert_eq!((w.h.x[1], w.h.mscratch), (0b1100, 0b1010));
    w.passes(csr(1, 0, 0x340, 0));
    assert_eq!((w.h.x[0], w.h.mscratch), (0, 0));
}

#[test]
fn mpp_2_keeps_the_old_mpp_and_takes_the_rest() {
    for mpp in [0, MPP_S, MPP_M] {
        let mut w = world(MACHINE);
        w.h.mstatus = STATUS | mpp;
        assert_eq!(written(&mut w, 0x300, 2 << 11 | MXR), STATUS | mpp | MXR);
    }
    let mut w = world(MACHINE);
    w.h.mstatus = STATUS | MPP_M;
    w.h.x[1] = MPP_S;
    w.passes(csr(3, 0, 0x300, 1));
    assert_eq!(
        w.h.mstatus,
        STATUS | MPP_M,
        "clearing one bit of 3 writes 2"
    );
}

#[test]
fn pmm_1_keeps_the_old_pmm_and_takes_the_rest() {
    for (address, other) in [(0x10A, LPE), (0x30A, LPE), (0x747, MLPE)] {
        for pmm in [0, PMM_7, PMM_16] {
            let mut w = world(MACHINE);
            assert_eq!(written(&mut w, address, pmm), pmm);
            assert_eq!(written(&mut w, address, 1 << 32 | other), pmm | other);
            assert_eq!(written(&mut w, address, 1 << 32), pmm);
        }
    }
}

#[test]
fn satp_takes_two_modes() {
    let mut w = world(MACHINE);
    for mode in 0..16 {
        for old in [0, SV39] {
            w.h.satp = old;
            let value = mode << 60 | 0xFFF_1234;
            let expected = if mode == 0 || mode == 8 {
                mode << 60
            } else {
                old
            };
            assert_eq!(written(&mut w, 0x180, value), expected, "MODE {mode}");
        }
    }
}

#[test]
fn sstatus_is_a_view() {
    let mut w = world(SUPERVISOR);
    w.h.mstatus = STATUS | MIE | MPIE | MPP_M | MPRV | MPELP;
    let hidden = w.h.mstatus;
    let shown = SIE | SPIE | SPP | SUM | MXR | SPELP;
    assert_eq!(written(&mut w, 0x100, !0), shown | 2 << 32);
    assert_eq!(w.h.mstatus, hidden | shown);
    assert_eq!(written(&mut w, 0x100, 0), 2 << 32);
    assert_eq!(w.h.mstatus, hidden);
}

#[test]
fn senvcfg_sse_sleeps_while_menvcfg_sse_is_0() {
    let mut w = world(SUPERVISOR);
    w.h.senvcfg = SSE | LPE;
    assert_eq!(written(&mut w, 0x10A, PMM_7), PMM_7);
    assert_eq!(w.h.senvcfg, PMM_7 | SSE, "the stored bit stays at 1");
    w.h.senvcfg = 0;
    assert_eq!(written(&mut w, 0x10A, SSE | LPE), LPE);
    assert_eq!(w.h.senvcfg, LPE, "and at 0");
    w.h.menvcfg = SSE;
    assert_eq!(written(&mut w, 0x10A, SSE), SSE);
    w.h.menvcfg = 0;
    w.passes(csr(2, 4, 0x10A, 0));
    assert_eq!((w.h.x[4], w.h.senvcfg), (0, SSE));
}

#[test]
fn menvcfg_sse_off_leaves_senvcfg_and_ssp_stored() {
    let mut w = world(MACHINE);
    (w.h.menvcfg, w.h.senvcfg, w.h.ssp) = (SSE, SSE, 64);
    assert_eq!(written(&mut w, 0x30A, 0), 0);
    assert_eq!((w.h.senvcfg, w.h.ssp), (SSE, 64));
}

#[test]
fn ssp_needs_the_enables_below_m() {
    let table = [
        (MACHINE, 0, 0, true),
        (SUPERVISOR, 0, SSE, false),
        (SUPERVISOR, SSE, 0, true),
        (USER, SSE, 0, false),
        (USER, 0, SSE, false),
        (USER, SSE, SSE, true),
    ];
    for (mode, menvcfg, senvcfg, reachable) in table {
        for word in [csr(2, 1, 0x011, 0), csr(5, 0, 0x011, 31)] {
            let mut w = world(mode);
            (w.h.menvcfg, w.h.senvcfg) = (menvcfg, senvcfg);
            if reachable {
                w.passes(word);
                assert!(w.h.ssp == 0 || w.h.ssp == 24, "bits 2:0 read zero");
            } else {
                w.traps(word, 2, u64::from(word));
            }
        }
    }
}
