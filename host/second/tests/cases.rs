//! The worked cases and easy slips of docs/HART.md, chapter 14.

mod common;
use common::*;

/// The address that a load of this one transforms to, seen as the tval of its fault.
fn transformed(address: u64, pmm: u64, satp: u64) -> u64 {
    let mut w = world(USER);
    w.h.senvcfg = pmm;
    w.h.satp = satp;
    w.h.x[10] = address;
    assert!(w.word(load(0, 11, 10, 0)).trapped);
    w.h.mtval
}

#[test]
fn p1_to_p4_masking() {
    let tagged = 0xABFF_FFFF_1234_5678;
    assert_eq!(transformed(tagged, PMM_7, SV39), 0xFFFF_FFFF_1234_5678);
    assert_eq!(transformed(tagged, PMM_7, 0), 0x01FF_FFFF_1234_5678);
    assert_eq!(transformed(tagged, PMM_16, 0), 0x0000_FFFF_1234_5678);
    let positive = 0x5400_0000_8000_1000;
    assert_eq!(transformed(positive, PMM_7, SV39), 0x0000_0000_8000_1000);
}

#[test]
fn p5_reads_ssp() {
    let mut w = shadowed(USER, 0);
    w.passes(READ_SSP_X10);
    assert_eq!(w.h.x[10], 0x5800);
}

#[test]
fn p6_and_p7_label() {
    let mut w = world(MACHINE);
    w.h.mseccfg = MLPE;
    w.h.elp = 1;
    w.h.x[7] = 0x1234_5FFF;
    let before = w.clone();
    w.passes(0x1234_5017);
    let mut after = before.clone();
    after.h.elp = 0;
    after.h.pc += 4;
    assert_eq!(w, after);

    let mut w = before;
    w.h.x[7] = 0x1234_6000;
    w.traps(0x1234_5017, 18, 2);
}

#[test]
fn p8_and_p9_expectation() {
    let mut w = world(MACHINE);
    w.h.mseccfg = MLPE;
    w.passes(0x0005_00E7);
    assert_eq!((w.h.elp, w.h.pc, w.h.x[1]), (1, 0, START + 4));

    let mut w = world(MACHINE);
    w.h.mseccfg = MLPE;
    w.passes(0x0003_8067);
    assert_eq!((w.h.elp, w.h.pc), (0, 0));
}

#[test]
fn p10_push_wraps() {
    let mut w = shadowed(USER, 0);
    w.h.ssp = 0;
    w.traps(PUSH_X1, 15, 0xFFFF_FFFF_FFFF_FFF8);

    let mut w = shadowed(SUPERVISOR, 0);
    w.h.ssp = 0;
    w.map = vec![(1 << 27) - 1, leaf(2, V | W | A | D)];
    w.h.x[1] = 77;
    w.passes(PUSH_X1);
    assert_eq!(w.h.ssp, 0xFFFF_FFFF_FFFF_FFF8);
    assert_eq!(w.double(0x2FF8), 77);
}

#[test]
fn lh_sign_extends() {
    let mut w = world(MACHINE);
    w.mem[0x100..0x102].copy_from_slice(&[0x00, 0x80]);
    w.h.x[1] = START + 0x100;
    w.passes(load(1, 2, 1, 0));
    assert_eq!(w.h.x[2], 0xFFFF_FFFF_FFFF_8000);
}

#[test]
fn entries_64_and_65() {
    let mut w = world(MACHINE);
    w.map = (0..64).flat_map(|page| [page, 0]).collect();
    assert_eq!(w.step(), trapped(1, 2));
    w.map.extend([64, 0]);
    assert_eq!(w.step(), refused(3));
}

#[test]
fn memory_of_1_mib_and_a_page_more() {
    let mut w = world(MACHINE);
    w.mem = vec![0; 1_048_576];
    assert_eq!(w.step(), trapped(1, 2));
    w.mem = vec![0; 1_048_576 + 4_096];
    assert_eq!(w.step(), refused(2));
}

#[test]
fn slip_ssp_stays_when_the_store_is_refused() {
    for flags in [V | R | W | U | A | D, V | W | U | A, V | W | U | D, 0] {
        let mut w = shadowed(USER, flags);
        assert!(w.word(PUSH_X1).trapped);
        assert_eq!(w.h.ssp, 0x5800);
    }
}

#[test]
fn slip_fetch_is_not_masked() {
    let mut w = world(MACHINE);
    w.h.mseccfg = PMM_16;
    w.h.pc = 0xABCD_0000_8000_0000;
    assert_eq!(w.step(), trapped(1, 1));
    assert_eq!(w.h.mtval, 0xABCD_0000_8000_0000);
}

#[test]
fn slip_store_to_a_shadow_page_is_an_access_fault() {
    let mut w = shadowed(USER, V | W | U | A | D);
    w.h.x[1] = 0x5000;
    w.traps(store(3, 1, 2, 0), 7, 0x5000);
}

#[test]
fn slip_return_through_x5_sets_no_elp() {
    let mut w = world(MACHINE);
    w.h.mseccfg = MLPE;
    w.h.x[5] = START + 0x40;
    w.passes(jalr(0, 5, 0));
    assert_eq!((w.h.elp, w.h.pc), (0, START + 0x40));
}

#[test]
fn slip_misaligned_jalr_writes_no_rd() {
    let mut w = world(MACHINE);
    w.h.mseccfg = MLPE;
    w.h.x[1] = 99;
    w.h.x[10] = START + 2;
    w.traps(jalr(1, 10, 1), 0, START + 2);
}
