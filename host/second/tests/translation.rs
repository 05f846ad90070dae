//! From address to byte: each of the nine steps, their order, the causes and tval.

mod common;
use common::*;

const LD: u32 = 3;
const ALL: u64 = V | R | W | X | U | A | D;

/// Loads x2 from x1 = address.
#[track_caller]
fn load_faults(w: &World, address: u64, cause: u64, tval: u64) {
    let mut w = w.clone();
    w.h.x[1] = address;
    w.traps(load(LD, 2, 1, 0), cause, tval);
}

#[track_caller]
fn load_gives(w: &World, address: u64, value: u64) {
    let mut w = w.clone();
    w.h.x[1] = address;
    w.passes(load(LD, 2, 1, 0));
    assert_eq!(w.h.x[2], value);
}

#[track_caller]
fn store_faults(w: &World, address: u64, cause: u64, tval: u64) {
    let mut w = w.clone();
    w.h.x[1] = address;
    w.traps(store(LD, 1, 2, 0), cause, tval);
}

/// Steps with pc there and demands the trap, with the plain pc as tval.
#[track_caller]
fn fetch_faults(w: &World, pc: u64, cause: u64) {
    let mut w = w.clone();
    w.h.pc = pc;
    let after = w.after_trap_to_machine(cause, pc);
    assert_eq!(w.step(), trapped(1, cause));
    assert_eq!(w, after);
}

#[test]
fn step_1_mprv_moves_loads_and_stores_but_no_fetch() {
    let mut w = paged(MACHINE, ALL);
    w.place_double(0x1000, 42);
    w.h.mstatus = STATUS | MPRV;
    load_gives(&w, 0x5000, 42);
    load_faults(&w, START, 13, START);
    w.place(0, &[NOP]);
    assert_eq!(w.clone().step(), quiet(1));
    w.h.mstatus = STATUS | MPRV | MPP_S;
    load_faults(&w, 0x5000, 13, 0x5000);
    store_faults(&w, 0x5000, 15, 0x5000);
    w.h.mstatus |= SUM;
    load_gives(&w, 0x5000, 42);
    w.h.mstatus = STATUS | MPRV | MPP_M;
    load_faults(&w, 0x5000, 5, 0x5000);
    load_gives(&w, START + 0x1000, 42);
}

#[test]
fn step_1_mprv_counts_in_m_only() {
    let mut w = paged(USER, ALL);
    w.place_double(0x1000, 42);
    w.h.mstatus = STATUS | MPRV | MPP_M;
    load_gives(&w, 0x5000, 42);
    w.h.mode = SUPERVISOR;
    load_faults(&w, 0x5000, 13, 0x5000);
}

#[test]
fn step_2_each_mode_has_its_mask() {
    let tagged = 0x00AB_0000_8000_0000;
    for (mode, status) in [
        (USER, STATUS),
        (SUPERVISOR, STATUS),
        (MACHINE, STATUS),
        (MACHINE, STATUS | MPRV),
        (MACHINE, STATUS | MPRV | MPP_S),
    ] {
        let mut w = world(mode);
        w.h.mstatus = status;
        w.place_double(0, 42);
        let effective = if status & MPRV != 0 {
            status >> 11 & 3
        } else {
            mode
        };
        (w.h.senvcfg, w.h.menvcfg, w.h.mseccfg) = (PMM_7, PMM_7, PMM_7);
        match effective {
            USER => w.h.senvcfg = PMM_16,
            SUPERVISOR => w.h.menvcfg = PMM_16,
            _ => w.h.mseccfg = PMM_16,
        }
        load_gives(&w, tagged, 42);
        match effective {
            USER => w.h.senvcfg = 0,
            SUPERVISOR => w.h.menvcfg = 0,
            _ => w.h.mseccfg = 0,
        }
        load_faults(&w, tagged, 5, tagged);
    }
}

const TAGGED: u64 = 0xABCD_0000_0000_5000;

/// M with MPRV and this MPP, 16 bits masked in every mode, and page 5 a page of U, which S reaches by SUM.
fn monitor(mpp: u64, more: u64) -> World {
    let mut w = paged(MACHINE, ALL);
    w.place_double(0x1000, 42);
    w.h.mstatus = STATUS | MPRV | SUM | mpp | more;
    (w.h.senvcfg, w.h.menvcfg, w.h.mseccfg) = (PMM_16, PMM_16, PMM_16);
    w
}

/// Rule 7.2 e: with MXR set too no bit is masked, so a tag is not canonical, and tval is the whole address.
#[test]
fn step_2_masks_nothing_under_mprv_with_mxr() {
    for mpp in [0, MPP_S] {
        load_gives(&monitor(mpp, 0), TAGGED, 42);
        let w = monitor(mpp, MXR);
        load_gives(&w, 0x5000, 42);
        load_faults(&w, TAGGED, 13, TAGGED);
        store_faults(&w, TAGGED, 15, TAGGED);
        load_faults(&w, TAGGED + 1, 4, TAGGED + 1);
        store_faults(&w, TAGGED + 1, 6, TAGGED + 1);
        let mut w = w;
        w.h.mstatus &= !MPRV;
        load_faults(&w, TAGGED, 5, 0x5000);
    }
}

/// A canonical address of the upper half stays what it is, and so does one that masking would have made canonical.
#[test]
fn step_2_under_mprv_with_mxr_the_upper_bits_have_to_be_canonical() {
    for (pmm, address) in [
        (PMM_7, 0x01FF_FFFF_FFFF_FFF8),
        (PMM_16, 0x0000_FFFF_FFFF_FFF8),
    ] {
        let mut w = monitor(0, 0);
        w.map = vec![0x7FF_FFFF, leaf(1, ALL)];
        w.place_double(0x1FF8, 43);
        w.h.senvcfg = pmm;
        load_gives(&w, address, 43);
        w.h.mstatus |= MXR;
        load_gives(&w, 0xFFFF_FFFF_FFFF_FFF8, 43);
        load_faults(&w, address, 13, address);
    }
}

/// In M and in Bare no upper bit becomes 0 then; mseccfg.PMM masks where MPP is M and MXR is clear.
#[test]
fn step_2_masks_nothing_under_mprv_with_mxr_in_m_and_bare() {
    let tagged = 0xABCD_0000_8000_1000;
    for (mpp, satp) in [(0, 0), (MPP_S, 0), (MPP_M, 0), (MPP_M, SV39)] {
        let mut w = monitor(mpp, 0);
        w.h.satp = satp;
        load_gives(&w, tagged, 42);
        w.h.mstatus |= MXR;
        load_gives(&w, START + 0x1000, 42);
        load_faults(&w, tagged, 5, tagged);
        store_faults(&w, tagged, 7, tagged);
        w.h.mstatus &= !MPRV;
        load_gives(&w, tagged, 42);
    }
}

#[test]
fn step_2_masks_no_swap_under_mprv_with_mxr() {
    for (mpp, satp, cause) in [
        (0, SV39, 15),
        (MPP_S, SV39, 15),
        (MPP_M, SV39, 7),
        (0, 0, 7),
    ] {
        let mut w = monitor(mpp, MXR);
        w.h.satp = satp;
        w.h.menvcfg |= SSE;
        w.map = vec![5, leaf(1, V | W | U | A | D)];
        w.h.x[1] = TAGGED;
        w.clone().traps(swap(3, 2, 1, 3), cause, TAGGED);
        w.h.x[1] = TAGGED + 2;
        w.clone().traps(swap(2, 2, 1, 3), 7, TAGGED + 2);
    }
    let mut w = monitor(0, 0);
    w.h.menvcfg |= SSE;
    w.map = vec![5, leaf(1, V | W | U | A | D)];
    w.h.x[1] = TAGGED;
    w.clone().passes(swap(3, 2, 1, 3));
    w.h.mstatus |= MXR;
    w.h.x[1] = 0x5000;
    w.passes(swap(3, 2, 1, 3));
}

/// A hart below M can come with both bits set: nothing is lifted there, for no kind of access.
#[test]
fn step_2_below_m_masks_with_both_bits_set() {
    for mode in [USER, SUPERVISOR] {
        let mut w = shadowed(mode, V | W | U | A | D);
        w.place_double(0x1800, 42);
        w.h.mstatus = STATUS | MPRV | MXR | SUM | MPP_M;
        w.h.senvcfg |= PMM_16;
        w.h.menvcfg |= PMM_16;
        load_gives(&w, TAGGED + 0x800, 42);
        store_faults(&w, TAGGED, 7, 0x5000);
        w.h.x[1] = TAGGED;
        w.clone().passes(swap(3, 2, 1, 3));
        w.h.ssp = TAGGED + 0x800;
        w.clone().passes(PUSH_X1);
        w.h.x[1] = 42;
        w.passes(POP_X1);
    }
}

/// Push and pop-check have the current mode, where they do nothing in M; and a fetch is as it was.
#[test]
fn step_2_under_mprv_with_mxr_leaves_the_rest_as_it_was() {
    let mut w = monitor(0, MXR);
    w.h.menvcfg |= SSE;
    w.h.senvcfg |= SSE;
    w.h.ssp = TAGGED;
    w.place(0, &[NOP]);
    w.clone().passes(PUSH_X1);
    w.clone().passes(POP_X1);
    assert_eq!(w.clone().step(), quiet(1));
    fetch_faults(&w, 0xABCD_0000_8000_0000, 1);
}

#[test]
fn step_2_virtual_copies_the_highest_bit_left() {
    let mut w = paged(USER, ALL);
    w.map = vec![5, leaf(1, ALL), 0x7FF_FFFF, leaf(2, ALL)];
    w.place_double(0x1000, 42);
    w.place_double(0x2FF8, 43);
    w.h.senvcfg = PMM_16;
    load_gives(&w, 0xABCD_0000_0000_5000, 42);
    load_gives(&w, 0x1234_FFFF_FFFF_FFF8, 43);
    load_faults(&w, 0x1234_8000_0000_0000, 13, 0xFFFF_8000_0000_0000);
    w.h.satp = 0;
    load_faults(&w, 0x1234_FFFF_FFFF_FFF8, 5, 0x0000_FFFF_FFFF_FFF8);
}

#[test]
fn step_3_misaligned_before_translation() {
    let w = paged(USER, 0);
    load_faults(&w, 0x7001, 4, 0x7001);
    load_faults(&w, 0x7004, 4, 0x7004);
    store_faults(&w, 0x7001, 6, 0x7001);
    let mut w = world(MACHINE);
    w.h.mseccfg = PMM_16;
    load_faults(&w, 0xABCD_0000_0000_0001, 4, 1);
    w.h.x[1] = START + 0x103;
    w.clone().passes(load(0, 2, 1, 0));
    w.clone().traps(load(1, 2, 1, 0), 4, START + 0x103);
    w.clone().traps(load(1, 2, 1, -4), 4, START + 0xFF);
    w.clone().passes(load(1, 2, 1, 1));
    w.clone().traps(load(2, 2, 1, -1), 4, START + 0x102);
    w.clone().passes(load(2, 2, 1, 1));
    w.clone().traps(store(1, 1, 2, 0), 6, START + 0x103);
    w.clone().traps(store(2, 1, 2, -1), 6, START + 0x102);
    w.clone().passes(store(0, 1, 2, 0));
}

#[test]
fn step_3_misaligned_swap_is_cause_7() {
    let mut w = shadowed(USER, V | W | U | A | D);
    w.h.x[1] = 0x5004;
    w.clone().traps(swap(3, 2, 1, 3), 7, 0x5004);
    w.clone().passes(swap(2, 2, 1, 3));
    w.h.x[1] = 0x7002;
    w.traps(swap(2, 2, 1, 3), 7, 0x7002);
}

#[test]
fn step_4_shadow_access_in_m_or_bare() {
    let mut w = shadowed(USER, V | W | U | A | D);
    w.h.satp = 0;
    w.h.x[1] = START + 8;
    w.clone().traps(swap(3, 2, 1, 3), 7, START + 8);
    w.clone().traps(PUSH_X1, 7, 0x57F8);
    w.clone().traps(POP_X1, 7, 0x5800);
    w.h.mode = MACHINE;
    w.h.satp = SV39;
    w.clone().traps(swap(3, 2, 1, 3), 7, START + 8);
    w.h.x[1] = 0x5800;
    w.h.mstatus = STATUS | MPRV;
    w.clone().passes(swap(3, 2, 1, 3));
    w.h.mstatus = STATUS | MPRV | MPP_M;
    w.traps(swap(3, 2, 1, 3), 7, 0x5800);
}

#[test]
fn step_5_upper_bits() {
    let mut w = paged(USER, ALL);
    w.map = vec![5, leaf(1, ALL), 0x400_0000, leaf(2, ALL)];
    w.place_double(0x2000, 44);
    load_gives(&w, 0xFFFF_FFC0_0000_0000, 44);
    load_faults(&w, 0x0000_0040_0000_0000, 13, 0x0000_0040_0000_0000);
    for bit in 38..64 {
        let address = 0x5000 | 1 << bit;
        load_faults(&w, address, 13, address);
        store_faults(&w, address, 15, address);
        fetch_faults(&w, address, 12);
    }
}

#[test]
fn step_5_entries() {
    load_faults(&paged(USER, ALL), 0x6000, 13, 0x6000);
    load_faults(&paged(USER, ALL), 0x4FF8, 13, 0x4FF8);
    for flags in [
        ALL & !V,
        V | U | A | D,
        ALL | 1 << 54,
        ALL | 1 << 63,
        V | W | U | A | D,
        V | W | X | U | A | D,
    ] {
        let w = paged(USER, flags);
        load_faults(&w, 0x5000, 13, 0x5000);
        store_faults(&w, 0x5000, 15, 0x5000);
        fetch_faults(&w, 0x5000, 12);
    }
    let w = shadowed(USER, V | W | X | U | A | D);
    store_faults(&w, 0x5000, 15, 0x5000);
    fetch_faults(&w, 0x5000, 12);
    w.clone().traps(PUSH_X1, 15, 0x57F8);
    let mut w = paged(USER, ALL | 1 << 5 | 3 << 8);
    w.mem[0x1000] = 1;
    load_gives(&w, 0x5000, 1);
}

/// In M with MPRV the swap is never illegal, so W alone without menvcfg.SSE can be met.
#[test]
fn step_5_shadow_page_needs_menvcfg_sse_only() {
    let mut w = shadowed(MACHINE, V | W | U | A | D);
    w.h.mstatus = STATUS | MPRV;
    w.h.x[1] = 0x5000;
    w.h.senvcfg = 0;
    w.clone().passes(swap(3, 2, 1, 3));
    w.h.menvcfg = 0;
    w.h.senvcfg = SSE;
    w.clone().traps(swap(3, 2, 1, 3), 15, 0x5000);
}

#[test]
fn step_5_every_entry_is_found() {
    let mut w = paged(USER, 0);
    w.mem = vec![0; 64 * 4_096];
    w.map = (0..64).flat_map(|i| [7 * i + 3, leaf(i, ALL)]).collect();
    for i in 0..64 {
        w.place_double(4_096 * i as usize, 100 + i);
    }
    for page in 0..460 {
        let address = page << 12;
        if page % 7 == 3 && page < 7 * 64 {
            load_gives(&w, address, 100 + page / 7);
        } else {
            load_faults(&w, address, 13, address);
        }
    }
}

#[test]
fn step_6_user_bit() {
    let w = paged(USER, ALL & !U);
    load_faults(&w, 0x5000, 13, 0x5000);
    store_faults(&w, 0x5000, 15, 0x5000);
    fetch_faults(&w, 0x5000, 12);
    let mut w = paged(SUPERVISOR, ALL);
    load_faults(&w, 0x5000, 13, 0x5000);
    store_faults(&w, 0x5000, 15, 0x5000);
    fetch_faults(&w, 0x5000, 12);
    w.h.mstatus |= SUM;
    load_gives(&w, 0x5000, 0);
    fetch_faults(&w, 0x5000, 12);
    let mut w = paged(SUPERVISOR, ALL & !U);
    load_gives(&w, 0x5000, 0);
    w.place(0x1000, &[NOP]);
    w.h.pc = 0x5000;
    assert_eq!(w.step(), quiet(1));
}

/// The U bit is judged before the kind of page: a page fault where step 7 would say cause 7 or 1.
#[test]
fn step_6_comes_before_step_7() {
    let mut w = shadowed(USER, V | R | W | A | D);
    w.clone().traps(PUSH_X1, 15, 0x57F8);
    w.map = vec![5, leaf(1, V | W | A | D)];
    store_faults(&w, 0x5000, 15, 0x5000);
    fetch_faults(&w, 0x5000, 12);
    let mut w = shadowed(SUPERVISOR, V | W | U | A | D);
    w.clone().traps(PUSH_X1, 15, 0x57F8);
    w.clone().traps(POP_X1, 15, 0x5800);
    w.h.mstatus |= SUM;
    w.clone().passes(PUSH_X1);
    w.clone().passes(POP_X1);
}

#[test]
fn step_7_kinds_of_page() {
    let shadow_accesses = [
        (PUSH_X1, 0x57F8),
        (POP_X1, 0x5800),
        (swap(3, 2, 1, 3), 0x5000),
    ];
    for (flags, cause) in [
        (R, 15),
        (R | A | D, 15),
        (R | X | A | D, 7),
        (X | A | D, 7),
        (R | W | A | D, 7),
        (R | W | X, 7),
        (R | W, 7),
    ] {
        for (word, tval) in shadow_accesses {
            let mut w = shadowed(USER, V | U | flags);
            w.h.x[1] = 0x5000;
            w.traps(word, cause, tval);
        }
    }
    for flags in [V | W | U | A | D, V | W | U] {
        let w = shadowed(USER, flags);
        store_faults(&w, 0x5000, 7, 0x5000);
        fetch_faults(&w, 0x5000, 1);
    }
}

#[test]
fn step_8_rights() {
    fetch_faults(&paged(USER, ALL & !X), 0x5000, 12);
    load_faults(&paged(USER, V | X | U | A | D), 0x5000, 13, 0x5000);
    store_faults(&paged(USER, ALL & !W), 0x5000, 15, 0x5000);
    let mut w = paged(USER, V | X | U | A);
    w.h.mstatus |= MXR;
    load_gives(&w, 0x5000, 0);
    store_faults(&w, 0x5000, 15, 0x5000);
    let w = shadowed(USER, V | W | U | A);
    load_gives(&w, 0x5000, 0);
}

#[test]
fn step_8_accessed_and_dirty() {
    let w = paged(USER, ALL & !A);
    load_faults(&w, 0x5000, 13, 0x5000);
    store_faults(&w, 0x5000, 15, 0x5000);
    fetch_faults(&w, 0x5000, 12);
    let mut w = paged(USER, ALL & !D);
    load_gives(&w, 0x5000, 0);
    store_faults(&w, 0x5000, 15, 0x5000);
    w.h.pc = 0x5000;
    assert_eq!(w.step(), trapped(1, 2));
    let mut w = shadowed(USER, V | W | U | A);
    w.clone().passes(POP_X1);
    w.h.x[1] = 0x5000;
    w.clone().traps(PUSH_X1, 15, 0x57F8);
    w.clone().traps(swap(3, 2, 1, 3), 15, 0x5000);
    let mut w = shadowed(USER, V | W | U | D);
    w.clone().traps(POP_X1, 15, 0x5800);
    load_faults(&w, 0x5000, 13, 0x5000);
    w.traps(PUSH_X1, 15, 0x57F8);
}

#[test]
fn step_9_outside_memory() {
    let w = world(MACHINE);
    let end = START + 16 * 4_096;
    for address in [0, START - 8, end, 1 << 63, u64::MAX - 7] {
        load_faults(&w, address, 5, address);
        store_faults(&w, address, 7, address);
        fetch_faults(&w, address, 1);
    }
    load_gives(&w, START, 0);
    load_gives(&w, end - 8, 0);
    let flags = V | W | U | A | D;
    for frame in [
        0,
        0x7_FFFF,
        0x8_0010,
        0x18_0000,
        1 << 43 | 0x8_0000,
        (1 << 44) - 1,
    ] {
        let mut w = paged(USER, 0);
        w.map = vec![5, frame << 10 | ALL];
        load_faults(&w, 0x5000, 5, 0x5000);
        store_faults(&w, 0x5000, 7, 0x5000);
        fetch_faults(&w, 0x5000, 1);
        let mut w = shadowed(USER, 0);
        w.map = vec![5, frame << 10 | flags];
        w.clone().traps(PUSH_X1, 7, 0x57F8);
        w.traps(POP_X1, 7, 0x5800);
    }
}

#[test]
fn a_fetch_goes_through_the_map() {
    let mut w = paged(USER, V | X | U | A);
    w.place(0x1FFC, &[i_word(0x13, 0, 1, 0, 9)]);
    w.h.pc = 0x5FFC;
    assert_eq!(w.step(), quiet(1));
    assert_eq!((w.h.x[1], w.h.pc), (9, 0x6000));
    fetch_faults(&w, 0x6000, 12);
}

#[test]
fn a_given_word_has_no_fetch_fault() {
    let mut w = paged(USER, 0);
    w.h.pc = 0x7000_0000;
    w.passes(NOP);
    assert_eq!(w.h.pc, 0x7000_0004);
}
