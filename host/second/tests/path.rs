//! How an access goes: which rule refuses it and why, and that a step traps just so.

mod common;
use common::*;
use second::Kind::*;
use second::Reason::*;
use second::{path, Access, Kind, Path, Reason};
use std::collections::BTreeSet;

const AD: u64 = A | D;
const PAGE: u64 = 0x5000;

/// The way of four bytes in a world whose page 5 has these flags, with the shadow stack on.
fn met(mode: u64, kind: Kind, flags: u64, address: u64) -> Path {
    let mut w = paged(mode, flags);
    (w.h.menvcfg, w.h.senvcfg) = (SSE, SSE);
    gone(&w, kind, address)
}

fn gone(w: &World, kind: Kind, address: u64) -> Path {
    let access = Access {
        kind,
        width: 4,
        address,
    };
    path(&w.h, &w.map, w.mem.len(), access)
}

/// Each reason with its rule and the cause that docs/HART.md gives (7.3 to 7.10); two of them need another setting.
#[test]
#[rustfmt::skip]
fn each_reason_has_its_rule_and_cause() {
    let mut all = BTreeSet::from([ShadowInBare, WriteAlone]);
    for (mode, kind, flags, address, reason, rule, cause) in [
        (USER, Load, V | R | U | AD, PAGE + 2, Misaligned, 3, 4),
        (USER, Store, V | R | W | U | AD, PAGE + 2, Misaligned, 3, 6),
        (USER, Swap, V | W | U | AD, PAGE + 2, Misaligned, 3, 7),
        (USER, Fetch, V | X | U | AD, PAGE + 2, Misaligned, 3, 0),
        (MACHINE, Swap, V | W | U | AD, PAGE, ShadowInMachine, 4, 7),
        (USER, Load, V | R | U | AD, PAGE | 1 << 39, NotCanonical, 5, 13),
        (USER, Fetch, V | X | U | AD, PAGE + 4096, NoEntry, 5, 12),
        (USER, Store, R | W | U | AD, PAGE, NotValid, 5, 15),
        (USER, Load, V | U | AD, PAGE, NoRights, 5, 13),
        (USER, Load, V | R | U | AD | 1 << 54, PAGE, ReservedBits, 5, 13),
        (USER, Load, V | W | X | U | AD, PAGE, WriteWithoutRead, 5, 13),
        (USER, Load, V | R | AD, PAGE, NotOfUser, 6, 13),
        (SUPERVISOR, Fetch, V | X | U | AD, PAGE, FetchOfUser, 6, 12),
        (SUPERVISOR, Push, V | W | U | AD, PAGE, DataOfUser, 6, 15),
        (USER, Pop, V | R | U | AD, PAGE, ShadowToReadOnly, 7, 15),
        (USER, Push, V | R | W | U | AD, PAGE, ShadowToOther, 7, 7),
        (USER, Store, V | W | U | AD, PAGE, StoreToShadow, 7, 7),
        (USER, Fetch, V | W | U | AD, PAGE, FetchFromShadow, 7, 1),
        (USER, Fetch, V | R | U | AD, PAGE, NotExecutable, 8, 12),
        (USER, Load, V | X | U | AD, PAGE, NotReadable, 8, 13),
        (USER, Store, V | R | U | AD, PAGE, NotWritable, 8, 15),
        (USER, Load, V | R | U | D, PAGE, NotAccessed, 8, 13),
        (USER, Push, V | W | U | A, PAGE, NotDirty, 8, 15),
        (USER, Fetch, V | X | U | AD | 16 << 10, PAGE, Outside, 9, 1),
        (USER, Load, V | R | U | AD | 16 << 10, PAGE, Outside, 9, 5),
        (USER, Pop, V | W | U | AD | 16 << 10, PAGE, Outside, 9, 7),
    ] {
        let met = met(mode, kind, flags, address);
        assert_eq!(met.place, Err(reason), "{kind:?} {flags:#x}");
        assert_eq!((reason.rule(), reason.cause(kind)), (rule, cause));
        // Rule 9 alone comes behind the physical address.
        assert_eq!(met.physical.is_ok(), rule == 9);
        all.insert(reason);
    }
    assert_eq!(all.len(), 23, "{all:?}");
}

#[test]
fn shadow_pages_need_sv39_and_menvcfg() {
    let mut w = paged(USER, V | W | U | AD);
    assert_eq!(gone(&w, Load, PAGE).place, Err(WriteAlone));
    w.h.satp = 0;
    assert_eq!(gone(&w, Swap, START).place, Err(ShadowInBare));
    assert_eq!((ShadowInBare.rule(), ShadowInBare.cause(Swap)), (4, 7));
    assert_eq!((WriteAlone.rule(), WriteAlone.cause(Fetch)), (5, 12));
}

#[test]
fn what_is_granted_has_a_place() {
    for (kind, flags) in [
        (Fetch, V | X | U | A),
        (Load, V | W | U | A),
        (Pop, V | W | U | A),
        (Push, V | W | U | AD),
        (Swap, V | W | U | AD),
        (Store, V | R | W | U | AD),
    ] {
        let met = met(USER, kind, flags, PAGE + 8);
        assert_eq!(met.place, Ok(0x1008), "{kind:?}");
        assert_eq!(met.physical, Ok(START + 0x1008));
        assert_eq!((met.transformed, met.page), (PAGE + 8, Some(5)));
    }
}

/// The page is told where an earlier rule refuses too, and not without Sv39 or of an address that is none.
#[test]
fn the_page_that_is_asked_for() {
    let page = |mode, kind, address| met(mode, kind, V | R | U | AD, address).page;
    assert_eq!(page(USER, Load, PAGE + 2), Some(5));
    assert_eq!(page(USER, Load, !0), Some(0x7FF_FFFF));
    assert_eq!(page(USER, Load, PAGE | 1 << 39), None);
    assert_eq!(page(MACHINE, Load, PAGE), None);
}

/// The address as the rules see it, what PMM would make of it, and whether it is spared (7.2 a and e).
#[test]
#[rustfmt::skip]
fn masking_and_where_it_is_spared() {
    const TAGGED: u64 = 0xABCD_0000_0000_1000;
    let both = MPRV | MXR;
    for (mode, kind, mstatus, spared) in [
        (MACHINE, Load, both, true),
        (MACHINE, Store, both, true),
        (MACHINE, Swap, both, true),
        (MACHINE, Load, both | MPP_S, true),
        (MACHINE, Load, both | MPP_M, true),
        (MACHINE, Load, MPRV, false),
        (MACHINE, Load, MXR, false),
        (SUPERVISOR, Load, both, false),
        (USER, Swap, both, false),
        (MACHINE, Push, both, false),
        (MACHINE, Pop, both, false),
        (MACHINE, Fetch, both, true),
    ] {
        let mut w = paged(mode, V | R | U | AD);
        w.h.mstatus |= mstatus;
        (w.h.menvcfg, w.h.senvcfg, w.h.mseccfg) = (PMM_16, PMM_16, PMM_16);
        let path = gone(&w, kind, TAGGED);
        assert_eq!(path.regime.spared, spared, "{kind:?} in mode {mode}: {mstatus:#x}");
        assert_eq!(path.transformed, if spared { TAGGED } else { 0x1000 });
        assert_eq!((path.regime.bits, path.regime.masked(TAGGED)), (16, 0x1000));
    }
}

/// The worked case of docs/HART.md, 14.1.
#[test]
fn masked_bits_are_copies_or_zeros() {
    const ADDRESS: u64 = 0xABFF_FFFF_1234_5678;
    for (mode, pmm, address, expected) in [
        (USER, PMM_7, ADDRESS, 0xFFFF_FFFF_1234_5678),
        (MACHINE, PMM_7, ADDRESS, 0x01FF_FFFF_1234_5678),
        (MACHINE, PMM_16, ADDRESS, 0x0000_FFFF_1234_5678),
        (USER, PMM_7, 0x5400_0000_8000_1000, 0x8000_1000),
        (USER, 0, ADDRESS, ADDRESS),
    ] {
        let mut w = paged(mode, 0);
        (w.h.senvcfg, w.h.mseccfg) = (pmm, pmm);
        assert_eq!(gone(&w, Load, address).transformed, expected);
    }
}

/// Every leaf of few bits, by every kind of access that one instruction makes: a step traps as the path says, or not at all.
#[test]
fn a_step_traps_as_its_path_says() {
    let mut seen = BTreeSet::new();
    for flags in (0..256).map(|flags| flags & !0x20) {
        for mode in [USER, SUPERVISOR] {
            for (kind, word) in [
                (Load, load(2, 2, 1, 0)),
                (Store, store(2, 1, 2, 0)),
                (Swap, swap(2, 2, 1, 3)),
            ] {
                let mut w = paged(mode, flags);
                (w.h.menvcfg, w.h.senvcfg, w.h.x[1]) = (SSE, SSE, PAGE);
                let refused: Option<Reason> = gone(&w, kind, PAGE).place.err();
                let answer = w.word(word);
                let cause = refused.map(|reason| reason.cause(kind));
                assert_eq!(answer.trapped.then_some(answer.cause), cause);
                seen.extend(refused);
            }
        }
    }
    assert_eq!(seen.len(), 12, "{seen:?}");
}
