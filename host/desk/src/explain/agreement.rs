//! The explanations against the proved hart: random harts, pages and words, biased to what the rules ask about.
//! Each trap must be explained, with the hart's own cause and tval, and no step that does not trap.

use super::{expected, Trap};
use crate::map::{Entry, PageMap};
use crate::state::State;
use crate::symbols::Symbols;
use formats::csr::field::{
    LPE, MEDELEG_FIELDS, MLPE, MPP_SHIFT, MPRV, MXR, PMM_SHIFT, SSE, SUM, SV39,
};
use formats::extensions::{drawn, ABSENT};
pub use formats::random::Random;
use sporhulma::{word, Hart};
use std::collections::BTreeSet;

/// Memories to try, and harts and maps with each. Harts meet few of a memory's words, so it takes many memories until every
/// kind of trap and every rule comes up.
const MEMORIES: usize = 500;
const HARTS: usize = 100;

/// An address that is in memory or in a page, or just beside, now and then with upper bits set.
fn address(random: &mut Random) -> u64 {
    let base = random.pick(&[
        0x8000_0000,
        0x1000,
        0x2000,
        0x3000,
        0xffff_ffff_ffff_f000,
        0x40_0000_0000,
    ]);
    let offset = random.pick(&[0, 8, 0x10, 0xff8, 0xffc, 0x1000, 0x2000, 1, 2, 4]);
    let tag = random.pick(&[0, 0, 0, 0xab00_0000_0000_0000, 0xffff_0000_0000_0000]);
    u64::wrapping_add(base, offset) ^ tag
}

pub fn hart(random: &mut Random) -> Hart {
    let mut hart = Hart::fresh();
    for n in 1..32 {
        hart.x[n] = address(random);
    }
    let (code, stack) = (address(random) & !3, address(random) & !7);
    let rest = &mut hart.rest;
    rest[word::PC] = random.pick(&[0x1000, 0x1000, 0x1004, 0x1010, 0x8000_0010, code]);
    rest[word::MODE] = random.pick(&[0, 0, 1, 3]);
    rest[word::ELP] = random.pick(&[0, 0, 0, 1]);
    rest[word::SSP] = random.pick(&[0x2000, 0x2ff8, 0x3000, stack]);
    rest[word::SATP] = random.pick(&[0, SV39, SV39, SV39]);
    rest[word::MSTATUS] |=
        random.word() & (MPRV | SUM | MXR) | random.pick(&[0, 1, 3]) << MPP_SHIFT;
    rest[word::MEDELEG] = random.word() & MEDELEG_FIELDS;
    for csr in [word::MENVCFG, word::SENVCFG] {
        rest[csr] = random.word() & LPE
            | random.pick(&[0, SSE, SSE, SSE])
            | random.pick(&[0, 2, 3]) << PMM_SHIFT;
    }
    rest[word::MSECCFG] = random.word() & MLPE | random.pick(&[0, 2, 3]) << PMM_SHIFT;
    hart
}

/// Four pages: mostly code, a shadow stack, data and code again, each now and then with a bit turned over.
pub fn map(random: &mut Random) -> PageMap {
    let mut map = PageMap::default();
    let pages = [(1, 0xdb), (2, 0xd5), (3, 0xd7), (0x7ff_ffff, 0xdf)];
    for (line, (page, usual)) in pages.into_iter().enumerate() {
        let frame = random.pick(&[0x80000, 0x80000, 0x80001, 0x80001, 0x80002, 0]);
        let other = random.pick(&[0xdf, 0xd5, 0xd3, 0xd7, 0xdb, 0xdd]);
        let flip = random.pick(&[0, 0, 0, 0, 0x10, 0x40, 0x80, 1, 2, 8, 1 << 54]);
        let leaf = frame << 10 | random.pick(&[usual, usual, other]) ^ flip;
        map.entries.push(Entry { page, leaf, line });
        map.words.extend([page, leaf]);
    }
    map
}

/// A word: mostly one that can trap, with random registers.
pub fn instruction(random: &mut Random) -> u32 {
    let free = random.word() as u32;
    let opcode = random.pick(&[
        0x03, 0x23, 0x63, 0x67, 0x6f, 0x73, 0x2f, 0x17, 0x13, 0x33, 0x7f, 0x0f,
    ]);
    let csr = random.pick(&[
        0x011, 0x100, 0x105, 0x180, 0x300, 0x342, 0x747, 0xc00, 0x10b,
    ]);
    match random.below(15) {
        0 => random.pick(&[0xce10_4073, 0xce50_4073, 0xcdc0_c073, 0xcdc2_c073]),
        1 => random.pick(&[
            0x0000_0073,
            0x0010_0073,
            0x1020_0073,
            0x3020_0073,
            0x1050_0073,
            0,
        ]),
        2 => 0x4800_202f | free & 0x07ff_8f80 | free & 0x1000,
        3 => csr << 20 | free & 0x000f_ff80 | 0x73,
        4 => free & 0x00ff_ff80 | random.pick(&[0x03, 0x23]),
        5 => random.pick(&[0x0000_0017, 0x8000_0017, 0x0000_1017, 0x0000_2017]), // lpad
        6 => free,
        7 => drawn(random.word()).with(free),
        8 => random.pick(&ABSENT).with(free),
        _ => free & !0x7f | opcode,
    }
}

/// What came up: causes, of software checks with their tval, the rules that refused, and of those accesses whose masking
/// rule 7.2 e lifts the first words (load, store or shadow).
#[derive(Default)]
struct Seen {
    traps: BTreeSet<(u64, u64)>,
    rules: BTreeSet<char>,
    lifted: BTreeSet<String>,
}

/// One step from `before`, whose explanation must agree with the hart.
fn compare(before: &State, map: &PageMap, case: usize, seen: &mut Seen) {
    let mut after = before.clone();
    let answer = after.steps(map, 1);
    assert_eq!(answer.refusal, 0, "case {case}");
    let symbols = Symbols::default();
    let own = expected(before, map, &symbols);
    assert_eq!(
        own.is_some(),
        answer.trapped,
        "case {case}: {}",
        before.next_text(map, &symbols)
    );
    if !answer.trapped {
        return;
    }
    let trap = Trap::explain(before, map, &symbols, &after.hart, answer.cause);
    assert!(
        trap.rows.iter().all(|row| row.0 != "note"),
        "case {case}: {:?}",
        trap.rows
    );
    seen.traps
        .insert((trap.cause, if trap.cause == 18 { trap.tval } else { 0 }));
    let refused = trap.rows.iter().filter(|row| row.0 == "refused");
    seen.rules
        .extend(refused.filter_map(|row| row.1.strip_prefix("by rule ")?.chars().next()));
    if trap.rows.iter().any(|row| row.0 == "masking") {
        let access = trap.rows.iter().filter(|row| row.0 == "access");
        seen.lifted
            .extend(access.filter_map(|row| row.1.split(' ').next().map(str::to_string)));
    }
}

#[test]
fn every_trap_is_explained_as_the_hart_gives_it() {
    let mut random = Random::new(0x5eed_0007);
    let mut seen = Seen::default();
    for memory in 0..MEMORIES {
        let words = (0..0x2000 / 4).map(|_| instruction(&mut random));
        let mem: Vec<u8> = words.flat_map(u32::to_le_bytes).collect();
        let mut before = State {
            hart: Hart::fresh(),
            mem,
            given: None,
        };
        for one in 0..HARTS {
            let map = map(&mut random);
            before.hart = hart(&mut random);
            // Now and then a word that is given, not fetched.
            before.given = (one % 8 == 0).then(|| instruction(&mut random));
            compare(&before, &map, memory * HARTS + one, &mut seen);
        }
    }
    let traps = [0, 1, 2, 3, 4, 5, 6, 7, 8, 9, 11, 12, 13, 15].map(|cause| (cause, 0));
    let traps: BTreeSet<_> = traps.into_iter().chain([(18, 2), (18, 3)]).collect();
    assert_eq!(seen.traps, traps, "some kind of trap never came up");
    assert_eq!(seen.rules, ('3'..='9').collect(), "some rule never refused");
    let lifted = ["load", "shadow", "store"].map(str::to_string);
    assert_eq!(
        seen.lifted,
        lifted.into(),
        "masking was not lifted for some kind"
    );
}

/// What the hart did not give is not explained.
#[test]
fn an_explanation_that_does_not_agree_is_not_given() {
    let before = State {
        hart: Hart::fresh(),
        mem: vec![0; 4096],
        given: None,
    };
    let mut after = before.clone();
    let map = PageMap::default();
    let answer = sporhulma::step(&mut after.hart, &mut after.mem, &map.words);
    assert_eq!(answer.cause, 2);
    let trap = Trap::explain(&before, &map, &Symbols::default(), &after.hart, 3);
    assert_eq!(trap.rows.len(), 2);
    assert_eq!(trap.rows[1].0, "note");
    assert!(trap.rows[1]
        .1
        .contains("no explanation: it comes to cause 2 with tval 0x0"));
    assert!(trap.facts.is_empty());
}

/// `csr_name` knows exactly the CSRs that the hart has.
#[test]
fn every_csr_address_is_known_or_not_as_the_hart_has_it() {
    for address in 0..4096 {
        let mut hart = Hart::fresh();
        let read = u32::from(address) << 20 | 0x2573; // csrr a0, address
        let answer = sporhulma::step_word(&mut hart, &mut [0; 4096], &[], read);
        assert_eq!(
            answer.trapped,
            disasm::csr_name(address).is_none(),
            "{address:#x}"
        );
    }
}
