//! The sorts of patches that a test can demand, and which of them a word, a store or a step is.

use super::store::{ALL, DOUBLES};
use crate::again::Step;
use crate::case::PAGE;
use formats::csr;
use sporhulma::word::*;
use sporhulma::{family, FAMILIES};

/// Where the word stood, seen from the instruction that patched it.
pub const PLACES: [&str; 5] = ["itself", "next", "just run", "ahead", "behind"];
pub const EDGES: [&str; 3] = ["last of a page", "first of a page", "next, over an edge"];
/// By which address: the one that it was run from, another page of the same frame, or through MPRV.
pub const NAMES: [&str; 3] = ["its own", "another page", "MPRV"];
pub const RUNS: [&str; 2] = ["the page as before", "another page"];
pub const MODES: [&str; 4] = ["U", "S", "S without Sv39", "M"];
pub const SETTINGS: [&str; 8] = [
    "mstatus", "sstatus", "satp", "menvcfg", "senvcfg", "mseccfg", "MRET", "SRET",
];
/// The families of words that are patched in.
pub const FORMS: [usize; 19] = [
    0, 1, 2, 3, 5, 6, 7, 8, 9, 10, 11, 12, 13, 14, 17, 18, 19, 22, 23,
];

/// What ends a stay on the fast path, and the causes of the traps among that.
pub const LEFT: [&str; 6] = ["trap", "swap", "CSR", "MRET", "SRET", "jump to a pad"];
pub const CAUSES: [&str; 9] = [
    "cause 2", "cause 4", "cause 5", "cause 6", "cause 7", "cause 8", "cause 11", "cause 13",
    "cause 15",
];
/// What had been in the memo at the place of a word.
pub const TAKEN: [&str; 2] = ["another word's", "the same word's by another page"];

pub type Sort = (&'static str, &'static str);

/// A word that is to be a landing pad, as the hart expects one.
pub const PAD: Sort = ("word", "landing pad");
/// A store to data in the page of the code that stores.
pub const BESIDE: Sort = ("data", "in the code's page");
pub const LARGE_CODE: Sort = ("code", "over 1,024 words");
pub const LARGER_CODE: Sort = ("code", "over 4,096 words");
/// The fast path taken up again at once behind a slow step.
pub const AT_ONCE: Sort = ("fast path", "again at once");
/// A page remembered where another one had been.
pub const CROWDED: Sort = ("fast path", "page in another's place");

/// Every sort that there must be, and those of which there must be some that were run late enough before.
pub fn sorts() -> (Vec<Sort>, usize) {
    let mut sorts = Vec::new();
    sorts.extend(ALL.map(|by| ("by", by)));
    sorts.extend(DOUBLES.map(|by| ("second word of", by)));
    sorts.extend(PLACES.map(|place| ("word", place)));
    sorts.extend(EDGES.map(|edge| ("word", edge)));
    sorts.push(PAD);
    sorts.extend(NAMES.map(|name| ("address", name)));
    sorts.extend(RUNS.map(|run| ("run by", run)));
    sorts.extend(MODES.map(|mode| ("run in", mode)));
    sorts.push(BESIDE);
    let deep = sorts.len();
    sorts.push(LARGER_CODE);
    sorts.extend([AT_ONCE, CROWDED]);
    sorts.extend(LEFT.map(|word| ("fast path left for", word)));
    sorts.extend(CAUSES.map(|cause| ("fast path left for", cause)));
    sorts.extend(TAKEN.map(|by| ("entry in the place of", by)));
    sorts.extend(SETTINGS.map(|setting| ("after", setting)));
    sorts.extend(FORMS.map(|family| ("form", FAMILIES[family])));
    sorts.push(LARGE_CODE);
    (sorts, deep)
}

/// What the fast path always leaves: swaps, and where a landing pad is expected.
pub fn is_slow(sort: &Sort) -> bool {
    *sort == PAD || sort.1.starts_with("swap")
}

/// Where a word at `word` stands, seen from `pc`.
pub fn place(word: u64, pc: u64) -> &'static str {
    match word.wrapping_sub(pc) as i64 {
        0 => PLACES[0],
        4 => PLACES[1],
        -4 => PLACES[2],
        5.. => PLACES[3],
        _ => PLACES[4],
    }
}

pub fn edge(place: &str, pc: u64) -> Option<&'static str> {
    match pc % PAGE {
        0 if place == PLACES[1] => Some(EDGES[2]),
        0 => Some(EDGES[1]),
        at if at == PAGE - 4 => Some(EDGES[0]),
        _ => None,
    }
}

/// Why the fast path leaves a step to the slow path, and the cause of a trap.
pub fn left(step: &Step, word: u32) -> [&'static str; 2] {
    if step.answer.trapped {
        let name = format!("cause {}", step.answer.cause);
        let cause = CAUSES.into_iter().find(|cause| *cause == name);
        return [LEFT[0], cause.unwrap_or("another cause")];
    }
    let why = match second::family(word) {
        family::JALR => LEFT[5],
        family::SRET => LEFT[4],
        family::MRET => LEFT[3],
        family::CSR => LEFT[2],
        family::SWAP => LEFT[1],
        _ => "something else",
    };
    [why, "no trap"]
}

/// By what a step has changed a word on which the setting depends.
pub fn change(step: &Step) -> Option<&'static str> {
    const WORDS: [usize; 6] = [MODE, SATP, MSTATUS, MENVCFG, SENVCFG, MSECCFG];
    let same = |word: &usize| step.before.rest[*word] == step.after.rest[*word];
    if step.answer.trapped || WORDS.iter().all(same) {
        return None;
    }
    let word = step.word?;
    match (second::family(word), (word >> 20) as u16) {
        (family::MRET, _) => Some("MRET"),
        (family::SRET, _) => Some("SRET"),
        (_, csr::MSTATUS) => Some("mstatus"),
        (_, csr::SSTATUS) => Some("sstatus"),
        (_, csr::SATP) => Some("satp"),
        (_, csr::MENVCFG) => Some("menvcfg"),
        (_, csr::SENVCFG) => Some("senvcfg"),
        _ => Some("mseccfg"),
    }
}
