//! The table of `desk frames` against the proved hart, which decides: one step in user mode for every page of a map and every kind
//! of access.

mod common;

use common::json::Value;
use common::*;
use sporhulma::{word, Hart, BASE};
use std::collections::BTreeSet;
use std::sync::OnceLock;

/// The frames of a memory of which each frame holds `li a0,N` over and over, N its number: a load, a fetch or a
/// pop-check through a page tells which frame it came to.
const FRAMES: u64 = 8;

fn content(frame: u64) -> u64 {
    let word = frame << 20 | 0x513;
    word << 32 | word
}

fn memory() -> &'static [u8] {
    static MEMORY: OnceLock<Vec<u8>> = OnceLock::new();
    let words = || (0..FRAMES).flat_map(|frame| vec![content(frame); 512]);
    MEMORY.get_or_init(|| words().flat_map(u64::to_le_bytes).collect())
}

/// One step of the proved hart with its registers at the page: a given word, or one that it fetches there. Nothing if it traps.
fn step(
    hart: &Hart,
    map: &[u64],
    page: u64,
    word: Option<u32>,
    ra: u64,
) -> Option<(Hart, Vec<u8>)> {
    let (mut hart, mut mem) = (*hart, memory().to_vec());
    (hart.x[1], hart.x[10], hart.x[11], hart.x[12]) = (ra, u64::MAX, page, page);
    hart.rest[word::PC] = page;
    let pushes = word == Some(SSPUSH_RA);
    hart.rest[word::SSP] = if pushes { page.wrapping_add(8) } else { page };
    let answer = match word {
        Some(word) => sporhulma::step_word(&mut hart, &mut mem, map, word),
        None => sporhulma::step(&mut hart, &mut mem, map),
    };
    assert_eq!(answer.refusal, 0);
    (!answer.trapped).then_some((hart, mem))
}

/// The one frame in which memory has changed.
fn changed(mem: &[u8]) -> Option<u64> {
    let frames = mem.chunks(4096).zip(memory().chunks(4096));
    let mut changed = (0..).zip(frames).filter(|(_, (now, before))| now != before);
    let first = changed.next().map(|(frame, _)| frame);
    assert!(changed.next().is_none());
    first
}

const SWAP: u32 = 0x48b6_352f; // ssamoswap.d a0,a1,(a2)

/// The frame that a user program comes to by an access at a page, if the proved hart lets it.
fn reached(hart: &Hart, map: &[u64], page: u64, access: &str) -> Option<u64> {
    let after = |word, ra| step(hart, map, page, word, ra);
    let loaded = |a0| (0..FRAMES).find(|&frame| content(frame) == a0);
    match access {
        "load" => loaded(after(Some(LD_A0_A1), 0)?.0.x[10]),
        "store" => changed(&after(Some(SD_A0_A1), 0)?.1),
        "fetch" => Some(after(None, 0)?.0.x[10]),
        "shadow push" => changed(&after(Some(SSPUSH_RA), u64::MAX)?.1),
        // With the shadow stack off a pop-check does nothing: ssp tells.
        "shadow pop-check" => (0..FRAMES).find(|&frame| {
            let popped = after(Some(SSPOPCHK_RA), content(frame));
            popped.is_some_and(|(hart, _)| hart.rest[word::SSP] == page.wrapping_add(8))
        }),
        _ => {
            let (hart, mem) = after(Some(SWAP), 0)?;
            assert_eq!(loaded(hart.x[10]), changed(&mem));
            changed(&mem)
        }
    }
}

const ACCESSES: [&str; 6] = [
    "load",
    "store",
    "fetch",
    "shadow push",
    "shadow pop-check",
    "shadow swap",
];

/// Page, access and frame.
type Reach = BTreeSet<(u64, String, u64)>;

/// All that the proved hart lets a user program do by a map.
fn reach(hart: &Hart, map: &[(u64, u64)]) -> Reach {
    let words: Vec<u64> = map.iter().flat_map(|&(page, leaf)| [page, leaf]).collect();
    let mut reach = Reach::new();
    for page in map.iter().map(|entry| address(entry.0)) {
        for access in ACCESSES {
            let frame = reached(hart, &words, page, access);
            reach.extend(frame.map(|frame| (page, access.to_string(), BASE + frame * 4096)));
        }
    }
    reach
}

/// All that the table says is usable.
fn usable(table: &Value) -> Reach {
    let mut usable = Reach::new();
    for frame in table.at("named").list() {
        for entry in frame.at("by").list() {
            let place = |access: &str| {
                (
                    entry.at("virtual").hex(),
                    access.to_string(),
                    frame.at("frame").hex(),
                )
            };
            usable.extend(entry.at("usable").texts().into_iter().map(place));
        }
    }
    usable
}

/// Pages and the frames that they name.
fn names(reach: &Reach) -> BTreeSet<(u64, u64)> {
    reach
        .iter()
        .map(|(page, _, frame)| (*page, *frame))
        .collect()
}

fn named(table: &Value) -> BTreeSet<(u64, u64)> {
    let entries = table
        .at("named")
        .list()
        .iter()
        .flat_map(|frame| frame.at("by").list());
    entries
        .map(|entry| (entry.at("virtual").hex(), entry.at("frame").hex()))
        .collect()
}

/// The virtual address of a page, bits 63:39 as bit 38.
fn address(page: u64) -> u64 {
    ((page << 37) as i64 >> 25) as u64
}

/// A map of 64 pages, low and high ones, with these leaves.
fn map(leaves: impl Iterator<Item = u64>) -> Vec<(u64, u64)> {
    let pages = (1..=32).chain(0x7ff_ffe0..=0x7ff_ffff);
    pages.zip(leaves).collect()
}

/// Maps with every low byte of a leaf, of frames in memory and of frames just outside it, and one with valid entries that have one of
/// bits 63:54 set, or none. Frames go by n / 2, so that each meets V set and clear.
fn maps() -> Vec<Vec<(u64, u64)>> {
    let inside = |n: u64| (0x80000 + n / 2 % FRAMES) << 10;
    let outside = |n: u64| [0x7ffff, 0x80000 + FRAMES][(n / 2 % 2) as usize] << 10;
    let reserved = |n: u64| (1 << (53 + n % 11)) & !(1 << 53);
    let mut maps = vec![map((0..64).map(|n| inside(n) | 0xdb | reserved(n)))];
    for first in [0, 64, 128, 192] {
        maps.push(map((first..first + 64).map(|n| inside(n) | n)));
        maps.push(map((first..first + 64).map(|n| outside(n) | n)));
    }
    maps
}

/// The options of a run and the bits that they set: menvcfg, senvcfg, mstatus.
const SETTINGS: [(&str, u64, u64, u64); 6] = [
    ("", 0, 0, 0),
    ("--shadow-stack", 8, 8, 0),
    ("--csr menvcfg=8", 8, 0, 0),
    ("--csr senvcfg=8", 0, 8, 0),
    ("--csr mstatus=0x80000", 0, 0, 1 << 19),
    ("--shadow-stack --csr mstatus=0x80000", 8, 8, 1 << 19),
];

fn user(menvcfg: u64, senvcfg: u64, mstatus: u64) -> Hart {
    let mut hart = Hart::fresh();
    hart.rest[word::MODE] = 0;
    hart.rest[word::SATP] = 8 << 60;
    hart.rest[word::MENVCFG] = menvcfg;
    hart.rest[word::SENVCFG] = senvcfg;
    hart.rest[word::MSTATUS] |= mstatus;
    hart
}

/// The proved hart decides: by every low byte of a leaf and every kind of access, a user program comes exactly to what the
/// table says is usable. And it is exactly the named frames that it could come to if A, D, MXR and senvcfg.SSE were set.
#[test]
fn the_table_is_what_the_proved_hart_does() {
    let desk = Desk::new("frames-hart");
    desk.image("p.bin", &[ECALL]);
    let options = "--map all.map --memory 32K --mode U --sv39 --steps 0 --frames --json";
    let (mut named_pages, mut idle_pages, mut accesses) = (0, 0, BTreeSet::new());
    for map in maps() {
        let line = |&(page, leaf): &(u64, u64)| format!("{:#x} -> leaf {leaf:#x}\n", address(page));
        desk.file("all.map", map.iter().map(line).collect::<String>());
        let mended: Vec<_> = map
            .iter()
            .map(|&(page, leaf)| (page, leaf | 0xc0))
            .collect();
        for (setting, menvcfg, senvcfg, mstatus) in SETTINGS {
            let run = desk.object(&format!("run p.bin {options} {setting}"));
            let (table, usable) = (run.at("frames"), usable(run.at("frames")));
            assert_eq!(
                usable,
                reach(&user(menvcfg, senvcfg, mstatus), &map),
                "{setting}"
            );
            let could = names(&reach(&user(menvcfg, 8, 1 << 19), &mended));
            assert_eq!(named(table), could, "{setting}");
            each_frame_once(table);
            named_pages += could.len();
            idle_pages += could.len() - names(&usable).len();
            accesses.extend(usable.into_iter().map(|(_, access, _)| access));
        }
    }
    assert_eq!(
        accesses,
        ACCESSES.map(str::to_string).into(),
        "some kind never came up"
    );
    // In each setting 8 bytes for each of r, rw, x, rx and rwx, and for w where menvcfg.SSE is 1 (in 3 of 6); half of them without A.
    // And 6 entries without a reserved bit.
    let bytes = 6 * 8 * 5 + 3 * 8;
    assert_eq!((named_pages, idle_pages), (bytes + 6 * 6, bytes / 2));
}

/// Named frames and ranges of unnamed ones make up memory.
fn each_frame_once(table: &Value) {
    let numbers = |range: &Value| range.at("first").hex() / 4096..=range.at("last").hex() / 4096;
    let named = table
        .at("named")
        .list()
        .iter()
        .map(|frame| frame.at("frame").hex() / 4096);
    let unnamed = table.at("unnamed").list().iter().flat_map(numbers);
    let mut all: Vec<u64> = named.chain(unnamed).collect();
    all.sort();
    assert_eq!(all, numbers(table.at("memory")).collect::<Vec<_>>());
}
