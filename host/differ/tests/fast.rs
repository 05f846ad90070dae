//! The fast path of a run, planted in a wrapper of `second` with one fault: the patches must find it.
//!
//! The wrapper goes the ways of the proved run (src/ways.rs). On the fast path it remembers each word that it runs, in a memo of 4,096 entries by
//! pc, and carries out what it remembers; a store empties the entries of its eight bytes, which are two in each quarter of the memo. It remembers
//! pages too, 64 of each kind.

use differ::again::{place_at, word_at, Step};
use differ::case::{Call, PAGE};
use differ::lifted::access;
use differ::patches::store::{stored, Stored, PUSH};
use differ::simulator::{Second, Simulator};
use differ::soak::Soak;
use differ::ways::{fast_does, Way, Ways};
use second::Kind;
use sporhulma::word::PC;
use sporhulma::{Answer, Hart, MOST_STEPS};

/// Within so many programs each fault must be found.
const PROGRAMS: u64 = 500;

const ENTRIES: usize = 4096;
const QUARTER: usize = ENTRIES / 4;
const PAGES: u64 = 64;

#[derive(Clone, Copy)]
struct Entry {
    pc: u64,
    word: u32,
    /// The word's place in memory.
    at: u64,
}

/// A store that meets an entry: what was stored, the entry, and the quarter of the memo that it is in.
struct Meeting<'a> {
    stored: &'a Stored,
    entry: Entry,
    quarter: usize,
}

/// An access that traps on the fast path, and the page at its place of its own kind and of the other one.
struct Trapped {
    cause: u64,
    page: u64,
    own: Option<u64>,
    other: Option<u64>,
}

#[derive(Clone, Copy)]
struct Fault {
    /// Whether an entry is kept although a store has changed its word.
    keeps: fn(&Meeting) -> bool,
    /// Whether an entry is taken for another pc's.
    tags: bool,
    /// Whether the memo is kept when the fast path is left and begun again.
    stays: bool,
    /// Whether an access that traps is taken for one that does not.
    passes: fn(&Trapped) -> bool,
}

const NONE: Fault = Fault {
    keeps: |_| false,
    tags: false,
    stays: false,
    passes: |_| false,
};

/// What is remembered in a run.
struct Memo {
    ways: Ways,
    entries: Vec<Option<Entry>>,
    /// The pages of loads, and of stores.
    pages: [[Option<u64>; PAGES as usize]; 2],
}

struct Fast(Fault);

impl Simulator for Fast {
    fn call(&self, call: Call, hart: &mut Hart, mem: &mut [u8], map: &[u64]) -> Answer {
        let mut answer = Second.call(Call::Run(0), hart, mem, map);
        let budget = match call {
            Call::Run(budget) if answer.refusal == 0 && budget <= MOST_STEPS => budget,
            _ => return Second.call(call, hart, mem, map),
        };
        let mut memo = Memo {
            ways: Ways::default(),
            entries: vec![None; ENTRIES],
            pages: [[None; PAGES as usize]; 2],
        };
        while answer.count < budget && !answer.trapped {
            answer = Answer {
                count: answer.count + 1,
                ..self.step(&mut memo, hart, mem, map)
            };
        }
        answer
    }
}

impl Fast {
    fn step(&self, memo: &mut Memo, hart: &mut Hart, mem: &mut [u8], map: &[u64]) -> Answer {
        let before = *hart;
        let (there, place) = (word_at(&before, mem, map), place_at(&before, map));
        let pc = before.rest[PC];
        let slot = pc as usize / 4 % ENTRIES;
        let hit = memo.entries[slot].filter(|entry| entry.pc == pc || self.0.tags);
        let stale = hit.map(|entry| entry.word).filter(|_| memo.ways.is_fast());
        let stale = stale.filter(|word| Some(*word) != there);
        let remembered = stale.and_then(|word| remembered(word, hart, mem, map));
        let word = if remembered.is_some() { stale } else { there };
        let mut answer = remembered.unwrap_or_else(|| Second.call(Call::Step, hart, mem, map));
        if memo.ways.is_fast() && answer.trapped && self.passes(memo, &before, word, &answer) {
            *hart = before;
            hart.rest[PC] = pc.wrapping_add(4);
            answer = Answer {
                trapped: false,
                cause: 0,
                ..answer
            };
        }
        let stays = memo.ways.stays;
        let step = Step {
            before: &before,
            word,
            answer,
            after: hart,
        };
        let way = memo.ways.next(&step);
        if memo.ways.stays != stays && !self.0.stays {
            memo.entries.fill(None);
            memo.pages = [[None; PAGES as usize]; 2];
        }
        if let (Way::Fast, Some(word), Some(at)) = (way, word, place) {
            let at = at as u64;
            memo.entries[slot] = Some(Entry { pc, word, at });
            if let Some(access) = access(&before, word) {
                let page = access.address / PAGE;
                let kind = usize::from(access.kind == Kind::Store);
                memo.pages[kind][(page % PAGES) as usize] = Some(page);
            }
            if let Some(stored) = stored(&before, word, map) {
                self.empty(&mut memo.entries, &stored);
            }
        }
        answer
    }

    fn empty(&self, entries: &mut [Option<Entry>], stored: &Stored) {
        let eight = stored.place / 8;
        for quarter in 0..4 {
            for word in 0..2 {
                let slot = quarter * QUARTER + eight as usize % (QUARTER / 2) * 2 + word;
                let entry = &mut entries[slot];
                *entry = entry.filter(|entry| {
                    let meeting = Meeting {
                        stored,
                        entry: *entry,
                        quarter,
                    };
                    entry.at / 8 != eight || (self.0.keeps)(&meeting)
                });
            }
        }
    }

    fn passes(&self, memo: &Memo, before: &Hart, word: Option<u32>, answer: &Answer) -> bool {
        let Some(access) = word.and_then(|word| access(before, word)) else {
            return false;
        };
        let page = access.address / PAGE;
        let kind = usize::from(access.kind == Kind::Store);
        let at = (page % PAGES) as usize;
        (self.0.passes)(&Trapped {
            cause: answer.cause,
            page,
            own: memo.pages[kind][at],
            other: memo.pages[1 - kind][at],
        })
    }
}

/// The step by a remembered word that is no longer there, if the fast path does it.
fn remembered(word: u32, hart: &mut Hart, mem: &mut [u8], map: &[u64]) -> Option<Answer> {
    let (before, mut bytes) = (*hart, mem.to_vec());
    let mut after = before;
    let answer = Second.call(Call::StepWord(word), &mut after, &mut bytes, map);
    let step = Step {
        before: &before,
        word: Some(word),
        answer,
        after: &after,
    };
    fast_does(&step, word).then(|| {
        *hart = after;
        mem.copy_from_slice(&bytes);
        answer
    })
}

fn found(name: &str, fault: Fault) {
    let mut soak = Soak::new(Fast(fault), Second, 1);
    for number in 0..PROGRAMS {
        soak.patch(number);
        if let Some(failure) = soak.failures.pop() {
            println!("{name}: {}", failure.name);
            return;
        }
    }
    panic!("{name}: not found within {PROGRAMS} programs");
}

fn keeping(name: &str, keeps: fn(&Meeting) -> bool) {
    found(name, Fault { keeps, ..NONE });
}

#[test]
fn not_emptied_by_one_instruction() {
    keeping("SB", |met| met.stored.by == "SB");
    keeping("SH", |met| met.stored.by == "SH");
    keeping("SW", |met| met.stored.by == "SW");
    keeping("SD", |met| met.stored.by == "SD");
    keeping("push", |met| met.stored.by == PUSH);
}

#[test]
fn one_quarter_not_emptied() {
    keeping("first quarter", |met| met.quarter == 0);
    keeping("second quarter", |met| met.quarter == 1);
    keeping("third quarter", |met| met.quarter == 2);
    keeping("last quarter", |met| met.quarter == 3);
}

#[test]
fn one_word_of_the_eight_bytes_not_emptied() {
    keeping("first word", |met| met.entry.at % 8 == 0);
    keeping("second word", |met| met.entry.at % 8 == 4);
    let half = |met: &Meeting| met.stored.bytes == 8 && met.entry.at % 8 == 4;
    keeping("second word of eight", half);
}

#[test]
fn emptied_by_the_address_of_the_store_alone() {
    let named = |met: &Meeting| met.entry.pc / 8 != met.stored.address / 8;
    keeping("another name", named);
}

#[test]
fn a_word_taken_for_another() {
    let fault = Fault { tags: true, ..NONE };
    found("tags", fault);
}

#[test]
fn kept_from_stay_to_stay() {
    let fault = Fault {
        stays: true,
        ..NONE
    };
    found("stays", fault);
}

#[test]
fn a_page_taken_for_another() {
    let passing = |name, passes| found(name, Fault { passes, ..NONE });
    passing("alignment", |met| {
        [4, 6].contains(&met.cause) && met.own == Some(met.page)
    });
    passing("another page", |met| {
        [5, 7, 13, 15].contains(&met.cause) && met.own.is_some_and(|own| own != met.page)
    });
    passing("a load's page", |met| {
        [7, 15].contains(&met.cause) && met.other == Some(met.page)
    });
}

/// Without a fault the wrapper is `second`: what the tests above find is the fault and nothing else.
#[test]
fn no_fault_no_difference() {
    let mut soak = Soak::new(Fast(NONE), Second, 1);
    (0..PROGRAMS).for_each(|number| soak.patch(number));
    assert!(soak.failures.is_empty());
}
