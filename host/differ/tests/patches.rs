//! A memo of decoded words by pc, planted in a wrapper of `second`, that is not emptied where it should be: the patches must find it.
//!
//! The wrapper takes some steps of each run as they are, then remembers each word that it runs, and carries out what it remembers without
//! looking at memory. Where the setting changes it forgets all and begins again. Another wrapper remembers what pages let an access do.

use differ::again::word_at;
use differ::case::{Call, PAGE};
use differ::lifted::access;
use differ::patches::store::{stored, Stored, PUSH};
use differ::simulator::{Second, Simulator};
use differ::soak::{Failure, Name, Soak};
use differ::state::View;
use differ::text;
use sporhulma::word::*;
use sporhulma::{Answer, Hart, MOST_STEPS};
use std::collections::BTreeMap;
use std::path::Path;

/// Within so many programs each fault must be found.
const PROGRAMS: u64 = 500;

/// The steps that a run takes before it remembers anything: none, and the two that are thought of.
const FIRST: [u64; 3] = [0, 64, 512];

const ENTRIES: usize = 1024;

#[derive(Clone, Copy)]
struct Entry {
    pc: u64,
    word: u32,
}

/// A store that meets an entry: what was stored, by which hart, whether the entry is that of its second word, and the entry's pc.
struct Meeting<'a> {
    stored: &'a Stored,
    hart: &'a Hart,
    second: bool,
    pc: u64,
}

/// What is wrong with a memo.
#[derive(Clone, Copy)]
struct Fault {
    /// Whether an entry is kept although a store has changed its word.
    keeps: fn(&Meeting) -> bool,
    /// Whether all entries are kept although the setting has changed.
    settings: bool,
    /// Whether an entry is taken for another pc's that has the same place in the memo.
    places: bool,
}

const NONE: Fault = Fault {
    keeps: |_| false,
    settings: false,
    places: false,
};

fn keeping(keeps: fn(&Meeting) -> bool) -> Fault {
    Fault { keeps, ..NONE }
}

#[derive(Clone, Copy)]
struct Memo {
    first: u64,
    fault: Fault,
}

impl Simulator for Memo {
    fn call(&self, call: Call, hart: &mut Hart, mem: &mut [u8], map: &[u64]) -> Answer {
        let mut known = [None; ENTRIES];
        let mut first = self.first;
        by_steps(call, hart, mem, map, |hart, mem| {
            let before = setting(hart);
            let answer = if first > 0 {
                first -= 1;
                Second.call(Call::Step, hart, mem, map)
            } else {
                self.step(&mut known, hart, mem, map)
            };
            if setting(hart) != before && !self.fault.settings {
                known = [None; ENTRIES];
                first = self.first;
            }
            answer
        })
    }
}

/// A call as `second` makes it, but a run that is not refused step by step by `step`.
fn by_steps(
    call: Call,
    hart: &mut Hart,
    mem: &mut [u8],
    map: &[u64],
    mut step: impl FnMut(&mut Hart, &mut [u8]) -> Answer,
) -> Answer {
    let mut answer = Second.call(Call::Run(0), hart, mem, map);
    let budget = match call {
        Call::Run(budget) if answer.refusal == 0 && budget <= MOST_STEPS => budget,
        _ => return Second.call(call, hart, mem, map),
    };
    while answer.count < budget && !answer.trapped {
        answer = Answer {
            count: answer.count + 1,
            ..step(hart, mem)
        };
    }
    answer
}

/// The words on which the setting depends.
const SETTING: [usize; 6] = [MODE, SATP, MSTATUS, MENVCFG, SENVCFG, MSECCFG];

fn setting(hart: &Hart) -> [u64; 6] {
    SETTING.map(|word| hart.rest[word])
}

impl Memo {
    /// A step by what is remembered, if the word at pc is.
    fn step(
        &self,
        known: &mut [Option<Entry>; ENTRIES],
        hart: &mut Hart,
        mem: &mut [u8],
        map: &[u64],
    ) -> Answer {
        let before = *hart;
        let pc = before.rest[PC];
        let at = pc as usize / 4 % ENTRIES;
        let hit = known[at].filter(|entry| entry.pc == pc || self.fault.places);
        let word = hit.map(|entry| entry.word).or(word_at(&before, mem, map));
        let call = hit.map_or(Call::Step, |entry| Call::StepWord(entry.word));
        let answer = Second.call(call, hart, mem, map);
        let Some(word) = word.filter(|_| !answer.trapped) else {
            return answer;
        };
        known[at] = Some(Entry { pc, word });
        if let Some(stored) = stored(&before, word, map) {
            self.empty(known, &stored, &before);
        }
        answer
    }

    /// Empties what a store has made wrong. The place of a word in its page says where its entry is, by whichever name it was run.
    fn empty(&self, known: &mut [Option<Entry>; ENTRIES], stored: &Stored, hart: &Hart) {
        let first = stored.place / 4;
        for word in first..=(stored.place + stored.bytes - 1) / 4 {
            let entry = &mut known[word as usize % ENTRIES];
            let kept = entry.filter(|entry| {
                (self.fault.keeps)(&Meeting {
                    stored,
                    hart,
                    second: word > first,
                    pc: entry.pc,
                })
            });
            *entry = kept;
        }
    }
}

/// The first program on which a simulator and `second` differ.
fn first_found(name: &str, simulator: impl Simulator) -> Failure {
    let mut soak = Soak::new(simulator, Second, 1);
    for number in 0..PROGRAMS {
        soak.patch(number);
        if let Some(failure) = soak.failures.pop() {
            println!("{name}: {}", failure.name);
            return failure;
        }
    }
    panic!("{name}: not found within {PROGRAMS} programs");
}

/// The first program that finds a fault, for each number of first steps.
fn found(name: &str, fault: Fault) -> [Failure; 3] {
    FIRST.map(|first| {
        let name = format!("{name}, after {first} steps");
        first_found(&name, Memo { first, fault })
    })
}

/// Whether an entry's pc is not the address by which its word was stored to, though both are addresses of Sv39.
fn by_another_name(meeting: &Meeting) -> bool {
    let address = (meeting.stored.address & !3) + 4 * u64::from(meeting.second);
    View::of(&meeting.hart.rest).fetch.paged && meeting.pc != address
}

#[test]
fn never_emptied() {
    found("never emptied", keeping(|_| true));
}

#[test]
fn not_emptied_by_one_instruction() {
    found("SB", keeping(|met| met.stored.by == "SB"));
    found("SH", keeping(|met| met.stored.by == "SH"));
    found("SW", keeping(|met| met.stored.by == "SW"));
    found("SD", keeping(|met| met.stored.by == "SD"));
}

#[test]
fn not_emptied_by_a_push() {
    found("push", keeping(|met| met.stored.by == PUSH));
}

#[test]
fn not_emptied_by_a_swap() {
    found("swaps", keeping(|met| met.stored.by.starts_with("swap")));
    found("swap.w", keeping(|met| met.stored.by == "swap.w"));
    found("swap.d", keeping(|met| met.stored.by == "swap.d"));
}

#[test]
fn emptied_by_the_first_of_two_words() {
    found(
        "half an SD",
        keeping(|met| met.second && met.stored.by == "SD"),
    );
    found(
        "half a push",
        keeping(|met| met.second && met.stored.by == PUSH),
    );
    found(
        "half a swap",
        keeping(|met| met.second && met.stored.by == "swap.d"),
    );
}

#[test]
fn emptied_by_the_address_of_the_store_alone() {
    found("another name", keeping(by_another_name));
}

/// Only where a word of the page of the store itself, or of another page, is patched.
#[test]
fn emptied_in_other_pages_alone() {
    found(
        "own page",
        keeping(|met| met.pc / PAGE == met.hart.rest[PC] / PAGE),
    );
    found(
        "other pages",
        keeping(|met| met.pc / PAGE != met.hart.rest[PC] / PAGE),
    );
}

/// The word right behind the store, and the one right before it.
#[test]
fn the_next_word_or_the_last_one_kept() {
    found(
        "next",
        keeping(|met| met.pc == met.hart.rest[PC].wrapping_add(4)),
    );
    found(
        "just run",
        keeping(|met| met.pc == met.hart.rest[PC].wrapping_sub(4)),
    );
    found("itself", keeping(|met| met.pc == met.hart.rest[PC]));
}

#[test]
fn kept_when_the_setting_changes() {
    let fault = Fault {
        settings: true,
        ..NONE
    };
    found("settings", fault);
}

/// What a page lets a load or a store do is remembered, and kept where the setting changes.
struct Judged;

impl Simulator for Judged {
    fn call(&self, call: Call, hart: &mut Hart, mem: &mut [u8], map: &[u64]) -> Answer {
        let mut known = BTreeMap::new();
        by_steps(call, hart, mem, map, |hart, mem| {
            let before = *hart;
            let word = word_at(&before, mem, map);
            let access = word.and_then(|word| access(&before, word));
            let page = access.map(|access| (access.kind, access.address / PAGE));
            let old = page.and_then(|page| known.get(&page)).copied();
            if let (Some(word), Some(old)) = (word, old) {
                if let Some(answer) = judged_before(word, old, hart, mem, map) {
                    return answer;
                }
            }
            let answer = Second.call(Call::Step, hart, mem, map);
            if let (Some(page), false) = (page, answer.trapped) {
                known.entry(page).or_insert(setting(&before));
            }
            answer
        })
    }
}

/// The step as with an old setting, if its word is fetched and an old setting lets it through that the new one does not.
fn judged_before(
    word: u32,
    old: [u64; 6],
    hart: &mut Hart,
    mem: &mut [u8],
    map: &[u64],
) -> Option<Answer> {
    let new = setting(hart);
    let (mut copy, mut bytes) = (*hart, mem.to_vec());
    let answer = Second.call(Call::Step, &mut copy, &mut bytes, map);
    if old == new || !answer.trapped || ![5, 7, 13, 15].contains(&answer.cause) {
        return None;
    }
    let before = *hart;
    let put = |hart: &mut Hart, words: [u64; 6]| {
        let words = SETTING.into_iter().zip(words);
        words.for_each(|(word, value)| hart.rest[word] = value);
    };
    put(hart, old);
    let answer = Second.call(Call::StepWord(word), hart, mem, map);
    if answer.trapped {
        *hart = before;
        return None;
    }
    put(hart, new);
    Some(answer)
}

#[test]
fn a_page_kept_when_the_setting_changes() {
    first_found("pages", Judged);
}

#[test]
fn taken_for_another_word_at_the_same_place() {
    let fault = Fault {
        places: true,
        ..NONE
    };
    found("places", fault);
}

/// Without a fault the wrapper is `second`: what the tests above find is the fault and nothing else.
#[test]
fn no_fault_no_difference() {
    for first in FIRST {
        let mut soak = Soak::new(Memo { first, fault: NONE }, Second, 1);
        (0..PROGRAMS).for_each(|number| soak.patch(number));
        assert!(soak.failures.is_empty());
    }
}

/// Where both simulators have the fault they agree, and a run does not agree with its two parts.
#[test]
fn a_fault_of_both_is_found_by_the_parts() {
    let fault = keeping(|_| true);
    let memo = Memo { first: 64, fault };
    let mut soak = Soak::new(memo, memo, 1);
    (0..PROGRAMS).for_each(|number| soak.patch(number));
    assert!(!soak.failures.is_empty());
    for failure in &soak.failures {
        assert!(failure.differences[0].starts_with("a run of "));
    }
}

/// What was found is written as a case, and made again from its seed and number.
#[test]
fn a_program_that_was_found_can_be_made_again() {
    let fault = keeping(|_| true);
    let [failure, ..] = found("again", fault);
    let Name::Patch(number) = failure.name else {
        panic!("{} is no program that patches itself", failure.name);
    };
    let command = format!("tools/differ again --seed 1 --patch {number}");
    assert_eq!(failure.again(), command);
    let folder = Path::new(env!("CARGO_TARGET_TMPDIR"));
    let paths = failure.save(folder).expect("written");
    let read = std::fs::read_to_string(&paths[0]).expect("read");
    assert_eq!(text::read(&read), Ok(failure.case.clone()));
    let mut soak = Soak::new(Memo { first: 0, fault }, Second, 1);
    soak.patch(number);
    assert_eq!(soak.failures[0].differences, failure.differences);
}
