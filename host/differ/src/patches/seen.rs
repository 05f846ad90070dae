//! Which patches came to be run, counted step by step, so that a test can demand that nothing is missing.
//!
//! A call's steps are taken again one by one with the second simulator. What counts is a word that was run, then patched into another one, and
//! run again, all in one call: the run that remembers the word from before would carry out the wrong one. The counts decide about no difference.

use super::make::{AROUND, SWEPT};
use super::sorts::*;
use super::store::{stored, Stored};
use crate::again::{place_at, take_again, Step};
use crate::case::{Case, PAGE};
use crate::lifted::access;
use crate::mix::list;
use crate::state::View;
use crate::ways::{Way, Ways};
use second::Kind;
use sporhulma::word::*;
use sporhulma::FAMILIES;
use sporhulma::{Answer, Hart};
use std::collections::{BTreeMap, BTreeSet};

/// A run may take so many steps in another way first, and again after each change of its setting: a word that it ran then it may not remember.
const DEEP: u64 = 512;
/// And it may remember so many words, or on the fast path so many.
const LARGE: u64 = 1024;
const LARGER: u64 = 4096;

/// So many of a hundred programs are to run a patched word, so many one that was run late enough before, and so many one on the fast path.
const LEAST: f64 = 85.0;
const LEAST_DEEP: f64 = 40.0;
const LEAST_FAST: f64 = 35.0;

/// A word as it was run: from where, after how many steps with the setting, and how often the setting had changed.
#[derive(Clone, Copy)]
struct Ran {
    pc: u64,
    word: u32,
    steps: u64,
    setting: u64,
    /// Of a step on the fast path, the number of the stay there.
    stay: Option<u64>,
}

/// What patched a word that had been run.
#[derive(Clone, Copy)]
struct Patched {
    by: &'static str,
    second: bool,
    place: &'static str,
    name: &'static str,
    before: Ran,
}

/// What is known of four bytes of memory, in a call.
#[derive(Clone, Copy, Default)]
struct Word {
    call: u64,
    ran: Option<Ran>,
    patched: Option<Patched>,
}

/// What the fast path remembers at a place: in which call and stay, of which address or page, and a word's place in memory.
#[derive(Clone, Copy, Default)]
struct Entry {
    known: [u64; 2],
    of: u64,
    at: usize,
}

/// Puts an entry at its place, and gives the one that was there in the same stay.
fn take(entries: &mut Vec<Entry>, at: u64, entry: Entry) -> Option<Entry> {
    let at = at as usize;
    if entries.len() <= at {
        entries.resize(at + 1, Entry::default());
    }
    let before = std::mem::replace(&mut entries[at], entry);
    (before.known == entry.known).then_some(before)
}

#[derive(Default)]
pub struct Seen {
    programs: u64,
    calls: u64,
    steps: u64,
    /// The programs that run a patched word, a deep one, and one on the fast path.
    full: [u64; 3],
    /// Of each sort how many, how many deep ones, and how many that were run, patched and run again in one stay on the fast path.
    counts: BTreeMap<Sort, [u64; 3]>,
    /// The steps that the fast path takes, and the calls that reach it.
    fast: [u64; 2],
    /// The budgets that were spent, of whole runs and of first parts.
    budgets: [BTreeSet<u64>; 2],
    /// Of the program at hand whether it has run one, a deep one, and one on the fast path.
    has: [bool; 3],
    words: Vec<Word>,
    /// Of the call at hand: the words that it ran, the steps since the setting changed, how often it did, and by what.
    distinct: u64,
    since: u64,
    changes: u64,
    changed: BTreeSet<&'static str>,
    ways: Ways,
    /// Of the stay at hand: the addresses and places of the words at each place of the memo, and the pages at each of theirs.
    entries: Vec<Entry>,
    pages: Vec<Entry>,
    memory: Vec<u8>,
}

impl Seen {
    pub fn begin(&mut self) {
        self.programs += 1;
        self.has = [false; 3];
    }

    pub fn end(&mut self) {
        for (full, has) in self.full.iter_mut().zip(self.has) {
            *full += u64::from(has);
        }
    }

    /// Counts a call that was carried out alike by both, and its parts' steps.
    pub fn note(&mut self, case: &Case, [first, second]: [u64; 2], answer: &Answer) {
        self.calls += 1;
        self.steps += answer.count;
        if answer.count == first + second {
            self.budgets[0].insert(first + second);
            self.budgets[1].insert(first);
        }
        (self.distinct, self.since, self.changes) = (0, 0, 0);
        self.changed.clear();
        self.ways = Ways::default();
        self.words.resize(case.mem.len() / 4, Word::default());
        let mut memory = std::mem::take(&mut self.memory);
        take_again(case, answer.count, &mut memory, |step| {
            self.note_step(&step, &case.map);
        });
        self.memory = memory;
        for (most, sort) in [(LARGE, LARGE_CODE), (LARGER, LARGER_CODE)] {
            if self.distinct > most {
                self.count(sort, [false; 2]);
            }
        }
        self.fast[1] += u64::from(self.ways.stays > 0);
        if self.ways.at_once > 0 {
            self.count(AT_ONCE, [false; 2]);
        }
    }

    fn count(&mut self, sort: Sort, [deep, fast]: [bool; 2]) {
        let counts = self.counts.entry(sort).or_default();
        counts[0] += 1;
        counts[1] += u64::from(deep);
        counts[2] += u64::from(fast);
    }

    /// The number of the stay on the fast path, if it takes the step; counts why it does not, and what it remembers anew.
    fn note_way(&mut self, step: &Step, place: Option<usize>) -> Option<u64> {
        let (stay, fast) = (self.ways.stays, self.ways.is_fast());
        if self.ways.next(step) != Way::Fast {
            if let (true, Some(word)) = (fast, step.word) {
                let [left, cause] = left(step, word);
                self.count(("fast path left for", left), [false; 2]);
                self.count(("fast path left for", cause), [false; 2]);
            }
            return None;
        }
        self.fast[0] += 1;
        let pc = step.before.rest[PC];
        let at = place.unwrap_or_default();
        let known = [self.calls, stay];
        let entry = Entry { known, of: pc, at };
        let before = take(&mut self.entries, pc / 4 % LARGER, entry);
        if let Some(before) = before.filter(|before| before.of != pc) {
            let taken = TAKEN[usize::from(before.at == at)];
            self.count(("entry in the place of", taken), [false; 2]);
        }
        if let Some(access) = step.word.and_then(|word| access(step.before, word)) {
            let of = access.address / PAGE;
            let store = u64::from(access.kind == Kind::Store);
            let entry = Entry { known, of, at: 0 };
            let before = take(&mut self.pages, of % 64 + 64 * store, entry);
            if before.is_some_and(|before| before.of != of) {
                self.count(CROWDED, [false; 2]);
            }
        }
        Some(stay)
    }

    fn note_step(&mut self, step: &Step, map: &[u64]) {
        let fetched = !(step.answer.trapped && [1, 12].contains(&step.answer.cause));
        let place = place_at(step.before, map);
        let stay = self.note_way(step, place);
        if let (true, Some(word), Some(place)) = (fetched, step.word, place) {
            self.note_run(place / 4, step.before, word, stay);
            let stored = stored(step.before, word, map).filter(|_| !step.answer.trapped);
            if let Some(stored) = stored {
                self.note_store(&stored, step.before, place);
            }
        }
        self.since += 1;
        if let Some(name) = change(step) {
            self.changed.insert(name);
            self.changes += 1;
            self.since = 0;
        }
    }

    /// What is known of a word, in this call.
    fn word(&mut self, at: usize) -> &mut Word {
        let call = self.calls;
        let word = &mut self.words[at];
        if word.call != call {
            *word = Word {
                call,
                ..Word::default()
            };
        }
        word
    }

    fn note_run(&mut self, at: usize, hart: &Hart, word: u32, stay: Option<u64>) {
        let ran = Ran {
            pc: hart.rest[PC],
            word,
            steps: self.since,
            setting: self.changes,
            stay,
        };
        let known = self.word(at);
        let first = known.ran.replace(ran).is_none();
        let patched = known.patched.take();
        self.distinct += u64::from(first);
        if let Some(patched) = patched.filter(|patched| patched.before.word != word) {
            self.note_patched(&patched, &ran, hart);
        }
    }

    /// Counts a word that was run, patched into another one, and is now run again.
    fn note_patched(&mut self, patched: &Patched, now: &Ran, hart: &Hart) {
        let before = &patched.before;
        let deep = before.setting == now.setting && before.steps >= DEEP;
        let fast = now.stay.is_some() && before.stay == now.stay;
        self.has[0] = true;
        self.has[1] |= deep;
        self.has[2] |= fast;
        let deep = [deep, fast];
        self.count(("by", patched.by), deep);
        if patched.second {
            self.count(("second word of", patched.by), deep);
        }
        self.count(("word", patched.place), deep);
        if let Some(edge) = edge(patched.place, now.pc) {
            self.count(("word", edge), deep);
        }
        if hart.rest[ELP] == 1 {
            self.count(PAD, deep);
        }
        self.count(("address", patched.name), deep);
        self.count(("run by", RUNS[usize::from(now.pc != before.pc)]), deep);
        let view = View::of(&hart.rest);
        let mode = match (view.mode, view.fetch.paged) {
            (0, _) => MODES[0],
            (1, true) => MODES[1],
            (1, false) => MODES[2],
            _ => MODES[3],
        };
        self.count(("run in", mode), deep);
        let family = second::family(now.word) as usize;
        self.count(("form", FAMILIES[family]), deep);
        for name in std::mem::take(&mut self.changed) {
            self.count(("after", name), deep);
        }
    }

    fn note_store(&mut self, stored: &Stored, hart: &Hart, code: usize) {
        let view = View::of(&hart.rest);
        let first = stored.place / 4;
        let beside = stored.place / PAGE == code as u64 / PAGE;
        if beside && self.word(first as usize).ran.is_none() {
            let deep = self.since >= DEEP;
            let fast = self.ways.is_fast();
            self.count(BESIDE, [deep, fast]);
        }
        for at in first..=(stored.place + stored.bytes - 1) / 4 {
            let address = (stored.address & !3) + 4 * (at - first);
            let known = self.word(at as usize);
            let Some(before) = known.ran else { continue };
            let name = match (view.fetch.paged, view.data.paged) {
                (true, _) if address != before.pc => NAMES[1],
                (false, true) => NAMES[2],
                _ => NAMES[0],
            };
            known.patched = Some(Patched {
                by: stored.by,
                second: at > first,
                place: place(before.pc, hart.rest[PC]),
                name,
                before,
            });
        }
    }
}

impl Seen {
    fn share(&self, part: u64) -> f64 {
        100.0 * part as f64 / self.programs.max(1) as f64
    }

    /// What a reader of the counts would miss, a sentence each.
    pub fn complaints(&self) -> Vec<String> {
        let (sorts, deep) = sorts();
        let mut complaints = Vec::new();
        for (at, sort) in sorts.iter().enumerate() {
            let [all, late, fast] = self.counts.get(sort).copied().unwrap_or_default();
            let (kind, name) = sort;
            if all == 0 {
                complaints.push(format!("patches, {kind} {name}: never seen"));
            } else if late == 0 && at < deep {
                complaints.push(format!(
                    "patches, {kind} {name}: never seen of a word that was run after {DEEP} steps"
                ));
            } else if fast == 0 && at < deep && !is_slow(sort) {
                complaints.push(format!(
                    "patches, {kind} {name}: never seen on the fast path"
                ));
            }
        }
        let missing = SWEPT.filter(|steps| !self.budgets[0].contains(steps));
        complaints.extend(missing.map(|steps| format!("patches: no runs of {steps} steps")));
        for (budgets, of) in self.budgets.iter().zip(["runs", "first parts"]) {
            let missing = AROUND.iter().filter(|steps| !budgets.contains(steps));
            complaints.extend(missing.map(|steps| format!("patches: no {of} of {steps} steps")));
        }
        let least = [
            (LEAST, "run"),
            (LEAST_DEEP, "run late"),
            (LEAST_FAST, "run on the fast path"),
        ];
        for ((least, what), full) in least.into_iter().zip(self.full) {
            let share = self.share(full);
            if share < least {
                complaints.push(format!(
                    "only {share:.1} % of the programs {what} a patched word, and {least} % are to"
                ));
            }
        }
        complaints
    }

    pub fn text(&self) -> String {
        let [full, deep, fast] = self.full.map(|part| self.share(part));
        let [steps, calls] = self.fast;
        let mut text = format!(
            "patches    {} programs in {} calls with {} steps, of which the fast path takes {steps} in {calls} calls;\n\
             \x20          {full:.1} % run a patched word, {deep:.1} % one that they ran before it after {DEEP} steps and more,\n\
             \x20          {fast:.1} % one that they ran before it on the fast path (each sort: all/so late/so fast)\n",
            self.programs, self.calls, self.steps
        );
        let (sorts, _) = sorts();
        for group in sorts.chunk_by(|one, other| one.0 == other.0) {
            let counts = group.iter().map(|sort| {
                let [all, deep, fast] = self.counts.get(sort).copied().unwrap_or_default();
                match [deep, fast] {
                    [0, 0] => format!("{}: {all}", sort.1),
                    _ => format!("{}: {all}/{deep}/{fast}", sort.1),
                }
            });
            list(&mut text, &format!("  {}", group[0].0), counts.collect(), 5);
        }
        text
    }
}

#[cfg(test)]
mod tests {
    use super::*;
    use crate::case::{Call, BASE};
    use crate::simulator::{Second, Simulator};
    use formats::*;

    const NOP: u32 = 0x13;

    /// What is counted of a call in M. x1 is memory's start, x2 what is patched in.
    fn seen(words: &[u32], patched: u64, steps: u64) -> Seen {
        let mut case = Case::empty();
        case.mem = words.iter().flat_map(|word| word.to_le_bytes()).collect();
        case.mem.resize(PAGE as usize, 0);
        (case.hart.x[1], case.hart.x[2]) = (BASE, patched);
        case.call = Call::Run(steps);
        let mut end = case.clone();
        let answer = Second.call(case.call, &mut end.hart, &mut end.mem, &case.map);
        let mut seen = Seen::default();
        seen.begin();
        seen.note(&case, [1, steps - 1], &answer);
        seen.end();
        seen
    }

    fn sorts_of(seen: &Seen, kind: &str) -> Vec<(&'static str, [u64; 3])> {
        let counts = seen.counts.iter().filter(|(sort, _)| sort.0 == kind);
        counts.map(|(sort, counts)| (sort.1, *counts)).collect()
    }

    /// A word that is run, patched by the next one, and run again, in a loop of three.
    #[test]
    fn a_word_counts_when_it_is_run_before_the_patch_and_behind_it() {
        let back = j(0, -8_i64 as u64);
        let program = [NOP, s(STORE, 2, 1, 2, 0), back];
        let other = i(OP_IMM, 0, 3, 3, 1).into();
        let all = seen(&program, other, 8);
        assert_eq!(sorts_of(&all, "by"), [("SW", [1, 0, 0])]);
        assert_eq!(
            sorts_of(&all, "word"),
            [("first of a page", [1, 0, 0]), ("just run", [1, 0, 0])]
        );
        assert_eq!(sorts_of(&all, "address"), [("its own", [1, 0, 0])]);
        assert_eq!(sorts_of(&all, "run in"), [("M", [1, 0, 0])]);
        assert_eq!(sorts_of(&all, "form"), [("OP-IMM", [1, 0, 0])]);
        assert_eq!((all.full, all.steps), ([1, 0, 0], 8));
        assert!(all.budgets[0].contains(&8) && all.budgets[1].contains(&1));
        // The same word again; not run again; not run before.
        assert!(seen(&program, NOP.into(), 8).counts.is_empty());
        assert!(seen(&program, other, 3).counts.is_empty());
        let ahead = [s(STORE, 2, 1, 2, 4), NOP, NOP];
        assert!(seen(&ahead, other, 3).full == [0; 3]);
    }

    /// The patch comes after so many rounds of two, and stores two words.
    #[test]
    fn a_word_that_was_run_late_counts_as_deep() {
        let rounds = |count| {
            let program = [
                i(OP_IMM, 0, 4, 0, count),
                NOP,
                i(OP_IMM, 0, 4, 4, u64::MAX),
                b(1, 4, 0, -8_i64 as u64),
                s(STORE, 3, 1, 2, 0),
                j(0, -16_i64 as u64),
            ];
            let patched = u64::from(i(OP_IMM, 0, 3, 3, 1)) << 32 | u64::from(program[0]);
            sorts_of(&seen(&program, patched, 3 * count + 4), "second word of")
        };
        assert_eq!(rounds(100), [("SD", [1, 0, 0])]);
        assert_eq!(rounds(200), [("SD", [1, 1, 0])]);
        // The 1,024th step is the first of the 342nd round, and the fast path takes the others.
        assert_eq!(rounds(341), [("SD", [1, 1, 0])]);
        assert_eq!(rounds(342), [("SD", [1, 1, 1])]);
    }

    #[test]
    fn each_sort_each_budget_and_the_shares_are_asked_for() {
        let mut all = Seen::default();
        let (sorts, deep) = sorts();
        all.counts.extend(sorts.iter().map(|sort| (*sort, [1; 3])));
        all.budgets = [AROUND.into(), AROUND.into()];
        all.budgets[0].extend(SWEPT);
        (all.programs, all.full) = (100, [85, 40, 35]);
        assert_eq!(all.complaints(), Vec::<String>::new());
        for (at, sort) in sorts.iter().enumerate() {
            all.counts.insert(*sort, [1, 0, 1]);
            assert_eq!(all.complaints().len(), usize::from(at < deep));
            all.counts.insert(*sort, [1, 1, 0]);
            let demanded = at < deep && !is_slow(sort);
            assert_eq!(all.complaints().len(), usize::from(demanded));
            all.counts.remove(sort);
            assert_eq!(all.complaints().len(), 1);
            all.counts.insert(*sort, [1; 3]);
        }
        all.budgets[0].remove(&1024);
        assert_eq!(all.complaints().len(), 1);
        all.budgets[0].insert(1024);
        for of in 0..2 {
            all.budgets[of].remove(&64);
            assert_eq!(all.complaints().len(), 1);
            all.budgets[of].insert(64);
        }
        for of in 0..3 {
            all.full[of] -= 1;
            assert_eq!(all.complaints().len(), 1);
            all.full[of] += 1;
        }
    }
}
