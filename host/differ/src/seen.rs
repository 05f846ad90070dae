//! What the pairs of rules 13.10 to 13.15 were, counted step by step, so that a test can demand that nothing is missing.
//!
//! A pair's steps are taken again one by one with the second simulator, on the first memory. The counts decide about no
//! difference, only whether the test has seen enough.

use crate::again::take_again;
use crate::case::{Call, Case};
use crate::hidden::Made;
use crate::mix::list;
use crate::named::{leaf, place, users, valid};
use crate::reach::{fetch, reach, Reach, FETCH, KINDS, LOAD, POP, PUSH, STORE, SWAP};
use crate::world::U;
use second::Reason;
use sporhulma::word::*;
use sporhulma::{Answer, Hart};
use std::collections::BTreeMap;

const DONE: &str = "done";
/// Why the map kept a user out: the leaf is a page's without U, and its frame hidden; it has U and is no page's, and its
/// frame hidden; it lacks A or D; its frame lies outside memory.
const STOPPED: [&str; 4] = ["no U", "not valid", "no A or D", "outside"];
/// Accesses that were carried out in a special way: through an address that masking changed; of less than eight bytes;
/// to a frame that two entries with U name; to one that an entry without U names too; to the frame of the code.
const SPECIAL: [(&str, &[&str]); 5] = [
    ("tagged", &[LOAD, STORE, PUSH, POP, SWAP]),
    ("narrow", &[LOAD, STORE, SWAP]),
    ("named twice", &[LOAD, STORE]),
    ("named without U too", &[LOAD, STORE]),
    ("own code", &[LOAD, STORE]),
];
/// The causes that a user's step has; 18 with its tval.
const CAUSES: [&str; 14] = [
    "0",
    "1",
    "2",
    "3",
    "4",
    "5",
    "6",
    "7",
    "8",
    "12",
    "13",
    "15",
    "18 tval 2",
    "18 tval 3",
];
const ENDS: [&str; 7] = [
    "trap",
    "budget spent",
    "step taken",
    "refusal 1",
    "refusal 2",
    "refusal 3",
    "refusal 4",
];
const CALLS: [&str; 4] = ["run", "step", "step with a word", "row"];

/// So many of a hundred pairs are to be full: they hide a frame, and at least `STEPS` steps were completed, of which one
/// is a load and one a store that reached memory.
const LEAST: f64 = 60.0;
const STEPS: u64 = 3;

type Sort = (&'static str, &'static str);

#[derive(Default)]
pub struct Seen {
    pairs: u64,
    full: u64,
    hiding: u64,
    steps: u64,
    counts: BTreeMap<Sort, u64>,
    /// Of the pair at hand: which frames are named, its calls, and the completed steps, loads and stores.
    named: Vec<bool>,
    calls: u64,
    completed: [u64; 3],
    memory: Vec<u8>,
}

impl Seen {
    pub fn begin(&mut self, made: &Made) {
        self.pairs += 1;
        self.named.clone_from(&made.named);
        self.hiding += u64::from(self.hides());
        (self.calls, self.completed) = (0, [0; 3]);
    }

    fn hides(&self) -> bool {
        self.named.contains(&false)
    }

    /// Counts a call that was carried out alike by all.
    pub fn note(&mut self, case: &Case, answer: &Answer) {
        self.calls += 1;
        let call = match case.call {
            Call::Run(_) => CALLS[0],
            Call::Step => CALLS[1],
            Call::StepWord(_) => CALLS[2],
        };
        self.count(("call", call));
        if let refusal @ 1.. = answer.refusal {
            self.count(("end", ENDS[refusal as usize + 2]));
            return;
        }
        self.count(match (answer.trapped, case.call) {
            (true, _) => ("end", ENDS[0]),
            (false, Call::Run(_)) => ("end", ENDS[1]),
            (false, _) => ("end", ENDS[2]),
        });
        self.note_steps(case, answer.count);
    }

    pub fn end(&mut self) {
        if self.calls > 1 {
            self.count(("call", CALLS[3]));
        }
        let [steps, loads, stores] = self.completed;
        self.steps += steps;
        self.full += u64::from(self.hides() && steps >= STEPS && loads > 0 && stores > 0);
    }

    fn count(&mut self, sort: Sort) {
        *self.counts.entry(sort).or_default() += 1;
    }

    fn note_steps(&mut self, case: &Case, steps: u64) {
        let mut memory = std::mem::take(&mut self.memory);
        take_again(case, steps, &mut memory, |step| {
            if !matches!(case.call, Call::StepWord(_)) {
                let fetch = fetch(step.before, &case.map, case.mem.len());
                self.note_reach(&fetch, step.before, &case.map, &step.answer);
            }
            let reach = |word| reach(step.before, &case.map, case.mem.len(), word);
            if let Some(reach) = step.word.and_then(reach) {
                self.note_reach(&reach, step.before, &case.map, &step.answer);
            }
            self.note_cause(&step.answer, step.after);
            self.completed[0] += u64::from(!step.answer.trapped);
        });
        self.memory = memory;
    }

    fn note_cause(&mut self, answer: &Answer, left: &Hart) {
        if !answer.trapped {
            return;
        }
        let tval = left.rest[if left.rest[MODE] == 1 { STVAL } else { MTVAL }];
        let name = match answer.cause {
            18 => format!("18 tval {tval}"),
            cause => cause.to_string(),
        };
        if let Some(at) = CAUSES.iter().position(|one| *one == name) {
            self.count(("cause", CAUSES[at]));
        }
    }

    /// Counts what became of an access. A fetch is done where the word was carried out, even if that trapped.
    fn note_reach(&mut self, reach: &Reach, hart: &Hart, map: &[u64], answer: &Answer) {
        let kind = reach.kind;
        let stops = match kind {
            FETCH => [1, 12],
            LOAD => [5, 13],
            _ => [7, 15],
        };
        let stopped = answer.trapped && stops.contains(&answer.cause);
        let found = leaf(map, reach.path.transformed);
        if let (true, Some(leaf), Err(reason)) = (stopped, found, reach.path.place) {
            if let Some(why) = self.reason(leaf, reason) {
                self.count((kind, why));
            }
        }
        if stopped || answer.trapped && kind != FETCH {
            return;
        }
        self.count((kind, DONE));
        self.completed[1] += u64::from(kind == LOAD);
        self.completed[2] += u64::from(kind == STORE);
        if kind != FETCH {
            self.note_special(reach, hart, map, found);
        }
    }

    /// Why a leaf kept a user out, where that is one of the reasons that are counted.
    fn reason(&self, leaf: u64, reason: Reason) -> Option<&'static str> {
        let hidden = self.named.get(place(leaf) as usize) == Some(&false);
        let user = leaf & U != 0;
        let [closed, broken, idle, outside] = STOPPED;
        match reason {
            Reason::NotOfUser => hidden.then_some(closed),
            Reason::NotAccessed | Reason::NotDirty => Some(idle),
            Reason::Outside => Some(outside),
            other => (other.rule() == 5 && user && hidden).then_some(broken),
        }
    }

    fn note_special(&mut self, reach: &Reach, hart: &Hart, map: &[u64], found: Option<u64>) {
        let frame = found.map(place);
        let leaves = || map.chunks_exact(2).map(|entry| entry[1]);
        let others = || leaves().filter(move |leaf| Some(place(*leaf)) == frame);
        let menvcfg = hart.rest[MENVCFG];
        let users = others().filter(|leaf| users(*leaf, menvcfg)).count();
        let closed = others().any(|leaf| valid(leaf, menvcfg) && leaf & U == 0);
        let code = leaf(map, hart.rest[PC]).map(place);
        let are = [
            reach.access.address != reach.path.transformed,
            reach.access.width < 8,
            users > 1,
            closed,
            code == frame,
        ];
        for ((name, kinds), is) in SPECIAL.into_iter().zip(are) {
            if is && kinds.contains(&reach.kind) {
                self.count((reach.kind, name));
            }
        }
    }

    fn share(&self) -> f64 {
        100.0 * self.full as f64 / self.pairs.max(1) as f64
    }

    /// What a reader of the counts would miss, a sentence each.
    pub fn complaints(&self) -> Vec<String> {
        let missing: Vec<String> = sorts()
            .into_iter()
            .filter(|sort| !self.counts.contains_key(sort))
            .map(|(kind, fate)| format!("'{kind}: {fate}' was never seen in a pair"))
            .collect();
        let share = self.share();
        let few = (share < LEAST)
            .then(|| format!("only {share:.1} % of the pairs are full, and {LEAST} % are to be"));
        missing.into_iter().chain(few).collect()
    }

    pub fn text(&self) -> String {
        let hiding = 100.0 * self.hiding as f64 / self.pairs.max(1) as f64;
        let mut text = format!(
            "pairs      {} (A13) with {} completed steps; {hiding:.1} % hide a frame,\n\
             \x20          {:.1} % are full: {STEPS} completed steps or more with a load and a store\n",
            self.pairs,
            self.steps,
            self.share()
        );
        for kind in ["call", "end", "cause"].iter().chain(&KINDS) {
            let sorts = sorts().into_iter().filter(|sort| sort.0 == *kind);
            let counts = sorts.map(|sort| {
                let count = self.counts.get(&sort).unwrap_or(&0);
                format!("{}: {count}", sort.1)
            });
            list(&mut text, &format!("  {kind}"), counts.collect(), 7);
        }
        text
    }
}

/// Every sort that there must be.
fn sorts() -> Vec<Sort> {
    let mut sorts = Vec::new();
    for kind in KINDS {
        sorts.push((kind, DONE));
        sorts.extend(STOPPED.map(|why| (kind, why)));
        let special = SPECIAL.iter().filter(|(_, kinds)| kinds.contains(&kind));
        sorts.extend(special.map(|(name, _)| (kind, *name)));
    }
    sorts.extend(CAUSES.map(|cause| ("cause", cause)));
    sorts.extend(ENDS.map(|end| ("end", end)));
    sorts.extend(CALLS.map(|call| ("call", call)));
    sorts
}

#[cfg(test)]
mod tests {
    use super::*;
    use crate::simulator::{Second, Simulator};
    use crate::state::SV39;
    use crate::world::{A, D, R, V};
    use formats::{i, s};

    /// A user with a page of its own in the first frame and another's in the second.
    fn case(words: [u32; 4]) -> Case {
        let mut case = Case::empty();
        case.hart.rest[MODE] = 0;
        case.hart.rest[SATP] = SV39;
        case.hart.rest[PC] = 0x5000;
        case.hart.x[1] = 0x5800;
        case.hart.x[2] = 0x6800;
        let frame = 0x80000 << 10;
        case.map = vec![5, frame | 0xDF, 6, (frame + (1 << 10)) | V | R | A | D];
        case.mem = words.iter().flat_map(|word| word.to_le_bytes()).collect();
        case.mem.resize(0x2000, 0);
        case
    }

    fn seen(words: [u32; 4]) -> Seen {
        let mut seen = Seen::default();
        seen.begin(&Made {
            named: vec![true, false],
            ..Made::default()
        });
        let mut case = case(words);
        case.call = Call::Run(4);
        let start = case.clone();
        let answer = Second.call(case.call, &mut case.hart, &mut case.mem, &case.map);
        seen.note(&start, &answer);
        seen.end();
        seen
    }

    const NOP: u32 = 0x13;

    #[test]
    fn a_load_and_a_store_make_a_pair_full() {
        let load = i(formats::LOAD, 3, 3, 1, 0);
        let store = s(formats::STORE, 2, 1, 3, 0);
        let all = seen([load, store, NOP, NOP]);
        assert_eq!((all.full, all.steps), (1, 4));
        for sort in [
            (LOAD, DONE),
            (STORE, DONE),
            (STORE, "own code"),
            (STORE, "narrow"),
        ] {
            assert_eq!(all.counts.get(&sort), Some(&1), "{sort:?}");
        }
        assert_eq!(all.counts.get(&("end", "budget spent")), Some(&1));
        assert_eq!(all.counts.get(&(FETCH, DONE)), Some(&4));
        assert_eq!(seen([load, NOP, NOP, NOP]).full, 0);
        assert_eq!(seen([store, NOP, NOP, NOP]).full, 0);
        assert_eq!(seen([load, store, formats::ECALL, NOP]).full, 0);
    }

    #[test]
    fn what_is_stopped_is_not_done() {
        let all = seen([i(formats::LOAD, 3, 3, 2, 0), NOP, NOP, NOP]);
        assert_eq!(all.counts.get(&(LOAD, "no U")), Some(&1));
        assert_eq!(all.counts.get(&("cause", "13")), Some(&1));
        assert_eq!(all.counts.get(&("end", "trap")), Some(&1));
        assert_eq!(all.counts.get(&(LOAD, DONE)), None);
        assert_eq!((all.full, all.steps), (0, 0));
    }

    #[test]
    fn each_sort_and_the_share_are_asked_for() {
        let mut all = Seen::default();
        all.counts.extend(sorts().into_iter().map(|sort| (sort, 1)));
        (all.pairs, all.full) = (100, 60);
        assert_eq!(all.complaints(), Vec::<String>::new());
        all.full = 59;
        assert_eq!(
            all.complaints(),
            ["only 59.0 % of the pairs are full, and 60 % are to be"]
        );
        all.full = 60;
        for sort in sorts() {
            all.counts.remove(&sort);
            assert_eq!(all.complaints().len(), 1);
            all.counts.insert(sort, 1);
        }
    }
}
