//! Leaks that rules 13.10 to 13.15 exclude, each planted in a wrapper of `second`: the pairs must find it.
//!
//! The same wrapper stands on both sides, so that the two simulators agree and only the comparison between the two
//! memories can find anything. A leak is planted where a step has trapped: there the map kept the user out.

use differ::again::word_at;
use differ::case::{Call, PAGE};
use differ::named::{leaf, place};
use differ::simulator::{Second, Simulator};
use differ::soak::{Failure, Name, Soak};
use differ::state::SSE;
use differ::text;
use differ::world::{R, RESERVED, U, V, W};
use sporhulma::word::*;
use sporhulma::{Answer, Hart, MOST_STEPS};
use std::path::Path;

/// Within so many pairs each leak must be found.
const PAIRS: u64 = 5_000;

/// A step that has trapped: the hart before it, its word and the kind of its access, the access's place in memory as the
/// leaf has it whatever its other bits say, and where the trap's tval stands.
struct Stop {
    before: Hart,
    word: u32,
    kind: u64,
    place: usize,
    tval: usize,
}

/// The kinds of access: `second::family`'s numbers, and one for a fetch.
const FETCH: u64 = u64::MAX;
const LOAD: u64 = 6;
const STORE: u64 = 7;
const PUSH: u64 = 19;
const POP: u64 = 20;
const SWAP: u64 = 21;

/// Changes what a page fault leaves.
type Leak = fn(&Stop, &mut Hart, &mut [u8], &[u64], &mut Answer);

struct Leaky(Leak);

impl Simulator for Leaky {
    fn call(&self, call: Call, hart: &mut Hart, mem: &mut [u8], map: &[u64]) -> Answer {
        let Call::Run(budget) = call else {
            return self.step(call, hart, mem, map);
        };
        let mut answer = Second.call(Call::Run(0), hart, mem, map);
        if answer.refusal != 0 || budget > MOST_STEPS {
            return Second.call(call, hart, mem, map);
        }
        while answer.count < budget && !answer.trapped {
            let step = self.step(Call::Step, hart, mem, map);
            answer = Answer {
                count: answer.count + step.count,
                ..step
            };
        }
        answer
    }
}

impl Leaky {
    fn step(&self, call: Call, hart: &mut Hart, mem: &mut [u8], map: &[u64]) -> Answer {
        let before = *hart;
        let mut answer = Second.call(call, hart, mem, map);
        if answer.trapped && [12, 13, 15].contains(&answer.cause) {
            if let Some(stop) = stop(before, call, hart, mem, map, &answer) {
                self.0(&stop, hart, mem, map, &mut answer);
            }
        }
        answer
    }
}

fn stop(
    before: Hart,
    call: Call,
    hart: &Hart,
    mem: &[u8],
    map: &[u64],
    answer: &Answer,
) -> Option<Stop> {
    let tval = if hart.rest[MODE] == 1 { STVAL } else { MTVAL };
    let address = hart.rest[tval];
    let offset = address % PAGE;
    let place = place(leaf(map, address)?).checked_mul(PAGE)? + offset;
    let place = usize::try_from(place).ok().filter(|at| *at < mem.len())?;
    let word = match call {
        Call::StepWord(word) => word,
        _ => word_at(&before, mem, map)?,
    };
    let kind = if answer.cause == 12 {
        FETCH
    } else {
        second::family(word)
    };
    Some(Stop {
        before,
        word,
        kind,
        place,
        tval,
    })
}

/// The map with every leaf changed.
fn with(map: &[u64], change: fn(u64) -> u64) -> Vec<u64> {
    let mut map = map.to_vec();
    map.iter_mut()
        .skip(1)
        .step_by(2)
        .for_each(|leaf| *leaf = change(*leaf));
    map
}

/// The step's access again, with another map.
fn again(stop: &Stop, hart: &mut Hart, mem: &mut [u8], map: &[u64], answer: &mut Answer) {
    *hart = stop.before;
    *answer = Second.call(Call::StepWord(stop.word), hart, mem, map);
}

/// The first pair that finds the leak, by the two memories alone.
fn found(leak: Leak) -> Failure {
    let mut soak = Soak::new(Leaky(leak), Leaky(leak), 1);
    for number in 0..PAIRS {
        soak.pair(number);
        if let Some(failure) = soak.failures.pop() {
            let simulators = |line: &String| line.starts_with("the two simulators");
            assert!(!failure.differences.iter().any(simulators));
            return failure;
        }
    }
    panic!("it was not found within {PAIRS} pairs");
}

/// Whether a line of what was found starts so.
fn says(failure: &Failure, start: &str) -> bool {
    failure
        .differences
        .iter()
        .any(|line| line.starts_with(start))
}

fn says_of_a_byte(failure: &Failure, what: &str) -> bool {
    let byte = |line: &String| line.starts_with("byte ") && line.contains(what);
    failure.differences.iter().any(byte)
}

/// An access of one kind that does not ask for U.
macro_rules! ignoring_u {
    ($kind:expr) => {
        found(|stop, hart, mem, map, answer| {
            if stop.kind == $kind {
                again(stop, hart, mem, &with(map, |leaf| leaf | U), answer);
            }
        })
    };
}

#[test]
fn a_load_that_ignores_u() {
    assert!(says(&ignoring_u!(LOAD), "x"));
}

#[test]
fn a_store_that_ignores_u() {
    assert!(says_of_a_byte(&ignoring_u!(STORE), "changed in left"));
}

#[test]
fn a_push_that_ignores_u() {
    assert!(says_of_a_byte(&ignoring_u!(PUSH), "changed in left"));
}

#[test]
fn a_pop_that_ignores_u() {
    assert!(says(&ignoring_u!(POP), "ssp"));
}

#[test]
fn a_swap_that_ignores_u() {
    assert!(says_of_a_byte(&ignoring_u!(SWAP), "changed in left"));
}

/// The word is fetched as if U were set, and carried out by the map as it is.
#[test]
fn a_fetch_that_ignores_u() {
    found(|stop, hart, mem, map, answer| {
        let (mut other, mut copy) = (stop.before, mem.to_vec());
        let open = with(map, |leaf| leaf | U);
        let fetched = Second.call(Call::Step, &mut other, &mut copy, &open);
        if stop.kind == FETCH && !(fetched.trapped && [1, 12].contains(&fetched.cause)) {
            again(stop, hart, mem, map, answer);
        }
    });
}

/// Entries that have U and are no page's: what they name is not the user's.
#[test]
fn a_load_by_an_entry_that_is_not_valid() {
    let reserved: Leak = |stop, hart, mem, map, answer| {
        if stop.kind == LOAD {
            again(stop, hart, mem, &with(map, |leaf| leaf & !RESERVED), answer);
        }
    };
    let without_v: Leak = |stop, hart, mem, map, answer| {
        if stop.kind == LOAD {
            again(stop, hart, mem, &with(map, |leaf| leaf | V), answer);
        }
    };
    let written_alone: Leak = |stop, hart, mem, map, answer| {
        if stop.kind == LOAD {
            let readable = |leaf| if leaf & W != 0 { leaf | R } else { leaf };
            again(stop, hart, mem, &with(map, readable), answer);
        }
    };
    for leak in [reserved, without_v, written_alone] {
        assert!(says(&found(leak), "x"));
    }
}

/// A shadow page where menvcfg.SSE is 0.
#[test]
fn a_load_from_a_shadow_page_that_is_none() {
    let failure = found(|stop, hart, mem, map, answer| {
        let menvcfg = stop.before.rest[MENVCFG];
        if stop.kind == LOAD && menvcfg & SSE == 0 {
            *hart = stop.before;
            hart.rest[MENVCFG] |= SSE;
            *answer = Second.call(Call::StepWord(stop.word), hart, mem, map);
            hart.rest[MENVCFG] = menvcfg;
        }
    });
    assert!(says(&failure, "x"));
}

/// The step traps as it should, and yet something of the byte shows or changes.
#[test]
fn tval_with_a_byte_of_the_frame() {
    let failure = found(|stop, hart, mem, _, _| {
        hart.rest[stop.tval] = hart.rest[stop.tval] & !0xFF | u64::from(mem[stop.place]);
    });
    assert!(says(&failure, "mtval") || says(&failure, "stval"));
    assert!(!says(&failure, "answer"));
}

#[test]
fn a_count_that_depends_on_a_byte() {
    let failure = found(|stop, _, mem, _, answer| {
        answer.count += u64::from(mem[stop.place] & 1);
    });
    assert!(says(&failure, "answer"));
    assert_eq!(failure.differences.len(), 4);
}

#[test]
fn a_cause_that_depends_on_a_byte() {
    let failure = found(|stop, hart, mem, _, answer| {
        if answer.cause == 13 && mem[stop.place] & 1 == 1 {
            answer.cause = 5;
            hart.rest[stop.tval - 1] = 5;
        }
    });
    assert!(says(&failure, "answer"));
    assert!(says(&failure, "mcause") || says(&failure, "scause"));
}

#[test]
fn rd_of_a_load_that_traps() {
    let failure = found(|stop, hart, mem, _, _| {
        let rd = (stop.word >> 7) as usize & 31;
        if stop.kind == LOAD && rd != 0 {
            hart.x[rd] = u64::from(mem[stop.place]);
        }
    });
    assert!(says(&failure, "x"));
    assert!(!says(&failure, "answer"));
}

#[test]
fn a_byte_stored_by_a_store_that_traps() {
    let failure = found(|stop, hart, mem, _, _| {
        if stop.kind == STORE {
            mem[stop.place] = hart.x[(stop.word >> 20) as usize & 31] as u8;
        }
    });
    assert!(says_of_a_byte(&failure, "changed in"));
    assert!(!says(&failure, "answer") && !says(&failure, "x"));
}

/// What was found is written as two cases, and made again from its seed and number.
#[test]
fn a_pair_that_was_found_can_be_made_again() {
    const LOADS: Leak = |stop, hart, mem, map, answer| {
        if stop.kind == LOAD {
            again(stop, hart, mem, &with(map, |leaf| leaf | U), answer);
        }
    };
    let failure = found(LOADS);
    let Name::Pair(number) = failure.name else {
        panic!("{} is no pair", failure.name);
    };
    let command = format!("tools/differ again --seed 1 --pair {number}");
    assert_eq!(failure.again(), command);
    let paths = failure
        .save(Path::new(env!("CARGO_TARGET_TMPDIR")))
        .expect("written");
    let read = |path| text::read(&std::fs::read_to_string(path).expect("read"));
    let cases: Result<Vec<_>, _> = paths.iter().map(read).collect();
    let other = failure.other.clone().expect("a pair has two");
    assert_eq!(cases, Ok(vec![failure.case.clone(), other]));
    let mut soak = Soak::new(Leaky(LOADS), Leaky(LOADS), 1);
    soak.pair(number);
    assert_eq!(soak.failures[0].differences, failure.differences);
}

/// Without a leak the wrapper is `second`: what the tests above find is the leak and nothing else.
#[test]
fn no_leak_no_difference() {
    let mut soak = Soak::new(Leaky(|_, _, _, _, _| {}), Second, 1);
    (0..PAIRS).for_each(|number| soak.pair(number));
    assert!(soak.failures.is_empty());
}

/// A leak on one side alone is found on that side, and as a difference between the two simulators.
#[test]
fn a_leak_of_one_simulator_is_laid_to_it() {
    let leak: Leak = |stop, hart, mem, map, answer| {
        if stop.kind == LOAD {
            again(stop, hart, mem, &with(map, |leaf| leaf | U), answer);
        }
    };
    let mut soak = Soak::new(Second, Leaky(leak), 1);
    (0..PAIRS).for_each(|number| soak.pair(number));
    // Where the load reached a frame that another entry names, the two simulators differ and nothing leaks.
    let (leaking, other): (Vec<_>, Vec<_>) = soak
        .failures
        .iter()
        .partition(|failure| says(failure, "a user's program sees"));
    assert!(!leaking.is_empty() && !other.is_empty());
    for failure in &soak.failures {
        assert!(says(failure, "the two simulators on"));
        assert!(!failure
            .differences
            .iter()
            .any(|line| line.contains("simulator left")));
    }
}
