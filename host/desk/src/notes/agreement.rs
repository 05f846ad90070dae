//! A run in stretches sees what a trace sees that looks at every step; and what both count is what is counted here by hand.

use super::watch::{Count, Seen, Watch};
use crate::drive::{Drive, End, Limits};
use crate::environment::{Environment, Output, Services};
use crate::explain::agreement::{hart, instruction, map, Random};
use crate::explain::{family, shadow_stack_on};
use crate::map::PageMap;
use crate::progress::Progress;
use crate::state::State;
use crate::symbols::Symbols;
use crate::window::{Start, Window};
use sporhulma::word;

const MEMORIES: usize = 200;
const HARTS: usize = 30;
const STEPS: u64 = 60;

fn drive(state: &State, map: &PageMap) -> Drive<'static> {
    let limits = Limits {
        steps: Some(STEPS),
        follow: u64::MAX,
    };
    let environment = Environment::new(Services::default(), 3, None, Output::Stderr);
    let map: &'static PageMap = Box::leak(Box::new(map.clone()));
    Drive::start(state.clone(), map, limits, environment).unwrap()
}

/// All that a watch has seen.
fn told(watch: &Watch) -> ([Seen; 4], [Count; 4]) {
    let seen = [watch.shadow, watch.pads, watch.map, watch.masking];
    (seen, watch.idle)
}

/// Pushes and pop-checks that go through while the shadow stack is not active, by mode.
fn idle(state: &State, map: &PageMap) -> [Count; 4] {
    let (mut state, mut idle) = (state.clone(), [Count::default(); 4]);
    for _ in 0..STEPS {
        let before = state.clone();
        let answer = state.steps(map, 1);
        let Ok(word) = before.next_word(map) else {
            continue;
        };
        if answer.trapped || shadow_stack_on(&before.hart) {
            continue;
        }
        let count = &mut idle[before.mode() as usize];
        count.pushes += u64::from(sporhulma::family(word) == family::PUSH);
        count.checks += u64::from(sporhulma::family(word) == family::POP);
    }
    idle
}

/// Words that go on more often than they trap, so that runs last; stores among them, which change code.
fn memory(random: &mut Random) -> Vec<u8> {
    let plain = [
        0x0000_0013,
        0x0015_8593,
        0xce10_4073,
        0xcdc0_c073,
        0x00a5_b023,
        0x0005_b503,
    ];
    let mut word = || match random.pick(&[0, 0, 0, 1]) {
        0 => random.pick(&plain),
        _ => instruction(random),
    };
    (0..2048).flat_map(|_| word().to_le_bytes()).collect()
}

#[test]
fn a_run_sees_what_a_trace_sees() {
    let random = &mut Random::new(0x0bad_5eed_0bad_5eed);
    let mut seen = [[0; 3]; 4];
    let mut counted = 0;
    let symbols = Symbols::default();
    let progress = Progress::start(None, &symbols).unwrap();
    for _ in 0..MEMORIES {
        let mem = memory(random);
        for _ in 0..HARTS {
            let mut hart = hart(random);
            hart.rest[word::MTVEC] = random.pick(&[0x8000_0000, 0x8000_0100, 0x8000_1000]);
            hart.rest[word::STVEC] = random.pick(&[0x1000, 0x8000_0040, 0x8000_1000]);
            let word = instruction(random);
            let state = State {
                hart,
                mem: mem.clone(),
                given: random.pick(&[None, None, Some(word)]),
            };
            let map = map(random);
            let drive = |window: Window| {
                drive(&state, &map)
                    .run(&window, &progress, &mut |_| Ok(()))
                    .unwrap()
            };
            let run = drive(Window::None);
            let trace = drive(Window::From(Start::Step(1), u64::MAX));
            assert_eq!(told(&run.watch), told(&trace.watch), "{hart:x?}");
            assert_eq!(run.after.hart, trace.after.hart);
            let before = |end: &End| end.before.as_ref().map(|state| (state.hart, state.given));
            assert_eq!(before(&run), before(&trace), "{hart:x?}");
            if run.watch.shadow != Seen::Off && run.count == STEPS {
                assert_eq!(run.watch.idle, idle(&state, &map), "{hart:x?}");
                counted += run
                    .watch
                    .idle
                    .iter()
                    .map(|count| count.pushes + count.checks)
                    .sum::<u64>();
            }
            for (row, now) in seen.iter_mut().zip(told(&run.watch).0) {
                row[now as usize] += 1;
            }
        }
    }
    assert!(
        counted > 1000,
        "pushes and pop-checks that did nothing: {counted}"
    );
    // Each of the four was met on, both with an effect and without.
    assert!(
        seen.iter().all(|row| row[1] > 20 && row[2] > 20),
        "{seen:?}"
    );
}

/// What was kept of an earlier fetch is never taken for another page, mode or setting.
#[test]
fn a_watch_fetches_what_the_hart_fetches() {
    let random = &mut Random::new(0x0dd_b1a5_ed00);
    let mem: Vec<u8> = (0..0x2000).map(|_| random.word() as u8).collect();
    let (mut good, mut bad) = (0, 0);
    for _ in 0..200 {
        let map = map(random);
        let mut watch = Watch::new(&sporhulma::Hart::fresh(), &map);
        let mut state = State {
            hart: hart(random),
            mem: mem.clone(),
            given: None,
        };
        for _ in 0..200 {
            let other = hart(random);
            // One word of the hart at a time, and pc.
            let index = random.pick(&[word::MODE, word::SATP, word::MSTATUS, word::MENVCFG]);
            state.hart.rest[index] = other.rest[index];
            let code = random.pick(&[0x1000, 0x1008, 0x1ffc, 0x3000, 0xffff_ffff_ffff_f004]);
            state.hart.rest[word::PC] = random.pick(&[code, code, code, other.rest[word::PC]]);
            let expected = state.next_word(&map).ok();
            assert_eq!(watch.fetched(&state, &map).map(|found| found.1), expected);
            *(if expected.is_some() {
                &mut good
            } else {
                &mut bad
            }) += 1;
        }
    }
    assert!(good > 2000 && bad > 2000, "{good} {bad}");
}
