//! Windows show what a trace of the whole run shows there, on random programs: from the first step at an address on, which the desk looks
//! for in stretches, and the last steps, which it makes again.

use super::{Start, Window};
use crate::drive::{Drive, Limits};
use crate::environment::{Environment, Output, Services};
use crate::explain::agreement::{hart, instruction, map, Random};
use crate::map::PageMap;
use crate::names::M;
use crate::progress::Progress;
use crate::state::State;
use crate::steps::Shown;
use crate::symbols::{Place, Symbols};
use sporhulma::{word, Hart};

const MEMORIES: usize = 100;
const HARTS: usize = 30;
const STEPS: u64 = 60;

/// A step as far as it is compared: its number, the harts before and after it, and what it wrote.
type Line = (u64, Hart, Hart, Vec<u8>);

/// What a window shows.
fn shown(state: &State, map: &PageMap, window: &Window, progress: &Progress) -> Vec<Line> {
    let limits = Limits {
        steps: Some(STEPS),
        follow: u64::MAX,
    };
    let environment = Environment::new(Services::default(), 3, None, Output::Stderr);
    let drive = Drive::start(state.clone(), map, limits, environment).unwrap();
    let mut lines = Vec::new();
    let end = drive.run(window, progress, &mut |shown| {
        if let Shown::Step(step) = shown {
            let written = step.after.mem[step.written].to_vec();
            lines.push((step.number, step.before.hart, step.after.hart, written));
        }
        Ok(())
    });
    assert_eq!(end.unwrap().shown, lines.len() as u64);
    lines
}

/// Words that go on more often than they trap, and jumps among them, so that runs come to many places.
fn memory(random: &mut Random) -> Vec<u8> {
    let plain = [
        0x0000_0013, // nop
        0x0015_8593, // addi a1,a1,1
        0x00a5_b023, // sd a0,0(a1)
        0x0005_b503, // ld a0,0(a1)
        0x0100_006f, // j .+16
        0xfe05_1ae3, // bnez a0,.-12
    ];
    let mut word = || match random.pick(&[0, 0, 0, 1]) {
        0 => random.pick(&plain),
        _ => instruction(random),
    };
    (0..2048).flat_map(|_| word().to_le_bytes()).collect()
}

/// Where the hart came for the first time: at the last such step, or at one before.
fn met(whole: &[Line], random: &mut Random) -> u64 {
    let pc = |line: &Line| line.1.rest[word::PC];
    let new = |at: &usize| whole[..*at].iter().all(|line| pc(line) != pc(&whole[*at]));
    let firsts: Vec<usize> = (0..whole.len()).filter(new).collect();
    let back = random.pick(&[1, 1, 2, 3, 9]).min(firsts.len());
    pc(&whole[firsts[firsts.len() - back]])
}

#[test]
fn a_window_shows_what_the_whole_shows() {
    let random = &mut Random::new(0x5eed_0bad_5eed_0bad);
    let symbols = Symbols::default();
    let progress = &Progress::start(None, &symbols).unwrap();
    let (mut reached, mut missed, mut late) = (0, 0, 0);
    for _ in 0..MEMORIES {
        let mem = memory(random);
        for _ in 0..HARTS {
            let mut hart = hart(random);
            hart.rest[word::MTVEC] = random.pick(&[0x8000_0000, 0x8000_0100, 0x8000_1000]);
            hart.rest[word::STVEC] = random.pick(&[0x1000, 0x8000_0040, 0x8000_1000]);
            if random.pick(&[true, false]) {
                // One that does not trap at once.
                hart.rest[word::MODE] = M;
                hart.rest[word::ELP] = 0;
                hart.rest[word::PC] = random.pick(&[0x8000_0000, 0x8000_0204, 0x8000_1100]);
                hart.x[11] = 0x8000_1800;
            }
            let word = instruction(random);
            let state = State {
                hart,
                mem: mem.clone(),
                given: random.pick(&[None, None, Some(word)]),
            };
            let map = map(random);
            let shown = |window: &Window| shown(&state, &map, window, progress);
            let whole = shown(&Window::From(Start::Step(1), u64::MAX));
            let last = random.pick(&[1, 2, 7, 59, 60, 61]);
            let tail = &whole[whole.len().saturating_sub(last as usize)..];
            assert_eq!(shown(&Window::Last(last)), tail, "{hart:x?}");
            let address = met(&whole, random).wrapping_add(random.pick(&[0, 0, 0, 2, 4]));
            let place = Place {
                seen: address,
                physical: address,
            };
            let first = whole
                .iter()
                .position(|line| line.1.rest[word::PC] == address);
            let rest = first.map_or(&[][..], |first| &whole[first..]);
            let window = Window::From(Start::Place("there".into(), place), u64::MAX);
            assert_eq!(shown(&window), rest, "{address:#x}: {hart:x?}");
            reached += usize::from(first.is_some());
            missed += usize::from(first.is_none());
            late += usize::from(first.is_some_and(|first| first > 5));
        }
    }
    let seen = [reached, missed, late];
    assert!(seen.iter().all(|seen| *seen > 100), "{seen:?}");
}
