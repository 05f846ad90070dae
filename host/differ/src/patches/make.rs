//! Program `number` of a seed that patches itself, with its state and its calls, made without the programs before it.

use super::late::CROWDED;
use super::pages::{spoil, Pages, CODE, CONSTANTS as CONSTANT, FRAMES};
use super::plan::{Kind, Plan};
use super::words::twin;
use super::writer::{Writer, AGAIN, CONSTANTS, OPEN, STACK};
use crate::case::{Case, BASE, PAGE};
use crate::maker::Maker;
use crate::program::TABLE;
use crate::runs::write_handlers;
use crate::state::{keepers, registers, settings, View};
use crate::world::{address, Role};
use formats::random::Random;
use sporhulma::word::{PC, SSP};

/// Keeps the streams of these programs apart from those of other cases.
const KIND: u64 = 5;

/// The budgets around the numbers of steps after which a run may change its way: each is asked for in whole runs and in first parts.
pub const AROUND: [u64; 18] = [
    60, 61, 62, 63, 64, 65, 66, 67, 68, 69, 70, 510, 511, 512, 513, 514, 515, 516,
];

/// The budgets around the change to the fast path, each asked for in whole runs, and those around the steps of it that are many.
pub const SWEPT: std::ops::RangeInclusive<u64> = 1000..=1100;
const MANY: [u64; 12] = [
    32_767, 32_768, 32_769, 32_770, 33_791, 33_792, 33_793, 33_794, 33_795, 33_900, 34_000, 34_500,
];

/// Of so many programs one is run by the first of these budgets, one by the others.
const SWEEPS: u64 = 256;

/// The largest budget, but for code that is larger than what is remembered and has to be passed twice.
const MOST: u64 = 2000;

pub struct Made {
    pub case: Case,
    /// The calls, last one first, each from what the one before left: the steps of a run's first part and of its second.
    pub calls: Vec<[u64; 2]>,
}

impl Default for Made {
    fn default() -> Made {
        Made {
            case: Case::empty(),
            calls: Vec::new(),
        }
    }
}

/// Makes program `number` of `seed` in `made` (its buffers are used again).
pub fn make(seed: u64, number: u64, made: &mut Made) {
    let random = &mut Random::of(seed, KIND, number);
    let plan = match number % SWEEPS {
        128 => Plan::random(random).swept(false),
        129 => Plan::random(random).swept(true),
        _ => Plan::random(random),
    };
    let pages = Pages::random(random, &plan);
    let case = &mut made.case;
    case.fill(FRAMES * PAGE as usize, random.word(), random.word());
    settings(random, case);
    plan.set(random, case);
    keepers(random, &pages.world, 1, case);
    registers(random, case);
    pages.write_map(random, &plan, case);
    spoil(random, case);
    let view = View::of(&case.hart.rest);
    let mut maker = Maker {
        random,
        case,
        world: &pages.world,
        view,
    };
    point(&mut maker, &pages, &plan);
    write_handlers(&mut maker);
    write_program(&mut maker, &pages, plan);
    if plan.twin {
        pages.copy_code(maker.case, twin);
    }
    made.calls = calls(maker.random, number, &plan);
}

/// The pointers into the pages, where masking is the same all along with upper bits that it changes.
fn point(maker: &mut Maker, pages: &Pages, plan: &Plan) {
    let masked = match plan.kind {
        Kind::User | Kind::Supervisor if !plan.descends => maker.view.data.bits,
        _ => 0,
    };
    let middle = |role| maker.world.at(role, maker.view.data.paged, PAGE / 2);
    let pointers = [
        (TABLE, middle(Role::Data)),
        (2, middle(Role::Data) + PAGE / 2 - 64),
        (CONSTANTS, middle(CONSTANT)),
        (OPEN, address(pages.open)),
        (STACK, address(pages.stack)),
    ];
    let stack = middle(Role::Shadow);
    for (register, plain) in pointers {
        let pointer = tagged(maker.random, plain, masked);
        maker.case.set(register, pointer);
    }
    let end = BASE + maker.case.mem.len() as u64;
    let crowd = match plan.kind {
        Kind::Physical | Kind::Turning => [
            middle(Role::Data),
            middle(CONSTANT),
            middle(Role::Data),
            end,
        ],
        _ => pages.crowd().map(|number| address(number) + PAGE / 2),
    };
    for (register, plain) in CROWDED.into_iter().zip(crowd) {
        let pointer = tagged(maker.random, plain, masked);
        maker.case.set(register, pointer);
    }
    maker.case.hart.rest[SSP] = tagged(maker.random, stack, masked);
    maker.case.set(AGAIN, address(pages.again));
}

fn tagged(random: &mut Random, plain: u64, masked: u32) -> u64 {
    let word = random.word();
    if masked == 0 || word & 1 == 0 {
        plain
    } else {
        plain << masked >> masked | word >> (64 - masked) << (64 - masked)
    }
}

/// Writes the program and its constants into memory, and points pc at it.
fn write_program(maker: &mut Maker, pages: &Pages, plan: Plan) {
    let start = start(maker.random, &plan);
    let mut writer = Writer {
        random: maker.random,
        plan,
        mode: plan.mode(),
        alone: false,
        code: pages.world.at(Role::Code, true, 0),
        again: address(pages.again),
        start,
        words: Vec::new(),
        constants: Vec::new(),
        plain: false,
        turns: 0,
        far: plan.far,
    };
    writer.program();
    assert!(writer.here() <= writer.limit(), "the code has its pages");
    let (words, constants) = (writer.words, writer.constants);
    for (offset, word) in (start..).step_by(4).zip(words) {
        maker.case.poke(pages.place(offset), &word.to_le_bytes());
    }
    for (at, constant) in (0..).step_by(8).zip(constants) {
        let place = pages.world.offset(CONSTANT, at);
        maker.case.poke(place, &constant.to_le_bytes());
    }
    maker.case.hart.rest[PC] = pages.world.at(Role::Code, maker.view.fetch.paged, start);
}

/// Where the program starts in the code: often so that it goes over the edge between its first two pages, and in the last one if data are there.
fn start(random: &mut Random, plan: &Plan) -> u64 {
    match random.below(4) {
        _ if plan.long => 4 * random.below(64),
        _ if plan.shared => (CODE as u64 - 1) * PAGE + 4 * random.below(40),
        0 => 0,
        1 => 4 * random.below(PAGE / 4),
        _ => PAGE - 4 * (20 + random.below(150)),
    }
}

/// One to four calls, last one first. Every fourth program starts with a budget around the change of ways.
fn calls(random: &mut Random, number: u64, plan: &Plan) -> Vec<[u64; 2]> {
    if let 128 | 129 = number % SWEEPS {
        let budgets: Vec<u64> = match plan.far {
            true => MANY.into(),
            false => SWEPT.rev().collect(),
        };
        let parted = |budget| {
            let first = random.below(budget + 1);
            [first, budget - first]
        };
        return budgets.into_iter().map(parted).collect();
    }
    let count = 1 + random.below(4);
    let mut calls = Vec::new();
    for at in 0..count {
        let budget = match random.below(4) {
            _ if at == 0 && number % 4 == 0 => AROUND[(number / 4) as usize % AROUND.len()],
            _ if plan.far => 34_000 + random.below(3000),
            _ if plan.long && plan.late => 9_500 + random.below(3000),
            _ if plan.late => 1500 + random.below(4500),
            _ if plan.long => MOST + random.below(3000),
            0 => 1 + random.below(MOST),
            _ => MOST / 2 + random.below(MOST / 2 + 1),
        };
        let first = match random.below(3) {
            0 => random.pick(&AROUND).min(budget),
            1 => random.below(100).min(budget),
            _ => random.below(budget + 1),
        };
        calls.push([first, budget - first]);
    }
    calls.reverse();
    calls
}

#[cfg(test)]
mod tests {
    use super::*;
    use crate::case::Call;
    use crate::simulator::{Second, Simulator};

    #[test]
    fn a_program_is_made_again() {
        let (mut one, mut again) = (Made::default(), Made::default());
        make(5, 8, &mut one);
        make(5, 7, &mut again);
        make(5, 8, &mut again);
        assert_eq!((one.case, one.calls), (again.case, again.calls));
    }

    #[test]
    fn no_program_is_refused_and_most_run_long() {
        let mut made = Made::default();
        let mut long = 0;
        for number in 0..1000 {
            make(3, number, &mut made);
            let case = &mut made.case;
            let answer = Second.call(Call::Run(1000), &mut case.hart, &mut case.mem, &case.map);
            assert_eq!(answer.refusal, 0, "program {number}");
            long += u64::from(answer.count == 1000);
        }
        assert!(long > 600, "only {long} of 1000 programs run 1,000 steps");
    }
}
