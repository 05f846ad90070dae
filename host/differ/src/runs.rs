//! Runs: program `number` of a seed with its state, made without the programs before it.

use crate::case::{Call, Case, PAGE};
use crate::instruction::instruction;
use crate::maker::Maker;
use crate::program::{handler, program};
use crate::refuse;
use crate::state::{keepers, lifting, registers, settings, View, LIFTED, LPE, SSE, SV39};
use crate::ways::FIRST;
use crate::world::{lengthen, write_map, Role, Wish, World, ENTRIES};
use formats::random::Random;
use formats::*;
use sporhulma::word::*;

/// Keeps the streams of runs apart from those of steps.
const KIND: u64 = 2;

/// Of 32 runs the last two are for refusals: a rule broken, and the same run with that rule kept.
const SLOTS: u64 = 32;

/// Where S's handler starts in the handlers' page; M's starts at 0.
const S_HANDLER: u64 = PAGE / 2;

/// A run's calls: the first, and after each trap another one that goes on in the handler.
pub const CHAIN: u64 = 8;

/// Of a hundred runs so many start with a loop; its counter.
const LATE: u64 = 8;
const COUNTER: u32 = 9;

/// The largest budget, but for the runs that try the largest that is accepted.
const MOST: u64 = 2000;

/// Makes run `number` of `seed` in `case` (its buffers are used again).
pub fn make(seed: u64, number: u64, case: &mut Case) {
    let slot = number % SLOTS;
    let stream = if slot == SLOTS - 1 {
        number - 1
    } else {
        number
    };
    let random = &mut Random::of(seed, KIND, stream);
    let start = accepted(random, case);
    if slot >= SLOTS - 2 {
        let broken = slot == SLOTS - 2;
        if random.chance(40) {
            refuse::budget(random, case, start, broken);
        } else {
            refuse::one(random, case, broken);
        }
    }
}

/// The budget for going on after a trap: not another million.
pub fn next_call(call: Call) -> Call {
    match call {
        Call::Run(budget) => Call::Run(budget.min(MOST)),
        other => other,
    }
}

/// A run that is not refused; gives the place of its first word in memory.
fn accepted(random: &mut Random, case: &mut Case) -> u64 {
    const PAGES: u64 = 4;
    case.fill((PAGES * PAGE) as usize, random.word(), random.word());
    let mut world = World::random(random, PAGES);
    for (page, place) in world.pages.iter_mut().zip([0, 1, 2, 3, 0]) {
        page.place = place;
    }
    settings(random, case);
    tame(random, case);
    if random.chance(LIFTED) {
        lifting(random, case);
    }
    keepers(random, &world, 1, case);
    registers(random, case);
    let view = View::of(&case.hart.rest);
    let user = view.data.mode == 0;
    let wish = Wish {
        user_code: view.mode == 0,
        user_data: user,
        spoil_code: 1,
        spoil_data: 2,
    };
    write_map(random, &world, &wish, PAGES, case);
    if random.chance(5) {
        lengthen(random, case, ENTRIES);
    }
    case.call = Call::Run(budget(random));
    let mut maker = Maker {
        random,
        case,
        world: &world,
        view,
    };
    point(&mut maker);
    write_handlers(&mut maker);
    write_program(&mut maker)
}

/// What would end most programs at once is made seldom: a shadow stack without Sv39, a pad expected at the start.
pub fn tame(random: &mut Random, case: &mut Case) {
    if random.chance(85) {
        case.hart.rest[ELP] = 0;
        case.hart.rest[SATP] = SV39;
        case.hart.rest[MENVCFG] |= SSE;
        case.hart.rest[SENVCFG] |= SSE;
    }
    if random.chance(30) {
        case.hart.rest[MENVCFG] |= LPE;
        case.hart.rest[SENVCFG] |= LPE;
    }
}

fn budget(random: &mut Random) -> u64 {
    match random.below(32) {
        0 => 0,
        1 => 1,
        2..=5 => random.below(MOST + 1),
        _ => 1 + random.below(200),
    }
}

/// The stack and the table into the data page, ssp into the shadow page, each with upper bits that masking changes.
pub fn point(maker: &mut Maker) {
    let sv39 = maker.view.data.paged;
    let table = maker.world.at(Role::Data, sv39, PAGE / 2);
    let stack = maker.world.at(Role::Data, sv39, PAGE - 64);
    let pointer = maker.world.at(Role::Shadow, sv39, PAGE / 2);
    // Where no bit is masked a tag ends most programs at their first access.
    let tagged = !maker.view.data.spared || maker.random.chance(25);
    let masked = if tagged { maker.view.data.bits } else { 0 };
    let (table, stack) = (maker.dirty(table, masked), maker.dirty(stack, masked));
    maker.case.set(8, table);
    maker.case.set(2, stack);
    maker.case.hart.rest[SSP] = maker.dirty(pointer, masked);
}

pub fn write(case: &mut Case, place: u64, words: &[u32]) {
    for (at, word) in words.iter().enumerate() {
        case.poke(place + 4 * at as u64, &word.to_le_bytes());
    }
}

pub fn write_handlers(maker: &mut Maker) {
    for (start, mode, epc, back) in [(0, 3, csr::MEPC, MRET), (S_HANDLER, 1, csr::SEPC, SRET)] {
        let words = handler(maker.random, mode, epc, back);
        write(maker.case, maker.world.offset(Role::Handler, start), &words);
    }
}

/// Words behind a loop of so many steps that the run has changed to its fast path (ways.rs), and a budget to reach them.
fn behind_a_loop(maker: &mut Maker, words: Vec<u32>) -> Vec<u32> {
    let turns = FIRST / 2 + maker.random.below(8);
    if let Call::Run(budget) = maker.case.call {
        maker.case.call = Call::Run(budget + 2 * turns);
    }
    let mut all = vec![
        i(OP_IMM, 0, COUNTER, 0, turns),
        i(OP_IMM, 0, COUNTER, COUNTER, u64::MAX),
        b(1, COUNTER, 0, -4_i64 as u64),
    ];
    all.extend(words);
    all
}

/// Writes a program, or seldom a row of words that know nothing of each other, and points pc at it.
fn write_program(maker: &mut Maker) -> u64 {
    let words = if maker.random.chance(15) {
        (0..24).map(|_| instruction(maker)).collect()
    } else {
        program(maker.random, maker.view.mode)
    };
    let start = maker.random.pick(&[0, 64, 1024]);
    let place = maker.world.offset(Role::Code, start);
    let words = match maker.random.chance(LATE) {
        true => behind_a_loop(maker, words),
        false => words,
    };
    write(maker.case, place, &words);
    maker.case.hart.rest[PC] = maker.world.at(Role::Code, maker.view.fetch.paged, start);
    place
}
