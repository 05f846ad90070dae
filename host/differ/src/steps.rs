//! Single steps: case `number` of a seed, made without the cases before it.

use crate::case::{Call, Case, PAGE};
use crate::instruction::{instruction, moved_by_mprv};
use crate::maker::Maker;
use crate::refuse;
use crate::state::{keepers, lifting, registers, settings, View, LIFTED, SUM};
use crate::world::{resize_map, write_map, Role, Wish, World};
use formats::random::Random;
use sporhulma::word::{MSTATUS, PC, SSP};

/// Keeps the streams of steps apart from those of runs.
const KIND: u64 = 1;

/// Of 32 cases the last three are for refusals: two rules broken, one broken, and the same case with that rule kept.
const SLOTS: u64 = 32;

/// Makes step `number` of `seed` in `case` (its buffers are used again) and gives the instruction word,
/// where it is sure to be the one at pc: a rule of the refusals may move pc's page.
pub fn make(seed: u64, number: u64, case: &mut Case) -> Option<u32> {
    let slot = number % SLOTS;
    let stream = if slot == SLOTS - 1 {
        number - 1
    } else {
        number
    };
    let random = &mut Random::of(seed, KIND, stream);
    let word = accepted(random, case);
    match SLOTS - slot {
        1 => refuse::one(random, case, false),
        2 => refuse::one(random, case, true),
        3 => refuse::two(random, case),
        _ => return word,
    }
    None
}

/// A case that is not refused.
fn accepted(random: &mut Random, case: &mut Case) -> Option<u32> {
    let pages = if random.below(3000) == 0 {
        256
    } else {
        random.pick(&[1, 1, 2, 2, 3, 4])
    };
    case.fill((pages * PAGE) as usize, random.word(), random.word());
    let world = World::random(random, pages);
    settings(random, case);
    let lifted = random.chance(LIFTED);
    if lifted {
        lifting(random, case);
    }
    keepers(random, &world, 10, case);
    registers(random, case);
    let view = View::of(&case.hart.rest);
    let wish = wish(random, &view, case.hart.rest[MSTATUS] & SUM != 0);
    write_map(random, &world, &wish, pages, case);
    resize_map(random, case);
    let mut maker = Maker {
        random,
        case,
        world: &world,
        view,
    };
    maker.case.hart.rest[SSP] = maker.address(Role::Shadow, 8) & !7;
    let word = if lifted {
        moved_by_mprv(&mut maker)
    } else {
        instruction(&mut maker)
    };
    fetch(&mut maker, word)
}

/// U bits that mostly let the access pass: S reaches a U page only with SUM, and then any.
fn wish(random: &mut Random, view: &View, sum: bool) -> Wish {
    Wish {
        user_code: view.mode == 0,
        user_data: match view.data.mode {
            0 => true,
            _ if sum => random.chance(50),
            _ => random.chance(10),
        },
        spoil_code: 6,
        spoil_data: 20,
    }
}

/// Puts the word into the code page and points pc at it, or hands it in; gives the word unless pc points elsewhere.
pub fn fetch(maker: &mut Maker, word: u32) -> Option<u32> {
    let given = maker.random.chance(35);
    let low = match maker.random.below(16) {
        0 => 0,
        1 => PAGE - 4,
        _ => maker.random.below(PAGE / 4) * 4,
    };
    let plain = maker.world.at(Role::Code, maker.view.fetch.paged, low);
    let pc = match maker.random.below(64) {
        0..=2 => maker.edge(4),
        3 | 4 => maker.dirty(plain, maker.view.fetch.bits),
        5 if given => maker.random.word(),
        _ => plain,
    };
    maker.case.hart.rest[PC] = pc & !3;
    maker.case.call = if given {
        Call::StepWord(word)
    } else {
        Call::Step
    };
    let place = maker.world.offset(Role::Code, low);
    maker.case.poke(place, &word.to_le_bytes());
    let leads = !maker.view.fetch.paged || maker.world.leads(Role::Code, &maker.case.map);
    (given || pc == plain && leads).then_some(word)
}
