//! The pages of a program that patches itself. Its code has six frames, and under Sv39 each of them has four names: that of the code, a second
//! one from which it is run too, one to read and write it by, and one as a page of the shadow stack.

use super::plan::{Kind, Plan};
use crate::case::{Case, BASE, PAGE};
use crate::world::*;
use formats::random::Random;

/// So many pages of code, one behind the other: more than the 16 KiB that a run may remember words of.
pub const CODE: usize = 6;

/// The frames of memory: the code's, as many for another code, and those of the handlers, data, shadow stack and constants.
pub const FRAMES: usize = 2 * CODE + SINGLES;
const SINGLES: usize = 4;

/// The constants' page is the one that is only read.
pub const CONSTANTS: Role = Role::ReadOnly;

/// The code's names are in groups of eight or nine page numbers, so that behind each there is no page; the pages that stand alone are a group too.
/// By nines the names of a word have different places in a memo of four pages' words, and by eights the same.
const GROUP: u64 = 9;
const GROUPS: u64 = 5;

/// So many page numbers are between two pages of data that a run remembers at the same place.
const APART: u64 = 64;
/// The crowd: pages of data so far apart from the first one, the last of which is outside memory.
pub const CROWD: usize = 4;

pub struct Pages {
    pub world: World,
    /// The number of the first page of each other name of the code.
    pub again: u64,
    pub open: u64,
    pub stack: u64,
    frames: [u64; CODE],
    twins: [u64; CODE],
}

impl Pages {
    pub fn random(random: &mut Random, plan: &Plan) -> Pages {
        let places = places(random, !matches!(plan.kind, Kind::User | Kind::Supervisor));
        let [frames, twins] = [0, CODE].map(|at| std::array::from_fn(|n| places[at + n]));
        let singles: [u64; SINGLES] = std::array::from_fn(|n| places[2 * CODE + n]);
        let [code, again, open, stack, first] = groups(random);
        let mut pages = Pages {
            world: World {
                pages: [Page::default(); ROLES],
            },
            again,
            open,
            stack,
            frames,
            twins,
        };
        pages.put(Role::Code, code, frames[0]);
        let roles = [Role::Handler, Role::Data, Role::Shadow, CONSTANTS];
        for ((role, place), number) in roles.into_iter().zip(singles).zip(first..) {
            pages.put(role, number, place);
        }
        if plan.kind == Kind::Turning {
            pages.turned();
        }
        if plan.shared {
            pages.world.pages[Role::Data as usize].place = frames[CODE - 1];
        }
        pages
    }

    fn put(&mut self, role: Role, number: u64, place: u64) {
        self.world.pages[role as usize] = Page { number, place };
    }

    /// Gives each page the address of its frame; the other names of the code stay away from these.
    fn turned(&mut self) {
        for page in &mut self.world.pages {
            page.number = BASE / PAGE + page.place;
        }
        [self.again, self.open, self.stack] = [0x40000, 0x40008, 0x40010];
    }

    /// The place in memory of an offset in the code.
    pub fn place(&self, offset: u64) -> u64 {
        self.frames[(offset / PAGE) as usize] * PAGE + offset % PAGE
    }

    /// The page numbers of the crowd: the same data again, the constants to be written, the data to be read alone, and a page outside memory.
    pub fn crowd(&self) -> [u64; CROWD] {
        let data = self.world.pages[Role::Data as usize].number;
        std::array::from_fn(|at| (data + APART * (at as u64 + 1)) % NUMBERS)
    }

    pub fn write_map(&self, random: &mut Random, plan: &Plan, case: &mut Case) {
        let [code_user, again_user, user] = plan.users();
        let run = if plan.own {
            R | W | X
        } else {
            random.pick(&[X, X | R])
        };
        let open = random.pick(&[R | W, R | W, R | W | X]);
        let number = |role: Role| self.world.pages[role as usize].number;
        let code = if plan.twin { self.twins } else { self.frames };
        let mut entries = Vec::new();
        for (at, (frame, code)) in (0..).zip(self.frames.into_iter().zip(code)) {
            entries.push((number(Role::Code) + at, run, code_user, code));
            entries.push((self.again + at, run, again_user, frame));
            entries.push((self.open + at, open, user, frame));
            entries.push((self.stack + at, W, user, frame));
        }
        for (role, rights, user) in [
            (Role::Handler, X, false),
            (Role::Data, R | W, user),
            (Role::Shadow, W, user),
            (CONSTANTS, R, user),
        ] {
            let place = self.world.pages[role as usize].place;
            entries.push((number(role), rights, user, place));
        }
        let (data, constants) = (Role::Data as usize, CONSTANTS as usize);
        let [data, constants] = [data, constants].map(|role| self.world.pages[role].place);
        let crowd = [
            (R | W, data),
            (R | W | X, constants),
            (R, data),
            (R | W, FRAMES as u64),
        ];
        for (number, (rights, place)) in self.crowd().into_iter().zip(crowd) {
            entries.push((number, rights, user, place));
        }
        entries.sort_unstable();
        case.map.clear();
        for (number, rights, user, place) in entries {
            let leaf = leaf(random, rights, user, place);
            case.map.extend([number, leaf]);
        }
    }

    /// Copies the code into the frames of its twin, where each word is changed by `change`.
    pub fn copy_code(&self, case: &mut Case, change: fn(u32) -> u32) {
        for (frame, twin) in self.frames.into_iter().zip(self.twins) {
            for at in (0..PAGE).step_by(4) {
                let from = (frame * PAGE + at) as usize;
                let bytes = case.mem[from..from + 4].try_into().expect("four bytes");
                let word = change(u32::from_le_bytes(bytes));
                case.poke(twin * PAGE + at, &word.to_le_bytes());
            }
        }
    }
}

/// Seldom one entry is not as the program wants it, or there are as many as a map may have.
pub fn spoil(random: &mut Random, case: &mut Case) {
    match random.below(32) {
        0 => {
            let at = 2 * random.below(case.map.len() as u64 / 2) as usize + 1;
            case.map[at] = spoiled(random, case.map[at], FRAMES as u64);
        }
        1..=3 => lengthen(random, case, ENTRIES),
        _ => {}
    }
}

fn leaf(random: &mut Random, rights: u64, user: bool, place: u64) -> u64 {
    // G and the two bits for software decide nothing.
    let idle = random.word() & 0x320;
    V | A | D | rights | idle | if user { U } else { 0 } | (BASE / PAGE + place) << 10
}

/// All places in any order, the code's first; where it is fetched without Sv39 these lie one behind the other.
fn places(random: &mut Random, in_a_row: bool) -> Vec<u64> {
    let mut places: Vec<u64> = (0..FRAMES as u64).collect();
    for last in (1..FRAMES).rev() {
        places.swap(last, random.below(last as u64 + 1) as usize);
    }
    if in_a_row {
        let first = random.below((FRAMES - CODE) as u64 + 1);
        let code = first..first + CODE as u64;
        places.retain(|place| !code.contains(place));
        places.splice(0..0, code);
    }
    places
}

/// The first page numbers of the groups, near an edge of the address space, where memory has its own addresses, or anywhere.
fn groups(random: &mut Random) -> [u64; GROUPS as usize] {
    let group = random.pick(&[GROUP - 1, GROUP]);
    let room = NUMBERS - GROUP * GROUPS;
    let half = NUMBERS / 2;
    let any = random.below(room);
    let first = random.pick(&[
        0,
        half - GROUP * GROUPS,
        half,
        room,
        BASE / PAGE,
        BASE / PAGE - 2,
        any,
        any,
    ]);
    let turn = random.below(GROUPS);
    std::array::from_fn(|at| first + group * ((at as u64 + turn) % GROUPS))
}

#[cfg(test)]
mod tests {
    use super::*;
    use crate::named::{leaf, place};

    /// Each name of the code leads to its frame, and no two pages have the same number.
    #[test]
    fn the_code_has_four_names() {
        let mut case = Case::empty();
        for number in 0..500 {
            let random = &mut Random::of(1, 0, number);
            let plan = Plan::random(random);
            let pages = Pages::random(random, &plan);
            pages.write_map(random, &plan, &mut case);
            let numbers: Vec<u64> = case.map.iter().step_by(2).copied().collect();
            assert_eq!(numbers.len(), 4 * CODE + SINGLES + CROWD);
            assert!(numbers.windows(2).all(|two| two[0] < two[1]), "{numbers:?}");
            let code = pages.world.pages[Role::Code as usize].number;
            for first in [code, pages.again, pages.open, pages.stack] {
                let leads = (0..CODE as u64).all(|at| {
                    let leaf = leaf(&case.map, address(first + at)).expect("a page");
                    place(leaf) == pages.place(at * PAGE) / PAGE
                });
                assert_eq!(leads, first != code || !plan.twin);
            }
        }
    }
}
