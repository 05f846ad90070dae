//! The pages of a case: one for each role, where it lies in memory, its virtual page number and its leaf in the map.

use crate::case::{Case, BASE, PAGE};
use formats::random::Random;

/// What a page is for. The number is its place in `World::pages`.
#[derive(Clone, Copy, PartialEq, Eq, Debug)]
pub enum Role {
    Handler,
    Code,
    Data,
    Shadow,
    ReadOnly,
}

pub const ROLES: usize = 5;

#[derive(Clone, Copy, Default)]
pub struct Page {
    /// Virtual page number, under 2^27.
    pub number: u64,
    /// The page's place in memory, counted in pages.
    pub place: u64,
}

pub struct World {
    pub pages: [Page; ROLES],
}

pub use formats::leaf::{address, A, D, ENTRIES, FRAME, NUMBERS, R, RESERVED, U, V, W, X};

impl World {
    /// Pages with places below `mem_pages` and numbers near an edge of the address space or anywhere in it.
    pub fn random(random: &mut Random, mem_pages: u64) -> World {
        let gap = random.pick(&[1, 1, 1, 2, 7, 1 << 20]);
        let room = NUMBERS - gap * ROLES as u64;
        let half = NUMBERS / 2;
        let first = match random.below(8) {
            0 => 0,
            1 => half - 2,
            2 => half,
            3 => room + gap - 1,
            4 => BASE / PAGE,
            _ => random.below(room),
        };
        let turn = random.below(ROLES as u64);
        let mut pages = [Page::default(); ROLES];
        for (at, page) in pages.iter_mut().enumerate() {
            let order = (at as u64 + turn) % ROLES as u64;
            page.number = first + gap * order;
            page.place = random.below(mem_pages);
        }
        World { pages }
    }

    /// The address of a byte of a page: virtual under Sv39, else physical.
    pub fn at(&self, role: Role, sv39: bool, offset: u64) -> u64 {
        let page = self.pages[role as usize];
        if sv39 {
            address(page.number).wrapping_add(offset)
        } else {
            BASE + page.place * PAGE + offset
        }
    }

    /// Whether the map leads from this page's number to its place in memory.
    pub fn leads(&self, role: Role, map: &[u64]) -> bool {
        let page = self.pages[role as usize];
        let leaf = map.chunks_exact(2).find(|entry| entry[0] == page.number);
        leaf.is_some_and(|leaf| leaf[1] & FRAME == (BASE / PAGE + page.place) << 10)
    }

    /// The place of a byte of a page in memory.
    pub fn offset(&self, role: Role, offset: u64) -> u64 {
        self.pages[role as usize].place * PAGE + offset
    }
}

/// The leaf of a page without its frame, as its role wants it when U is `user`.
fn leaf(random: &mut Random, role: Role, user: bool) -> u64 {
    let rights = match role {
        Role::Handler => random.pick(&[X, X | R, X | R | W]) | A,
        Role::Code => random.pick(&[X, X | R, X | R, X | R | W]) | A,
        Role::Data => random.pick(&[R | W, R | W, R | W | X]) | A | D,
        Role::Shadow => W | A | D,
        Role::ReadOnly => R | A,
    };
    // G and the two bits for software decide nothing; D on a page that is only read neither.
    let idle = random.word() & 0x320 | if random.chance(30) { D } else { 0 };
    V | rights | idle | if user { U } else { 0 }
}

/// Spoils a leaf: one of its low bits turned, a reserved bit set, or a frame that is another one or lies outside memory.
pub fn spoiled(random: &mut Random, leaf: u64, mem_pages: u64) -> u64 {
    match random.below(8) {
        0..=4 => leaf ^ random.one_bit(0xFF),
        5 => leaf | random.one_bit(RESERVED),
        6 => leaf ^ random.one_bit(FRAME),
        _ => leaf & !FRAME | outside(random, mem_pages),
    }
}

/// A frame outside memory, as a leaf holds it.
pub fn outside(random: &mut Random, mem_pages: u64) -> u64 {
    let beside = [BASE / PAGE + mem_pages, BASE / PAGE - 1, 0, (1 << 44) - 1];
    random.pick(&beside) << 10
}

/// How the map of a case is made.
pub struct Wish {
    /// Whether the U bit of code, and of data, is wanted.
    pub user_code: bool,
    pub user_data: bool,
    /// How many leaves in a hundred are spoiled: the code's and the handler's, and the others'.
    pub spoil_code: u64,
    pub spoil_data: u64,
}

/// Writes the world's pages into the map of the case, in the order of their numbers.
pub fn write_map(random: &mut Random, world: &World, wish: &Wish, mem_pages: u64, case: &mut Case) {
    const ALL: [Role; ROLES] = [
        Role::Handler,
        Role::Code,
        Role::Data,
        Role::Shadow,
        Role::ReadOnly,
    ];
    let mut entries = [(0, 0); ROLES];
    for role in ALL {
        let page = world.pages[role as usize];
        let (user, spoil) = match role {
            Role::Handler => (false, wish.spoil_code),
            Role::Code => (wish.user_code, wish.spoil_code),
            _ => (wish.user_data, wish.spoil_data),
        };
        let mut word = leaf(random, role, user) | (BASE / PAGE + page.place) << 10;
        if random.chance(spoil) {
            word = spoiled(random, word, mem_pages);
        }
        entries[role as usize] = (page.number, word);
    }
    entries.sort_unstable();
    case.map.clear();
    for (number, word) in entries {
        case.map.extend([number, word]);
    }
}

/// Seldom leaves out entries, or adds some up to the most that are accepted.
pub fn resize_map(random: &mut Random, case: &mut Case) {
    match random.below(100) {
        0 => case.map.clear(),
        1 => case.map.truncate(2),
        2..=4 => {
            let gone = 2 * random.below(ROLES as u64) as usize;
            case.map.drain(gone..gone + 2);
        }
        5 => lengthen(random, case, ENTRIES),
        6..=9 => {
            let entries = ROLES + random.below((ENTRIES - ROLES) as u64) as usize;
            lengthen(random, case, entries);
        }
        _ => {}
    }
}

/// Adds entries after the last one, or where it leaves no room before the first one, until there are `entries`.
pub fn lengthen(random: &mut Random, case: &mut Case, entries: usize) {
    let missing = entries.saturating_sub(case.map.len() / 2) as u64;
    let last = case.map.len().checked_sub(2).map_or(0, |at| case.map[at]);
    if last.saturating_add(missing) < NUMBERS {
        for more in 1..=missing {
            case.map
                .extend([last + more, random.word() >> random.pick(&[10, 54, 56])]);
        }
    } else if case.map[0] >= missing {
        let first = case.map[0] - missing;
        let added = (0..missing).flat_map(|more| [first + more, more << 10 | V | R | A]);
        case.map.splice(0..0, added);
    }
}
