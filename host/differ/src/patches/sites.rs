//! Patches: an instruction that stores over a word of the code, and where that word stands. What is stored is what is there, with some bits
//! turned, so that each patch changes a word, however often it is run.

use super::plan::Kind;
use super::words::{turn, Taste};
use super::writer::*;
use crate::case::PAGE;
use crate::state::MPRV;
use formats::csr::{MSTATUS, SSP};
use formats::*;

/// By which instruction.
#[derive(Clone, Copy, PartialEq, Eq, Debug)]
enum By {
    /// SB, SH, SW or SD, by the funct3.
    Store(u32),
    Push,
    /// SSAMOSWAP.W or SSAMOSWAP.D, by the funct3.
    Swap(u32),
}

const ALL: [By; 12] = [
    By::Store(0),
    By::Store(1),
    By::Store(2),
    By::Store(2),
    By::Store(3),
    By::Store(3),
    By::Push,
    By::Push,
    By::Push,
    By::Swap(2),
    By::Swap(3),
    By::Swap(3),
];

impl By {
    fn bytes(self) -> u64 {
        match self {
            By::Store(funct3) | By::Swap(funct3) => 1 << funct3,
            By::Push => 8,
        }
    }
}

/// A patch: by which instruction and which name of the code, and how far behind the bytes the address register points.
#[derive(Clone, Copy, Debug)]
pub struct Patch {
    by: By,
    name: Name,
    shift: u64,
    /// The register that a push stores.
    link: u32,
    /// Whether MPRV has to be turned on for it.
    moved: bool,
    /// Whether a push finds ssp where it should be, and a pop-check brings it back: a write of ssp would end the fast path.
    late: bool,
}

/// The offset in the code of the bytes that a patch stores, and what it turns in them.
pub struct Site {
    offset: u64,
    turned: u64,
}

impl Site {
    /// The offset of its first word.
    pub fn word(&self) -> u64 {
        self.offset & !3
    }
}

/// Where the patched word stands, seen from the instruction that stores; so many words ahead of it or behind it.
#[derive(Clone, Copy, PartialEq, Eq, Debug)]
enum Place {
    Next,
    JustRun,
    Ahead(u64),
    Behind(u64),
    /// At this edge of a page: the last word before it, the first one behind it, and that one right behind a patch in the last one.
    Last(u64),
    First(u64),
    Over(u64),
}

impl Patch {
    /// The words that turn the bits and store: the one that stores is the last.
    fn words(&self) -> Vec<u32> {
        let register = match self.by {
            By::Push => self.link,
            _ => VALUE,
        };
        let load = |funct3| i(LOAD, funct3, register, ADDRESS, self.shift.wrapping_neg());
        let turned = r(OP, 4, 0, register, register, TURNED);
        match self.by {
            By::Store(funct3) => {
                let offset = self.shift.wrapping_neg();
                let store = s(STORE, funct3, ADDRESS, VALUE, offset);
                vec![load(funct3), turned, store]
            }
            By::Push if self.late => vec![load(3), turned, push(self.link)],
            By::Push => vec![load(3), turned, self.point(), push(self.link)],
            By::Swap(funct3) => {
                let swap = r(AMO, funct3, 0x24, VALUE, ADDRESS, VALUE);
                vec![load(funct3), turned, swap]
            }
        }
    }

    /// The word that points ssp behind the bytes that a push stores.
    fn point(&self) -> u32 {
        zicsr(1, 0, SSP, ADDRESS)
    }

    fn is_double(&self) -> bool {
        self.by.bytes() == 8
    }

    /// The word that turns MPRV on for it.
    fn begin(&self) -> Option<u32> {
        self.moved.then(|| zicsr(2, 0, MSTATUS, BITS))
    }

    /// The word that turns MPRV off, or gives ssp back what it was.
    fn end(&self) -> Option<u32> {
        match self.by {
            By::Push if self.late => Some(pop_check(self.link)),
            By::Push => Some(zicsr(1, 0, SSP, KEPT)),
            _ => self.moved.then(|| zicsr(3, 0, MSTATUS, BITS)),
        }
    }
}

impl Patch {
    /// The word behind all rounds of it, which gives ssp back what it was where a round does not.
    pub fn over(&self) -> Option<u32> {
        (self.late && self.by == By::Push).then(|| zicsr(1, 0, SSP, KEPT))
    }
}

impl Writer<'_> {
    /// The words before a patch: address, bits, ssp and MPRV.
    pub const SETUP: usize = 6;

    /// A patch that the plan has room for.
    pub fn drawn(&mut self) -> Patch {
        let kind = self.plan.kind;
        let physical = kind == Kind::Physical;
        let late = self.plan.late;
        let others = kind != Kind::Turning;
        // A swap takes the slow path, and behind it the fast path begins anew.
        let swaps = others && (!late || self.random.chance(20));
        let fits = |by| match by {
            By::Store(_) => true,
            By::Push => others && self.mode < 3,
            By::Swap(_) => swaps,
        };
        let all: Vec<By> = ALL.into_iter().filter(|by| fits(*by)).collect();
        let by = self.random.pick(&all);
        let name = match by {
            By::Store(_) if physical && late => Name::Own,
            By::Store(_) if self.has_own() && (!others || self.random.chance(60)) => Name::Own,
            By::Store(_) => Name::Open,
            _ => Name::Stack,
        };
        let shift = match by {
            By::Store(_) => (self.random.below(17) * 8).wrapping_sub(64),
            By::Push => 8,
            By::Swap(_) => 0,
        };
        Patch {
            by,
            name,
            shift,
            link: self.random.pick(&[1, 5]),
            moved: physical && name != Name::Own,
            late,
        }
    }

    /// Whether the code can be written by the addresses from which it is run.
    fn has_own(&self) -> bool {
        self.plan.kind == Kind::Physical || self.plan.own && self.mode < 3
    }

    /// A patch that stores x5 where it is a push, since x1 has another use.
    pub fn drawn_for_calls(&mut self) -> Patch {
        Patch {
            link: 5,
            ..self.drawn()
        }
    }

    /// A patch and its word at any place.
    pub fn patch(&mut self) {
        let times = self.times();
        if self.random.chance(6) {
            return self.itself(times);
        }
        let (near, some) = (1 + self.random.below(8), 8 + self.random.below(40));
        let at_edge = match self.edge() {
            Some(edge) => [Place::Last(edge), Place::First(edge), Place::Over(edge)],
            None => [Place::Next, Place::JustRun, Place::Behind(1)],
        };
        let place = match self.random.below(12) {
            0..=2 => Place::Next,
            3 | 4 => Place::JustRun,
            5 => Place::Ahead(near),
            6 => Place::Ahead(some),
            7 => Place::Behind(near),
            8 => Place::Behind(some),
            _ => self.random.pick(&at_edge),
        };
        self.patched(place, times);
    }

    /// A patch of a word that stands far ahead.
    pub fn far(&mut self, words: u64) {
        self.patched(Place::Ahead(words), 1);
    }

    fn patched(&mut self, place: Place, times: u64) {
        let patch = self.drawn();
        let setup = self.reserve(Self::SETUP);
        self.warm();
        let before = std::mem::replace(&mut self.plain, patch.moved);
        let site = self.repeated(INNER, times, |writer| writer.once(&patch, place));
        self.words.extend(patch.over());
        self.plain = before;
        self.set_up(setup, &patch, &site);
    }

    /// Fills in what stands before a patch, when it is known where its word stands.
    pub fn set_up(&mut self, at: usize, patch: &Patch, site: &Site) {
        let target = site.offset.wrapping_add(patch.shift);
        let address = self.address(at, ADDRESS, patch.name, target);
        self.words[at..at + 3].copy_from_slice(&address);
        self.words[at + 3] = self.constant(TURNED, site.turned);
        if patch.by == By::Push {
            self.words[at + 4] = zicsr(2, KEPT, SSP, 0);
            if patch.late {
                self.words[at + 5] = patch.point();
            }
        }
        if patch.moved {
            self.words[at + 5] = self.constant(BITS, MPRV);
        }
    }

    fn once(&mut self, patch: &Patch, place: Place) -> Site {
        self.words.extend(patch.begin());
        let site = self.laid_out(patch, place);
        let words = 1 + self.random.below(3);
        self.filler(words);
        self.words.extend(patch.end());
        site
    }

    /// A patch whose word stands elsewhere.
    pub fn stored(&mut self, patch: &Patch) {
        self.words.extend(patch.begin());
        self.words.extend(patch.words());
        self.words.extend(patch.end());
    }

    /// The patch and its word, at its place.
    fn laid_out(&mut self, patch: &Patch, place: Place) -> Site {
        match place {
            Place::Next => self.next(patch),
            Place::JustRun => self.just_run(patch),
            Place::Ahead(words) => {
                self.words.extend(patch.words());
                self.filler(words);
                self.site(patch)
            }
            Place::Behind(words) => {
                let site = self.site(patch);
                self.filler(words);
                self.words.extend(patch.words());
                site
            }
            Place::Last(edge) => {
                self.words.extend(patch.words());
                self.go_to(edge - patch.by.bytes().max(4));
                self.site(patch)
            }
            Place::First(edge) => {
                self.words.extend(patch.words());
                self.go_to(edge - 8);
                self.filler(2);
                self.site(patch)
            }
            Place::Over(edge) => {
                self.go_to(edge - 4 * patch.words().len() as u64);
                self.words.extend(patch.words());
                self.site(patch)
            }
        }
    }

    /// The store, and behind it the word. Eight bytes may start with the store itself, whose own bits then stay.
    fn next(&mut self, patch: &Patch) -> Site {
        let words = patch.words();
        let last = words.len() - 1;
        let with_store = patch.is_double() && self.random.chance(50);
        if with_store {
            self.align(last, 0);
        } else if patch.is_double() {
            self.align(last, 4);
        }
        let offset = self.here() + 4 * last as u64;
        self.words.extend(words);
        if with_store {
            let turned = self.half(true) << 32;
            return Site { offset, turned };
        }
        self.site(patch)
    }

    /// The word, and behind it the store, which may be the other half of its eight bytes.
    fn just_run(&mut self, patch: &Patch) -> Site {
        let mut words = patch.words();
        let store = words.pop().expect("the one that stores");
        self.words.extend(words);
        let offset = self.here();
        let site = if !patch.is_double() {
            self.single(patch.by.bytes(), false)
        } else if offset % 8 == 0 {
            let turned = self.half(false);
            Site { offset, turned }
        } else {
            Site {
                offset: offset - 4,
                turned: self.half(false) << 32,
            }
        };
        self.words.push(store);
        site
    }

    /// The next edge between two pages of the code, if there is room around it.
    fn edge(&self) -> Option<u64> {
        let edge = (self.here() + 4 * 40).next_multiple_of(PAGE);
        (edge + 4 * 40 < self.limit()).then_some(edge)
    }

    /// The word or the two words that a patch turns.
    pub fn site(&mut self, patch: &Patch) -> Site {
        if !patch.is_double() {
            return self.single(patch.by.bytes(), true);
        }
        self.align(0, 0);
        let offset = self.here();
        let [first, second] = [self.half(true), self.half(true) << 32];
        let turned = self.random.pick(&[first, second, second, first | second]);
        Site { offset, turned }
    }

    /// A landing pad without a label, whose upper byte a patch turns into another label.
    pub fn pad(&mut self, patch: &Patch, label: u8) -> Site {
        if patch.is_double() {
            self.align(0, 0);
        }
        let bytes = patch.by.bytes().min(4);
        let offset = self.here() + 4 - bytes;
        self.words.push(u(AUIPC, 0, 0));
        let turned = u64::from(label) << (8 * (bytes - 1));
        Site { offset, turned }
    }

    fn sites_taste(&self, skips: bool) -> Taste {
        Taste {
            skips,
            ..self.taste()
        }
    }

    fn single(&mut self, bytes: u64, skips: bool) -> Site {
        let taste = self.sites_taste(skips);
        let turn = turn(self.random, bytes, taste);
        let offset = self.here() + turn.byte;
        self.words.push(turn.word);
        Site {
            offset,
            turned: turn.bits.into(),
        }
    }

    /// A whole word; gives its bits that are turned.
    fn half(&mut self, skips: bool) -> u64 {
        let taste = self.sites_taste(skips);
        let turn = turn(self.random, 4, taste);
        self.words.push(turn.word);
        turn.bits.into()
    }

    /// A store over itself: two stores that write each other.
    fn itself(&mut self, times: u64) {
        const STORES: [u32; 2] = [20, 21];
        let words = STORES.map(|register| s(STORE, 2, ADDRESS, register, 0));
        let name = if self.has_own() {
            Name::Own
        } else {
            Name::Open
        };
        let setup = self.reserve(5);
        self.warm();
        let offset = self.repeated(INNER, times, |writer| {
            writer.filler(1);
            let offset = writer.here();
            writer.words.push(words[0]);
            writer.filler(1);
            offset
        });
        let address = self.address(setup, ADDRESS, name, offset);
        self.words[setup..setup + 3].copy_from_slice(&address);
        self.words[setup + 3] = self.constant(STORES[0], words[1].into());
        self.words[setup + 4] = self.constant(STORES[1], words[0].into());
    }
}
