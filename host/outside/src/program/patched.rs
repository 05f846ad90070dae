//! Fixed programs that patch themselves, for the comparison with QEMU: by each store, the next word, the one just run, one ahead and one behind, the
//! store itself, and words at the edges of a page; in M, S and U, by the code's own addresses, by another page of the same frame and through
//! MPRV, run from two pages of one frame, and while satp turns.
//!
//! Each patch reads what is there, turns some bits and stores it, several times, so that the word is run as it was and as it was made.
//! There is no FENCE.I: the hart has none, and QEMU needs none, since it is told to translate one word at a time and drops what it has translated
//! when the frame is stored to. Pushes and swaps are missing, since QEMU 7.2 has no shadow stack.

use super::*;

/// The code has three frames from here on, and another three frames have its twin.
const CODE: u64 = BASE + 0x1000;
const EDGES: [u64; 2] = [BASE + 0x2000, BASE + 0x3000];
const FRAMES: std::ops::Range<u64> = 1..4;
const TWIN: u64 = 4;
/// The page tables of Sv39: the root, the next one and the leaves.
const TABLES: [u64; 3] = [BASE + 0xd000, BASE + 0xe000, BASE + 0xf000];
/// Under Sv39 the page of a frame has the frame's address and one from here on as well; so far behind it the same frame is to be run again, and to be
/// written.
const VIRTUAL: u64 = 0x4000_0000;
const AGAIN: u64 = 0x1_0000;
const OPEN: u64 = 0x2_0000;

const ADDRESS: u32 = 10;
const TURNED: u32 = 11;
const TIMES: u32 = 12;
const VALUE: u32 = 13;
/// What the patched words change.
const SUM: u32 = 14;
const THROUGH: u32 = 15;
const MPRV_BIT: u32 = 16;
const SATP: u32 = 17;
const TURN: u32 = 18;
const ROUNDS: u32 = 19;
const OTHER: u32 = 20;

const NOP: u32 = 0x13;
/// The first word of each site, and what a patch makes of it.
fn first() -> u32 {
    addi(SUM, SUM, 1)
}

fn second() -> u32 {
    i_type(OP_IMM, 4, SUM, SUM, 5)
}

fn illegal() -> u32 {
    r_type(OP, 0, 0x7f, SUM, SUM, SUM)
}

/// How a program runs, and by which addresses it stores.
#[derive(Clone, Copy, PartialEq, Eq, Debug)]
struct Way {
    mode: Mode,
    /// Whether it stores by another page.
    open: bool,
    /// Whether satp turns: under Sv39 the code is its twin.
    turns: bool,
    /// Whether an illegal word is patched in too: a trap ends a run, so most have none.
    traps: bool,
}

const WAYS: [(&str, Way); 9] = [
    ("M", way(Mode::M)),
    ("M with traps", way(Mode::M).trapping()),
    ("M, by MPRV", way(Mode::M).open()),
    ("S, by its own page", way(Mode::S)),
    ("S, by another page", way(Mode::S).open()),
    ("S, while satp turns", way(Mode::S).turning()),
    ("U, by its own page", way(Mode::U)),
    ("U, by another page", way(Mode::U).open()),
    (
        "U, by another page with traps",
        way(Mode::U).open().trapping(),
    ),
];

const fn way(mode: Mode) -> Way {
    Way {
        mode,
        open: false,
        turns: false,
        traps: false,
    }
}

impl Way {
    const fn open(self) -> Way {
        Way { open: true, ..self }
    }

    const fn turning(self) -> Way {
        Way {
            turns: true,
            ..self
        }
    }

    const fn trapping(self) -> Way {
        Way {
            traps: true,
            ..self
        }
    }

    /// The address at which the code is run that lies at this physical one.
    fn run_at(self, physical: u64) -> u64 {
        if self.mode == Mode::M || self.turns {
            physical
        } else {
            physical - BASE + VIRTUAL
        }
    }

    /// The address by which it is stored to.
    fn stored_at(self, run_at: u64) -> u64 {
        if self.open {
            run_at % AGAIN + VIRTUAL + OPEN
        } else {
            run_at
        }
    }

    fn by_mprv(self) -> bool {
        self.mode == Mode::M && self.open
    }
}

/// Where the patched word stands, seen from the store.
#[derive(Clone, Copy, PartialEq, Eq, Debug)]
enum Place {
    Next,
    JustRun,
    Ahead,
    Behind,
}

/// The programs, each with what it is called.
pub fn patched() -> impl Iterator<Item = (&'static str, Program)> {
    WAYS.into_iter().map(|(name, way)| (name, program(way)))
}

fn program(way: Way) -> Program {
    let mut image = vec![0; MEMORY];
    place(&mut image, BASE, &[jal(0, (START - BASE) as i32)]);
    place(&mut image, M_HANDLERS[0], &handler(address::MSCRATCH, MRET));
    let mut writer = Writer {
        way,
        base: way.run_at(CODE),
        words: Vec::new(),
    };
    writer.code();
    let end = writer.here() - 4;
    assert!(
        end < way.run_at(BASE + TWIN * 0x1000),
        "three frames hold the code"
    );
    place(&mut image, CODE, &writer.words);
    place(&mut image, START, &prologue(way));
    if way.turns {
        copy_code(&mut image);
    }
    let map = write_tables(&mut image, way);
    Program { image, end, map }
}

/// Copies the code to its twin, where what each site adds is another number.
fn copy_code(image: &mut [u8]) {
    let code = (CODE - BASE) as usize..(BASE + TWIN * 0x1000 - BASE) as usize;
    let mut words: Vec<u32> = image[code]
        .chunks_exact(4)
        .map(|bytes| u32::from_le_bytes(bytes.try_into().expect("four bytes")))
        .collect();
    let added = addi(SUM, SUM, 0);
    let sites = words.iter_mut().filter(|word| **word & 0xf_ffff == added);
    sites.for_each(|word| *word ^= 1 << 25);
    place(image, BASE + TWIN * 0x1000, &words);
}

/// Writes the page tables into memory for QEMU, and gives the map for our side.
fn write_tables(image: &mut [u8], way: Way) -> Vec<u64> {
    use formats::leaf::{A, D, R, U, V, W, X};
    let [root, next, leaves] = TABLES;
    let mut entry = |table: u64, at: u64, word: u64| {
        let place = (table - BASE + 8 * at) as usize;
        image[place..place + 8].copy_from_slice(&word.to_le_bytes());
    };
    let to = |table: u64| table >> 12 << 10 | V;
    entry(root, VIRTUAL >> 30, to(next));
    entry(root, BASE >> 30, to(next));
    entry(next, 0, to(leaves));
    let usual = V | A | D | if way.mode == Mode::S { 0 } else { U };
    let run = if way.open { R | X } else { R | W | X };
    let mut pages = Vec::new();
    for (behind, rights) in [(0, run), (AGAIN, R | X), (OPEN, R | W)] {
        for frame in FRAMES {
            let twin = way.turns && behind == 0;
            let leads = (BASE >> 12) + frame + if twin { TWIN - 1 } else { 0 };
            let page = (behind >> 12) + frame;
            let leaf = leads << 10 | rights | usual;
            entry(leaves, page, leaf);
            pages.push((page, leaf));
        }
    }
    let of = |base: u64| {
        pages
            .iter()
            .flat_map(move |(page, leaf)| [(base >> 12) + page, *leaf])
    };
    of(VIRTUAL).chain(of(BASE)).collect()
}

/// In M: the handler, satp and MPP, and then the code.
fn prologue(way: Way) -> Vec<u32> {
    let mut words = relative(ADDRESS, START, M_HANDLERS[0]).to_vec();
    words.push(csr_write(address::MTVEC, ADDRESS));
    words.extend(constant(SATP, (TABLES[0] >> 12) as i32));
    words.extend([
        addi(TURN, 0, 1),
        i_type(OP_IMM, 1, TURN, TURN, 63),
        r_type(OP, 6, 0, SATP, SATP, TURN),
        csr_write(address::SATP, if way.turns { 0 } else { SATP }),
        addi(TURN, 0, 0),
        addi(SUM, 0, 0),
    ]);
    words.extend(constant(MPRV_BIT, MPRV as i32));
    words.extend(constant(VALUE, MPP as i32));
    words.push(csr(3, 0, address::MSTATUS, VALUE));
    let previous = if way.mode == Mode::S {
        1 << MPP_SHIFT
    } else {
        0
    };
    words.extend(constant(VALUE, previous));
    words.push(csr(2, 0, address::MSTATUS, VALUE));
    let at = START + 4 * words.len() as u64;
    words.extend(relative(ADDRESS, at, way.run_at(CODE)));
    if way.mode == Mode::M {
        words.push(i_type(JALR, 0, 0, ADDRESS, 0));
    } else {
        words.extend([csr_write(address::MEPC, ADDRESS), MRET]);
    }
    words
}

/// The two words at `pc` that give an address.
fn relative(rd: u32, pc: u64, address: u64) -> [u32; 2] {
    let distance = address.wrapping_sub(pc) as i32;
    let upper = distance.wrapping_add(0x800) as u32 >> 12;
    [u_type(AUIPC, rd, upper), addi(rd, rd, distance)]
}

struct Writer {
    way: Way,
    /// Where the first word is run.
    base: u64,
    words: Vec<u32>,
}

impl Writer {
    fn here(&self) -> u64 {
        self.at(self.words.len())
    }

    fn at(&self, word: usize) -> u64 {
        self.base + 4 * word as u64
    }

    /// All patches, five times, so that a run comes to its fast path behind the second, and at last a jump to itself. Where satp turns, it does so an
    /// odd number of times in between.
    fn code(&mut self) {
        use Place::*;
        self.words.push(addi(ROUNDS, 0, 5));
        let start = self.here();
        for place in [Next, JustRun, Ahead, Behind] {
            for width in 0..4 {
                self.turn();
                self.patch(width, place, None);
            }
        }
        self.turn();
        self.itself();
        if self.way.mode != Mode::M && !self.way.turns {
            self.twice();
        }
        let [first, second] = EDGES.map(|edge| self.way.run_at(edge));
        self.turn();
        self.patch(2, Next, Some(first));
        self.turn();
        self.patch(1, Ahead, Some(second - 4));
        self.words.push(addi(ROUNDS, ROUNDS, -1));
        self.words.push(branch(0, ROUNDS, 0, 8));
        self.words
            .push(jal(0, start.wrapping_sub(self.here()) as i32));
        self.words.push(jal(0, 0));
    }

    /// Turns satp, where it turns.
    fn turn(&mut self) {
        if self.way.turns {
            self.words.push(r_type(OP, 4, 0, TURN, TURN, SATP));
            self.words.push(csr_write(address::SATP, TURN));
        }
    }

    /// A patch of a width (0 to 3: SB to SD), four times, and its word, at any place or at this address.
    fn patch(&mut self, width: u32, place: Place, at: Option<u64>) {
        let setup = self.words.len();
        self.words.extend([NOP; 2]);
        let (behind, turned) = self.turned(width, place);
        self.words.extend(turned);
        self.words.push(addi(TIMES, 0, 4));
        let (body, site) = self.body(width, place);
        let start = match at {
            Some(address) => address - 4 * site as u64,
            None => (self.here() + 4 * site as u64).next_multiple_of(8) - 4 * site as u64,
        };
        self.go_to(start);
        let address = self.at(self.words.len() + site);
        self.words.extend(body);
        self.words.push(addi(TIMES, TIMES, -1));
        self.words
            .push(branch(1, TIMES, 0, start.wrapping_sub(self.here()) as i32));
        let stored_at = self.way.stored_at(address + behind);
        let setting = relative(ADDRESS, self.at(setup), stored_at);
        self.words[setup..setup + 2].copy_from_slice(&setting);
    }

    /// What is repeated, and the place of the site in it. Two words are a site, since SD patches two.
    fn body(&self, width: u32, place: Place) -> (Vec<u32>, usize) {
        let load = i_type(LOAD, width, VALUE, ADDRESS, 0);
        let turn = r_type(OP, 4, 0, VALUE, VALUE, TURNED);
        let store = store(width, VALUE, ADDRESS, 0);
        let (mut words, mut site) = match place {
            Place::Next => (vec![load, turn, store, first(), first(), NOP], 3),
            Place::JustRun => (vec![load, turn, first(), store, NOP], 2),
            Place::Ahead => (vec![load, turn, store, NOP, NOP, first(), first(), NOP], 5),
            Place::Behind => (vec![first(), first(), NOP, load, turn, store], 0),
        };
        if self.way.by_mprv() {
            words.insert(0, csr(2, 0, address::MSTATUS, MPRV_BIT));
            words.push(csr(3, 0, address::MSTATUS, MPRV_BIT));
            site += 1;
        }
        (words, site)
    }

    /// Goes on at an address ahead: straight on if it is the next one or the one behind that, else by a jump.
    fn go_to(&mut self, address: u64) {
        let words = (address - self.here()) / 4;
        if words > 1 {
            self.words.push(jal(0, 4 * words as i32));
            self.words.extend(vec![0; words as usize - 1]);
        } else {
            self.words.extend(vec![NOP; words as usize]);
        }
    }

    /// A store over itself: two stores that write each other.
    fn itself(&mut self) {
        let [one, other] = [VALUE, OTHER].map(|register| store(2, register, ADDRESS, 0));
        let setup = self.words.len();
        self.words.extend([NOP; 2]);
        self.words.extend(constant(VALUE, other as i32));
        self.words.extend(constant(OTHER, one as i32));
        self.words.push(addi(TIMES, 0, 5));
        let start = self.here();
        let by_mprv = |funct3| {
            self.way
                .by_mprv()
                .then(|| csr(funct3, 0, address::MSTATUS, MPRV_BIT))
        };
        let [on, off] = [2, 3].map(by_mprv);
        self.words.extend(on);
        let address = self.here();
        self.words.push(one);
        self.words.extend(off);
        self.words.push(addi(TIMES, TIMES, -1));
        self.words
            .push(branch(1, TIMES, 0, start.wrapping_sub(self.here()) as i32));
        let setting = relative(ADDRESS, self.at(setup), self.way.stored_at(address));
        self.words[setup..setup + 2].copy_from_slice(&setting);
    }

    /// How far behind the site's first byte a patch of a width stores, and the words that give the bits that it turns there.
    fn turned(&self, width: u32, place: Place) -> (u64, Vec<u32>) {
        let bits = (first() ^ second()) as i32;
        let made_illegal = (first() ^ illegal()) as i32;
        let upper = i_type(OP_IMM, 1, TURNED, TURNED, 32);
        match (width, place) {
            (0, _) => (3, vec![addi(TURNED, 0, 1)]),
            (1, _) => (2, vec![addi(TURNED, 0, 0x30)]),
            (2, Place::Ahead) if self.way.traps => (0, constant(TURNED, made_illegal).to_vec()),
            // The second word is the store.
            (2, _) | (_, Place::JustRun) => (0, positive(bits)),
            (_, Place::Next) => (0, [constant(TURNED, bits).to_vec(), vec![upper]].concat()),
            _ => {
                let both = r_type(OP, 0, 0, TURNED, TURNED, VALUE);
                let mut words = positive(bits);
                words.extend([addi(VALUE, TURNED, 0), upper, both]);
                (0, words)
            }
        }
    }

    /// A function that is run from both of its pages, before each patch and behind it.
    fn twice(&mut self) {
        let setup = self.words.len();
        self.words.extend([NOP; 4]);
        let (_, turned) = self.turned(2, Place::Next);
        self.words.extend(turned);
        self.words.push(addi(TIMES, 0, 4));
        let start = self.here();
        let function = start + 4 * 10;
        for _ in 0..2 {
            self.words
                .push(jal(LINK, function.wrapping_sub(self.here()) as i32));
            self.words.push(i_type(JALR, 0, LINK, THROUGH, 0));
            if self.here() == start + 8 {
                self.words.extend(self.body(2, Place::Next).0[..3].to_vec());
            }
        }
        self.words.push(addi(TIMES, TIMES, -1));
        self.words
            .push(branch(1, TIMES, 0, start.wrapping_sub(self.here()) as i32));
        self.words.push(jal(0, 16));
        self.words
            .extend([first(), NOP, i_type(JALR, 0, 0, LINK, 0)]);
        let setting = [
            relative(ADDRESS, self.at(setup), self.way.stored_at(function)),
            relative(THROUGH, self.at(setup + 2), function + AGAIN),
        ];
        self.words[setup..setup + 4].copy_from_slice(setting.as_flattened());
    }
}

/// The words that put 32 bits, with zeros above them, into the register of turned bits.
fn positive(bits: i32) -> Vec<u32> {
    let mut words = constant(TURNED, bits).to_vec();
    words.extend([
        i_type(OP_IMM, 1, TURNED, TURNED, 32),
        i_type(OP_IMM, 5, TURNED, TURNED, 32),
    ]);
    words
}

#[cfg(test)]
mod tests {
    use super::*;
    use crate::side::{second, Side};

    /// Without QEMU: each program comes to its end and has run each of the three words that a site can hold, at both edges too.
    #[test]
    fn programs_end_and_run_what_they_patch() {
        for (name, program) in patched() {
            let mut side = Side::new(second(), &program);
            let mut runs =
                std::collections::BTreeMap::<u64, std::collections::BTreeSet<u32>>::new();
            let mut steps = 0;
            while side.pc() != program.end {
                let word = side.word().expect("there is code everywhere");
                runs.entry(side.pc()).or_default().insert(word);
                side.step().unwrap();
                steps += 1;
                assert!(steps < 10_000, "{name} does not end");
            }
            let patched = runs.iter().filter(|(_, words)| words.len() > 1);
            let patched: Vec<u64> = patched.map(|(pc, _)| *pc).collect();
            assert!(patched.len() > 18, "{name}: only {} words", patched.len());
            for offset in [0, 0xffc] {
                assert!(patched.iter().any(|pc| pc % 0x1000 == offset), "{name}");
            }
        }
    }
}
