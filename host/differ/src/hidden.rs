//! Pairs of memories for rules 13.10 to 13.15: one user's hart and map, and two memories that differ in every byte of each frame
//! that no valid entry with its U bit names. Pair `number` of a seed is made without the pairs before it.

use crate::case::{Call, Case, BASE, PAGE};
use crate::instruction::instruction;
use crate::maker::Maker;
use crate::named::{named, users};
use crate::refuse;
use crate::runs::{point, tame, write};
use crate::state::{keepers, registers, settings, View, SSE, SV39};
use crate::steps::fetch;
use crate::visit::{visitor, GUESS, VISITED};
use crate::world::*;
use formats::random::Random;
use sporhulma::word::*;

/// Keeps the streams of pairs apart from those of steps and runs.
const KIND: u64 = 3;

/// The pages that are the user's own come first, so that their frames lie side by side and the others behind them.
const OWN: [Role; 4] = [Role::Code, Role::Data, Role::Shadow, Role::ReadOnly];

pub struct Made {
    /// The same hart, map and call with the one memory and with the other.
    pub cases: [Case; 2],
    /// Of each frame whether the user may reach it.
    pub named: Vec<bool>,
    /// The calls after the first, last one first: each from what the one before left, up to the first trap.
    pub more: Vec<Call>,
}

impl Default for Made {
    fn default() -> Made {
        Made {
            cases: [Case::empty(), Case::empty()],
            named: Vec::new(),
            more: Vec::new(),
        }
    }
}

/// Makes pair `number` of `seed` in `made` (its buffers are used again).
pub fn make(seed: u64, number: u64, made: &mut Made) {
    let random = &mut Random::of(seed, KIND, number);
    let case = &mut made.cases[0];
    made.more.clear();
    let scene = Scene::new(random, case);
    let start = scene.world.offset(Role::Code, 0);
    match random.below(100) {
        0..=73 => run(random, &scene, case),
        74..=89 => row(random, &scene, case, &mut made.more),
        90..=97 => single(random, &scene, case),
        98 => {
            run(random, &scene, case);
            refuse::budget(random, case, start, true);
        }
        _ => {
            run(random, &scene, case);
            refuse::one(random, case, true);
        }
    }
    made.named = named(&case.map, case.hart.rest[MENVCFG], case.mem.len());
    part(random, made);
}

/// The pages of a pair and how many frames its memory has.
struct Scene {
    world: World,
    frames: u64,
    /// The first of the user's own frames; they go on at memory's start.
    first: u64,
}

impl Scene {
    /// Makes memory, hart and map, all but the call and the program.
    fn new(random: &mut Random, case: &mut Case) -> Scene {
        let frames = 6 + random.below(2);
        let scene = Scene {
            world: World::random(random, frames),
            frames,
            first: random.below(frames),
        };
        let scene = scene.placed(random);
        case.fill((frames * PAGE) as usize, random.word(), random.word());
        settings(random, case);
        tame(random, case);
        case.hart.rest[MODE] = 0;
        case.hart.rest[SATP] = SV39;
        if random.chance(5) {
            case.hart.rest[MENVCFG] &= !SSE;
        }
        keepers(random, &scene.world, 10, case);
        registers(random, case);
        let wish = Wish {
            user_code: true,
            user_data: true,
            spoil_code: 2,
            spoil_data: 4,
        };
        write_map(random, &scene.world, &wish, frames, case);
        for _ in 0..2 + random.below(8) {
            scene.stranger(random, case);
        }
        if random.chance(4) {
            lengthen(random, case, ENTRIES);
        }
        scene
    }

    /// Gives each page its frame. Some user's pages share one: code that is data too, and data with two names.
    fn placed(mut self, random: &mut Random) -> Scene {
        for (at, role) in OWN.into_iter().enumerate() {
            self.world.pages[role as usize].place = (self.first + at as u64) % self.frames;
        }
        self.world.pages[Role::Handler as usize].place = self.foreign(random);
        let [code, data] = [Role::Code, Role::Data].map(|role| self.world.pages[role as usize]);
        match random.below(8) {
            0 => self.world.pages[Role::Data as usize].place = code.place,
            1 => self.world.pages[Role::ReadOnly as usize].place = data.place,
            _ => {}
        }
        self
    }

    /// A frame that is not the user's, unless an entry more names it so.
    fn foreign(&self, random: &mut Random) -> u64 {
        let own = OWN.len() as u64;
        (self.first + own + random.below(self.frames - own)) % self.frames
    }

    /// An entry more, where its number is free: mostly one that keeps the user out, of a frame that may be the user's own.
    fn stranger(&self, random: &mut Random, case: &mut Case) {
        let good = V | A | D | random.pick(&[R, R | W, R | X, R | W | X, X, W, W]);
        let user = good | U;
        let own = self.world.pages[random.pick(&OWN) as usize].place;
        let place = if random.chance(25) {
            own
        } else {
            self.foreign(random)
        };
        let frame = |place: u64| (BASE / PAGE + place) << 10;
        let word = match random.below(12) {
            0..=4 => good | frame(place),
            5 | 6 => user | frame(own),
            7 => user & !random.pick(&[A, D, A | D]) | frame(place),
            8 => user & !V | frame(place),
            9 => user | random.one_bit(RESERVED) | frame(place),
            10 => V | U | A | D | random.pick(&[0, W | X]) | frame(place),
            _ => user | outside(random, self.frames),
        };
        let number = if random.chance(70) {
            let page = random.pick(&self.world.pages).number;
            (page + random.pick(&[1, 1, 2, NUMBERS - 1])) % NUMBERS
        } else {
            random.below(NUMBERS)
        };
        let numbers = case.map.iter().step_by(2);
        let at = 2 * numbers.take_while(|other| **other < number).count();
        if case.map.get(at) != Some(&number) {
            case.map.splice(at..at, [number, word]);
        }
    }
}

/// A program that a user runs, with its pointers; gives its words.
fn program(random: &mut Random, scene: &Scene, case: &mut Case) -> Vec<u32> {
    let view = View::of(&case.hart.rest);
    let mut maker = Maker {
        random,
        case,
        world: &scene.world,
        view,
    };
    point(&mut maker);
    for register in VISITED {
        let middle = address(foreign_page(maker.random, maker.case)) + PAGE / 2;
        let pointer = maker.dirty(middle, view.data.bits);
        maker.case.set(register, pointer);
    }
    let start = maker.random.pick(&[0, 64, 1024]);
    let words = visitor(maker.random);
    write(maker.case, scene.world.offset(Role::Code, start), &words);
    maker.case.hart.rest[PC] = scene.world.at(Role::Code, true, start);
    words
}

/// The number of a page of the map: of two that are drawn the second, unless a user cannot reach the first.
fn foreign_page(random: &mut Random, case: &Case) -> u64 {
    let entries = case.map.len() as u64 / 2;
    let [one, other] = [(); 2].map(|()| 2 * random.below(entries) as usize);
    if users(case.map[one + 1], case.hart.rest[MENVCFG]) {
        case.map[other]
    } else {
        case.map[one]
    }
}

fn run(random: &mut Random, scene: &Scene, case: &mut Case) {
    program(random, scene, case);
    case.call = Call::Run(match random.below(32) {
        0 => random.below(3),
        1..=3 => random.below(300),
        _ => 6 + random.below(60),
    });
}

/// Several calls, each from what the one before left. A given word is one of the program's.
fn row(random: &mut Random, scene: &Scene, case: &mut Case, more: &mut Vec<Call>) {
    let words = program(random, scene, case);
    let call = |random: &mut Random| match random.below(6) {
        0 => Call::Step,
        1 => Call::StepWord(random.pick(&words)),
        _ => Call::Run(1 + random.below(16)),
    };
    case.call = call(random);
    for _ in 0..1 + random.below(5) {
        more.push(call(random));
    }
}

/// One step with an instruction of any kind, fetched or given.
fn single(random: &mut Random, scene: &Scene, case: &mut Case) {
    let view = View::of(&case.hart.rest);
    let mut maker = Maker {
        random,
        case,
        world: &scene.world,
        view,
    };
    maker.case.hart.rest[SSP] = maker.address(Role::Shadow, 8) & !7;
    let word = instruction(&mut maker);
    fetch(&mut maker, word);
}

/// Makes the other case of the first: another byte wherever a user cannot reach. Half of the time the first memory has
/// there, all over, what a visitor's pop-check asks for.
fn part(random: &mut Random, made: &mut Made) {
    let [case, other] = &mut made.cases;
    other.hart = case.hart;
    other.call = case.call;
    other.map.clone_from(&case.map);
    other.mem.clone_from(&case.mem);
    let guess = case.hart.x[GUESS as usize].to_le_bytes();
    let guessed = random.chance(50);
    let frames = |mem| <[u8]>::chunks_mut(mem, PAGE as usize);
    let both = frames(&mut case.mem).zip(frames(&mut other.mem));
    for ((one, other), _) in both.zip(&made.named).filter(|(_, named)| !**named) {
        if guessed {
            let eights = one.chunks_exact_mut(8);
            eights.for_each(|eight| eight.copy_from_slice(&guess));
        }
        let [first, stride, ..] = random.word().to_le_bytes();
        for (at, (one, other)) in one.iter().zip(other).enumerate() {
            // Never 0, so that no byte stays.
            let change = first.wrapping_add(stride.wrapping_mul(at as u8)) | 1;
            *other = one ^ change;
        }
    }
}

#[cfg(test)]
mod tests {
    use super::*;
    use crate::simulator::{Second, Simulator};

    /// What these rules ask of the two runs, but of those that are refused: there any hart will do.
    #[test]
    fn a_pair_is_what_the_request_speaks_of() {
        let mut made = Made::default();
        let mut hidden = 0;
        for number in 0..2000 {
            make(5, number, &mut made);
            let [one, other] = &made.cases;
            assert_eq!(
                (one.hart, one.call, &one.map),
                (other.hart, other.call, &other.map)
            );
            assert_eq!(one.mem.len(), other.mem.len());
            for ((byte, another), at) in one.mem.iter().zip(&other.mem).zip(0..) {
                let named = made.named[at / PAGE as usize];
                assert_eq!(byte == another, named, "pair {number}, byte {at}");
            }
            hidden += u64::from(made.named.contains(&false));
            let mut case = one.clone();
            let answer = Second.call(case.call, &mut case.hart, &mut case.mem, &case.map);
            let user = one.hart.rest[MODE] == 0 && one.hart.rest[SATP] == SV39;
            assert!(user || answer.refusal != 0, "pair {number}");
        }
        assert!(hidden > 1900, "only {hidden} of 2000 pairs hide a frame");
    }

    #[test]
    fn a_pair_is_made_again() {
        let (mut one, mut again) = (Made::default(), Made::default());
        make(5, 8, &mut one);
        make(5, 7, &mut again);
        make(5, 8, &mut again);
        assert_eq!(one.cases, again.cases);
        assert_eq!((one.named, one.more), (again.named, again.more));
    }
}
