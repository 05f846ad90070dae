//! Our two simulators, seen alike: the proved one and the second one, each with its own hart and
//! memory, taken step by step.

use crate::program::{Program, BASE};
use sporhulma::word::{MODE, PC, SATP};
use sporhulma::Hart;

/// A step of a hart with its memory and its map: the cause if it trapped; an error if it was
/// refused.
type Step = fn(&mut Hart, &mut [u8], &[u64]) -> Result<Option<u64>, String>;

/// A run of so many steps, or fewer if one traps; so.
pub type Run = fn(&mut Hart, &mut [u8], &[u64], u64) -> Result<Option<u64>, String>;

#[derive(Clone, Copy)]
pub struct Simulator {
    pub name: &'static str,
    step: Step,
    pub run: Run,
}

pub fn proved() -> Simulator {
    Simulator {
        name: "sporhulma",
        step: step_proved,
        run: run_proved,
    }
}

pub fn second() -> Simulator {
    Simulator {
        name: "second",
        step: step_second,
        run: run_second,
    }
}

fn step_proved(hart: &mut Hart, memory: &mut [u8], map: &[u64]) -> Result<Option<u64>, String> {
    let answer = sporhulma::step(hart, memory, map);
    outcome(answer.refusal, answer.trapped, answer.cause)
}

fn step_second(hart: &mut Hart, memory: &mut [u8], map: &[u64]) -> Result<Option<u64>, String> {
    let mut stepped = ::second::Hart::from_words(&hart.x, &hart.rest);
    let answer = ::second::step(&mut stepped, memory, map);
    (hart.x, hart.rest) = stepped.to_words();
    outcome(answer.refusal, answer.trapped, answer.cause)
}

fn run_proved(
    hart: &mut Hart,
    memory: &mut [u8],
    map: &[u64],
    steps: u64,
) -> Result<Option<u64>, String> {
    let answer = sporhulma::run(hart, memory, map, steps);
    outcome(answer.refusal, answer.trapped, answer.cause)
}

fn run_second(
    hart: &mut Hart,
    memory: &mut [u8],
    map: &[u64],
    steps: u64,
) -> Result<Option<u64>, String> {
    let mut run = ::second::Hart::from_words(&hart.x, &hart.rest);
    let answer = ::second::run(&mut run, memory, map, steps);
    (hart.x, hart.rest) = run.to_words();
    outcome(answer.refusal, answer.trapped, answer.cause)
}

fn outcome(refusal: u64, trapped: bool, cause: u64) -> Result<Option<u64>, String> {
    match refusal {
        0 => Ok(trapped.then_some(cause)),
        _ => Err(format!("refusal {refusal}")),
    }
}

/// A simulator with what it works on.
#[derive(Clone)]
pub struct Side {
    pub simulator: Simulator,
    pub hart: Hart,
    memory: Vec<u8>,
    map: Vec<u64>,
}

impl Side {
    pub fn new(simulator: Simulator, program: &Program) -> Side {
        Side {
            simulator,
            hart: Hart::fresh(),
            memory: program.image.clone(),
            map: program.map.clone(),
        }
    }

    pub fn pc(&self) -> u64 {
        self.hart.rest[PC]
    }

    /// The word at pc; none if pc is outside memory.
    pub fn word(&self) -> Option<u32> {
        word_at(&self.hart, &self.memory, &self.map)
    }

    /// So many steps in one run: the cause if it trapped.
    pub fn run(&mut self, steps: u64) -> Result<Option<u64>, String> {
        (self.simulator.run)(&mut self.hart, &mut self.memory, &self.map, steps)
    }

    /// One step: the cause if it trapped.
    pub fn step(&mut self) -> Result<Option<u64>, String> {
        (self.simulator.step)(&mut self.hart, &mut self.memory, &self.map)
    }
}

/// The word at a hart's pc; none if there is no memory.
pub fn word_at(hart: &Hart, memory: &[u8], map: &[u64]) -> Option<u32> {
    let at = usize::try_from(physical(hart, map)?.wrapping_sub(BASE)).ok()?;
    let bytes = memory.get(at..at.checked_add(4)?)?;
    Some(u32::from_le_bytes(bytes.try_into().expect("four bytes")))
}

/// The physical address of pc; none if Sv39 is on and the map has no page there.
fn physical(hart: &Hart, map: &[u64]) -> Option<u64> {
    let pc = hart.rest[PC];
    if hart.rest[MODE] == 3 || hart.rest[SATP] == 0 {
        return Some(pc);
    }
    let leaf = map.chunks_exact(2).find(|entry| entry[0] == pc >> 12)?[1];
    Some(leaf >> 10 << 12 | pc & 0xfff)
}
