//! The three calls: a step that fetches, a step with a given word, and a run.

use crate::access::{Access, Kind};
use crate::execute::execute;
use crate::hart::Hart;
use crate::memory::{read, Width};
use crate::pads;
use crate::refusal;
use crate::translate::translate;
use crate::trap::{deliver, Trap};

/// What a call answers. Refusal 0: taken. Without a trap the cause is 0.
#[derive(Clone, Copy, PartialEq, Eq, Debug)]
pub struct Answer {
    pub refusal: u64,
    pub count: u64,
    pub trapped: bool,
    pub cause: u64,
}

impl Answer {
    fn refused(refusal: u64) -> Answer {
        Answer {
            refusal,
            count: 0,
            trapped: false,
            cause: 0,
        }
    }

    fn quiet(count: u64) -> Answer {
        Answer {
            refusal: 0,
            count,
            trapped: false,
            cause: 0,
        }
    }

    fn trapped(count: u64, cause: u64) -> Answer {
        Answer {
            refusal: 0,
            count,
            trapped: true,
            cause,
        }
    }
}

/// Fetches one word at pc and carries it out.
pub fn step(h: &mut Hart, mem: &mut [u8], map: &[u64]) -> Answer {
    match refusal::of_step(h, mem, map) {
        0 => run_accepted(h, mem, map, 1),
        refusal => Answer::refused(refusal),
    }
}

/// Carries out `word` as if it had been fetched at pc.
pub fn step_word(h: &mut Hart, mem: &mut [u8], map: &[u64], word: u32) -> Answer {
    let refusal = refusal::of_step(h, mem, map);
    if refusal != 0 {
        return Answer::refused(refusal);
    }
    match perform(h, mem, map, word) {
        Ok(()) => Answer::quiet(1),
        Err(trap) => {
            deliver(h, trap);
            Answer::trapped(1, trap.cause)
        }
    }
}

/// Steps until a step has trapped or the budget is spent.
pub fn run(h: &mut Hart, mem: &mut [u8], map: &[u64], budget: u64) -> Answer {
    match refusal::of_run(h, mem, map, budget) {
        0 => run_accepted(h, mem, map, budget),
        refusal => Answer::refused(refusal),
    }
}

/// A step never leaves what would be refused, so one look before the first is enough.
fn run_accepted(h: &mut Hart, mem: &mut [u8], map: &[u64], budget: u64) -> Answer {
    for count in 1..=budget {
        let done = fetch(h, mem, map).and_then(|word| perform(h, mem, map, word));
        if let Err(trap) = done {
            deliver(h, trap);
            return Answer::trapped(count, trap.cause);
        }
    }
    Answer::quiet(budget)
}

fn fetch(h: &Hart, mem: &[u8], map: &[u64]) -> Result<u32, Trap> {
    let access = Access::new(Kind::Fetch, h.pc, Width::Word);
    let at = translate(h, map, mem.len(), access)?;
    Ok(read(mem, at, Width::Word) as u32)
}

/// The pad check comes after fetch faults and before illegal instructions.
fn perform(h: &mut Hart, mem: &mut [u8], map: &[u64], word: u32) -> Result<(), Trap> {
    pads::check(h, word)?;
    execute(h, mem, map, word)
}
