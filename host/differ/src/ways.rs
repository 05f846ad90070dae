//! Which way the proved run takes each step of a call (docs/SPEED.md), to count what the cases reach: no answer depends on it.
//!
//! A run's first steps go the short way: quick, and by the slow path where the quick way leaves one. Then come the fast path and the short way by
//! turns: behind a long stay on the fast path the short way takes the one step that was left, behind a short one as many as at the beginning, and
//! twice as many each further time.

use crate::again::Step;
use crate::simulator::by_second;
use sporhulma::word::{ELP, MODE};
use sporhulma::{family, Hart};

/// So many steps go the quick way before the fast path begins.
pub const FIRST: u64 = 1024;
/// More steps than these are far.
pub const FAR: u64 = 32_768;
/// No more steps than these go the short way between two turns of the fast path.
const MOST: u64 = 1_048_576;

#[derive(Clone, Copy, PartialEq, Eq, Debug)]
pub enum Way {
    Quick,
    Fast,
    Slow,
}

/// Where a run stands.
#[derive(Clone, Copy, Debug)]
pub struct Ways {
    /// So many steps still go the short way; then comes the fast path.
    short: u64,
    /// So many it were the last time, behind a turn of the fast path.
    wait: u64,
    /// How many steps were taken on the fast path since it was begun.
    taken: u64,
    /// How often the fast path was begun, and how often behind a single step.
    pub stays: u64,
    pub at_once: u64,
}

impl Default for Ways {
    fn default() -> Ways {
        Ways {
            short: FIRST,
            wait: 0,
            taken: 0,
            stays: 0,
            at_once: 0,
        }
    }
}

impl Ways {
    /// Whether the next step is tried on the fast path.
    pub fn is_fast(&self) -> bool {
        self.short == 0
    }

    /// The way of a step that was taken.
    pub fn next(&mut self, step: &Step) -> Way {
        let straight = step.before.rest[ELP] == 0;
        let does =
            |way: fn(&Step, u32) -> bool| straight && step.word.is_some_and(|word| way(step, word));
        if self.is_fast() && does(fast_does) {
            self.taken += 1;
            return Way::Fast;
        }
        let single = self.is_fast() && self.taken > FAR;
        if self.is_fast() {
            self.wait = match single {
                true => 1,
                false => (2 * self.wait).clamp(FIRST, MOST),
            };
            self.short = self.wait;
        }
        self.short -= 1;
        if self.is_fast() {
            self.taken = 0;
            self.stays += 1;
            self.at_once += u64::from(single);
        }
        match does(quick_does) {
            true => Way::Quick,
            false => Way::Slow,
        }
    }
}

/// Whether pushes and pop-checks do something in the hart's mode.
fn shadowed(hart: &Hart) -> bool {
    second::shadow_stack_on(&by_second(hart))
}

/// A CSR instruction with a register on scratch, epc, cause or tval, in a mode that has it.
fn handles(mode: u64, word: u32) -> bool {
    let form = (1..=3).contains(&(word >> 12 & 7));
    form && match word >> 22 {
        0xD0 => mode == 3,
        0x50 => mode == 1 || mode == 3,
        _ => false,
    }
}

fn quick_does(step: &Step, word: u32) -> bool {
    !step.answer.trapped
        && match second::family(word) {
            family::LUI..=family::OP_32 => step.after.rest[ELP] == 0,
            family::CSR => handles(step.before.rest[MODE], word),
            family::PUSH | family::POP => shadowed(step.before),
            _ => false,
        }
}

/// Whether the fast path does a step: beside what the quick way does, FENCE, SSRDP, and what writes 0 and no more.
pub fn fast_does(step: &Step, word: u32) -> bool {
    let more = matches!(
        second::family(word),
        family::FENCE
            | family::READ_SSP
            | family::PUSH
            | family::POP
            | family::MOP_R
            | family::MOP_RR
    );
    more && !step.answer.trapped || quick_does(step, word)
}
