//! The two simulators behind one small trait, so that the comparison can also be tried with an impostor.

use crate::case::Call;
use sporhulma::{Answer, Hart};

pub trait Simulator {
    fn call(&self, call: Call, hart: &mut Hart, mem: &mut [u8], map: &[u64]) -> Answer;
}

/// The proved one.
pub struct Proved;

/// The independent one.
pub struct Second;

impl Simulator for Proved {
    fn call(&self, call: Call, hart: &mut Hart, mem: &mut [u8], map: &[u64]) -> Answer {
        sporhulma::call(call, hart, mem, map)
    }
}

/// A hart as the independent one takes it.
pub fn by_second(hart: &Hart) -> second::Hart {
    second::Hart::from_words(&hart.x, &hart.rest)
}

impl Simulator for Second {
    fn call(&self, call: Call, hart: &mut Hart, mem: &mut [u8], map: &[u64]) -> Answer {
        let mut own = by_second(hart);
        let answer = match call {
            Call::Step => second::step(&mut own, mem, map),
            Call::StepWord(word) => second::step_word(&mut own, mem, map, word),
            Call::Run(budget) => second::run(&mut own, mem, map, budget),
        };
        (hart.x, hart.rest) = own.to_words();
        Answer {
            refusal: answer.refusal,
            count: answer.count,
            trapped: answer.trapped,
            cause: answer.cause,
        }
    }
}
