//! The steps of a call taken again one by one with the second simulator, for those who count what a call did.

use crate::case::{Call, Case, BASE, PAGE};
use crate::named::{leaf, place};
use crate::simulator::{Second, Simulator};
use crate::state::View;
use sporhulma::word::PC;
use sporhulma::{Answer, Hart};

/// One of the steps: the hart before it and after it, and its word, where there is one at pc.
pub struct Step<'a> {
    pub before: &'a Hart,
    pub word: Option<u32>,
    pub answer: Answer,
    pub after: &'a Hart,
}

/// Shows the first `steps` steps of the call to `look`; `memory` is a buffer.
pub fn take_again(case: &Case, steps: u64, memory: &mut Vec<u8>, mut look: impl FnMut(Step)) {
    memory.clone_from(&case.mem);
    let mut hart = case.hart;
    let call = match case.call {
        Call::StepWord(word) => Call::StepWord(word),
        _ => Call::Step,
    };
    for _ in 0..steps {
        let before = hart;
        let word = match call {
            Call::StepWord(word) => Some(word),
            _ => word_at(&before, memory, &case.map),
        };
        let answer = Second.call(call, &mut hart, memory, &case.map);
        look(Step {
            before: &before,
            word,
            answer,
            after: &hart,
        });
    }
}

/// The word at pc: where Sv39 is in force the one that the map leads to, if there is one, whatever its leaf allows.
pub fn word_at(hart: &Hart, mem: &[u8], map: &[u64]) -> Option<u32> {
    let bytes = mem.get(place_at(hart, map)?..)?.first_chunk()?;
    Some(u32::from_le_bytes(*bytes))
}

/// The place in memory that pc leads to, if memory is so long.
pub fn place_at(hart: &Hart, map: &[u64]) -> Option<usize> {
    let pc = hart.rest[PC];
    let at = if View::of(&hart.rest).fetch.paged {
        let frame = place(leaf(map, pc)?);
        frame.checked_mul(PAGE)?.checked_add(pc % PAGE)?
    } else {
        pc.checked_sub(BASE)?
    };
    usize::try_from(at).ok()
}
