//! Steps as a trace shows them: each with the states before and after it, and where it wrote memory.

use crate::environment::Write;
use crate::explain;
use crate::failure::Failure;
use crate::map::PageMap;
use crate::state::State;
use sporhulma::Answer;
use std::ops::Range;

/// One step of a trace.
pub struct Step<'a> {
    pub number: u64,
    pub before: &'a State,
    pub after: &'a State,
    pub answer: Answer,
    /// Where it wrote memory.
    pub written: Range<usize>,
}

/// What a trace shows.
pub enum Shown<'a> {
    Step(Step<'a>),
    /// A call was served, and the program goes on from here.
    Served(&'a State),
}

/// Who is shown the steps.
pub type Show<'a> = dyn FnMut(Shown) -> Result<(), Failure> + 'a;

/// The state before each step, without a copy of all memory for each: it follows by what each step is explained to write.
pub struct Before {
    pub state: State,
    written: Range<usize>,
}

impl Before {
    pub fn new(state: &State) -> Before {
        Before {
            state: state.clone(),
            written: 0..0,
        }
    }

    /// The hart as it is before the next step, and the word that is given for it.
    pub fn begins(&mut self, state: &State) {
        self.state.hart = state.hart;
        self.state.given = state.given;
    }

    /// Shows the step that was made since.
    pub fn show(
        &mut self,
        number: u64,
        after: &State,
        answer: Answer,
        map: &PageMap,
        show: &mut Show,
    ) -> Result<(), Failure> {
        let written = explain::written(&self.state, map).filter(|_| !answer.trapped);
        self.written = written.unwrap_or(0..0);
        show(Shown::Step(Step {
            number,
            before: &self.state,
            after,
            answer,
            written: self.written.clone(),
        }))
    }

    /// Takes over what the environment wrote.
    pub fn served(&mut self, writes: &[Write]) {
        for (at, bytes) in writes {
            self.state.mem[*at..*at + bytes.len()].copy_from_slice(bytes);
        }
    }

    /// Takes over what the step wrote.
    pub fn ends(&mut self, after: &State) {
        let written = self.written.clone();
        self.state.mem[written.clone()].copy_from_slice(&after.mem[written]);
    }

    /// Whether nothing was missed: memory after the step just shown is what it was before it, but for what that step wrote.
    pub fn check(&self, after: &State) -> Result<(), Failure> {
        let Range { start, end } = self.written;
        let (before, after) = (&self.state.mem, &after.mem);
        match before[..start] == after[..start] && before[end..] == after[end..] {
            true => Ok(()),
            false => Err(Failure::Tool(
                "the trace missed a change of memory: a fault of the desk".into(),
            )),
        }
    }
}
