//! How a run came to where it is, so that its last steps can be found again: the state before the last one, or a trace of many.
//!
//! A copy of an earlier state is kept, and what happened since: steps of the hart, which come out the same again, and what the
//! environment did between them. A new copy is taken now and then, so that neither copying nor finding again takes long, and old
//! ones go where enough steps lie behind them.

use crate::environment::Write;
use crate::failure::Failure;
use crate::map::PageMap;
use crate::state::State;
use crate::steps::{Before, Show, Shown};
use sporhulma::{Hart, MOST_STEPS};
use std::collections::VecDeque;

/// Calls of the environment after which a new copy is due, as it is after a run's most steps, or as many written bytes as memory has.
const MOST_CALLS: usize = 1000;

/// The most copies beside the last one, each with what the environment wrote since: some 128M where memory is the largest.
const MOST_OLD: usize = 63;

/// What the environment left after so many steps.
struct Call {
    steps: u64,
    hart: Hart,
    writes: Vec<Write>,
}

/// A copy, and what happened up to the next.
struct Stretch {
    start: State,
    /// Steps since the copy, or since the last call.
    steps: u64,
    calls: Vec<Call>,
    /// All steps since the copy, and all bytes that the environment wrote.
    since: u64,
    written: usize,
}

pub struct Past {
    /// The older ones.
    old: VecDeque<Stretch>,
    now: Stretch,
    /// How many of the last steps may be wanted.
    keep: u64,
}

impl Stretch {
    fn new(start: State) -> Stretch {
        Stretch {
            start,
            steps: 0,
            calls: Vec::new(),
            since: 0,
            written: 0,
        }
    }
}

impl Past {
    /// Keeps so many of the last steps, and one at least.
    pub fn new(state: &State, keep: u64) -> Past {
        Past {
            old: VecDeque::new(),
            now: Stretch::new(state.clone()),
            keep,
        }
    }

    /// Takes a new copy if one is due.
    pub fn renew(&mut self, state: &State) {
        let few = self.now.calls.len() < MOST_CALLS && self.now.written < state.mem.len();
        if self.now.since < MOST_STEPS && few {
            return;
        }
        let next = Stretch::new(state.clone());
        self.old.push_back(std::mem::replace(&mut self.now, next));
        let mut kept: u64 = self.old.iter().map(|stretch| stretch.since).sum();
        while let Some(first) = self.old.front() {
            kept -= first.since;
            if kept < self.keep && self.old.len() <= MOST_OLD {
                break;
            }
            self.old.pop_front();
        }
    }

    /// The hart has made so many steps.
    pub fn stepped(&mut self, steps: u64) {
        self.now.steps += steps;
        self.now.since += steps;
    }

    /// The environment has served a call: it left this hart, and wrote this.
    pub fn served(&mut self, hart: &Hart, writes: Vec<Write>) {
        self.now.written += writes.iter().map(|write| write.1.len()).sum::<usize>();
        self.now.calls.push(Call {
            steps: self.now.steps,
            hart: *hart,
            writes,
        });
        self.now.steps = 0;
    }

    /// The state before the last step; at least one was made since the last call.
    pub fn before_last(&self, map: &PageMap) -> Result<State, Failure> {
        let mut state = self.now.start.clone();
        for call in &self.now.calls {
            again(&mut state, map, call.steps)?;
            call.left(&mut state);
        }
        again(&mut state, map, self.now.steps.saturating_sub(1))?;
        Ok(state)
    }

    /// Shows the last steps that are kept, of a run that ended in `end` after `count` steps; says how many.
    pub fn show(
        mut self,
        map: &PageMap,
        (end, count): (&State, u64),
        show: &mut Show,
    ) -> Result<u64, Failure> {
        self.old.push_back(self.now);
        let known: u64 = self.old.iter().map(|stretch| stretch.since).sum();
        let start = match self.old.front() {
            Some(first) => first.start.clone(),
            None => end.clone(),
        };
        let shown = known.min(self.keep);
        let mut replay = Replay {
            before: None,
            state: start,
            map,
            number: count - known,
            first: count - shown,
        };
        for stretch in &self.old {
            for call in &stretch.calls {
                replay.steps(call.steps, show)?;
                replay.served(call, show)?;
            }
            replay.steps(stretch.steps, show)?;
        }
        if let Some(before) = &replay.before {
            before.check(&replay.state)?;
        }
        match replay.state.hart == end.hart && replay.state.mem == end.mem {
            true => Ok(shown),
            false => Err(differently()),
        }
    }
}

impl Call {
    /// Does again what the environment did.
    fn left(&self, state: &mut State) {
        state.hart = self.hart;
        for (at, bytes) in &self.writes {
            state.mem[*at..*at + bytes.len()].copy_from_slice(bytes);
        }
    }
}

/// Steps made again, the last ones shown.
struct Replay<'a> {
    /// From the first shown step on.
    before: Option<Before>,
    state: State,
    map: &'a PageMap,
    /// Steps made.
    number: u64,
    /// Steps before the first that is shown.
    first: u64,
}

impl Replay<'_> {
    fn steps(&mut self, steps: u64, show: &mut Show) -> Result<(), Failure> {
        let unseen = steps.min(self.first.saturating_sub(self.number));
        again(&mut self.state, self.map, unseen)?;
        self.number += unseen;
        for _ in unseen..steps {
            let state = &mut self.state;
            let before = self.before.get_or_insert_with(|| Before::new(state));
            before.begins(state);
            let answer = state.steps(self.map, 1);
            if answer.refusal != 0 {
                return Err(differently());
            }
            self.number += 1;
            before.show(self.number, state, answer, self.map, show)?;
            before.ends(state);
        }
        Ok(())
    }

    fn served(&mut self, call: &Call, show: &mut Show) -> Result<(), Failure> {
        call.left(&mut self.state);
        if let Some(before) = &mut self.before {
            before.served(&call.writes);
            show(Shown::Served(&self.state))?;
        }
        Ok(())
    }
}

/// Makes steps again, through traps too.
fn again(state: &mut State, map: &PageMap, steps: u64) -> Result<(), Failure> {
    let mut left = steps;
    while left > 0 {
        let answer = state.steps(map, left.min(MOST_STEPS));
        if answer.refusal != 0 {
            return Err(differently());
        }
        left -= answer.count;
    }
    Ok(())
}

fn differently() -> Failure {
    Failure::Tool("the same steps came out differently: a fault of the desk".into())
}
