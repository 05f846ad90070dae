//! Where a run spends its steps: by function, and by the calls that led there. Every step is counted.

mod flame;
mod functions;
mod stack;
mod table;
mod tree;

pub use flame::draw;

use crate::map::PageMap;
use crate::place::{follow, Access, Kind};
use crate::state::State;
use crate::symbols::Symbols;
use functions::{Functions, Id};
use sporhulma::{word, Answer, Hart, BASE};
use stack::{Move, Stack};
use tree::Tree;

/// A profile on its way.
pub struct Profile<'a> {
    symbols: &'a Symbols,
    functions: Functions,
    stack: Stack,
    tree: Tree,
}

/// What was counted.
pub struct Counts {
    functions: Functions,
    tree: Tree,
    steps: u64,
}

/// A step that was made, as far as a profile needs it.
pub struct Made<'a> {
    pub before: &'a Hart,
    pub after: &'a State,
    pub answer: Answer,
    /// The word, if it was given and not fetched.
    pub given: Option<u32>,
    /// Whether the environment served it: then the program goes on behind it.
    pub served: bool,
    /// Whether the run ended with it.
    pub last: bool,
}

impl<'a> Profile<'a> {
    /// Of a run that begins in this state.
    pub fn new(state: &State, symbols: &'a Symbols) -> Profile<'a> {
        let mut functions = Functions::default();
        let first = functions.entered(state.pc(), state.space(), symbols);
        let mut tree = Tree::new();
        let stack = Stack::new(first, &mut tree);
        Profile {
            symbols,
            functions,
            stack,
            tree,
        }
    }

    /// Counts a step, and goes where it went.
    pub fn saw(&mut self, made: &Made, map: &PageMap) {
        let (function, node) = self.stack.top();
        self.functions.count(function);
        self.tree.count(node);
        let (pc, trapped) = (made.after.pc(), made.answer.trapped);
        let on = made.before.rest[word::PC].wrapping_add(4);
        if made.last || (pc == on && !trapped && self.still_in(function, made.after)) {
            return;
        }
        let taken = match (made.served, trapped) {
            (true, _) => Move::Jump,
            (_, true) => Move::Trap,
            _ => Move::of(fetched(made, map)),
        };
        self.stack.returns(taken, pc);
        if taken.calls() {
            let called = self.entered(made.after);
            self.stack.calls(taken, on, called, &mut self.tree);
        } else if !self.still_in(self.stack.top().0, made.after) {
            // A tail call, or code that goes on into the next function.
            let next = self.entered(made.after);
            self.stack.becomes(next, &mut self.tree);
        }
    }

    /// Whether the hart is in this function. Without symbols nothing but a call leads to another.
    fn still_in(&mut self, function: Id, state: &State) -> bool {
        let named = self
            .functions
            .named(state.pc(), state.space(), self.symbols);
        match named {
            Some(id) => id == function,
            None => !self.functions.is_named(function),
        }
    }

    fn entered(&mut self, state: &State) -> Id {
        let (pc, space) = (state.pc(), state.space());
        self.functions.entered(pc, space, self.symbols)
    }

    pub fn done(self) -> Counts {
        Counts {
            steps: self.functions.steps(),
            functions: self.functions,
            tree: self.tree,
        }
    }
}

/// The word that a step was made of. Memory is that behind the step; no jump writes any.
fn fetched(made: &Made, map: &PageMap) -> Option<u32> {
    if made.given.is_some() {
        return made.given;
    }
    let (hart, mem) = (made.before, &made.after.mem);
    let fetch = Access {
        kind: Kind::Fetch,
        width: 4,
        address: hart.rest[word::PC],
    };
    let physical = follow(hart, mem.len() as u64, map, fetch).end.ok()?;
    let at = (physical - BASE) as usize;
    Some(u32::from_le_bytes(mem[at..at + 4].try_into().ok()?))
}
