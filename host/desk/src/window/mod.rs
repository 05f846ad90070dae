//! Which steps of a run a trace shows.

#[cfg(test)]
mod agreement;

use crate::drive::End;
use crate::number::number;
use crate::symbols::{Place, Symbols};

/// The most steps that `--trace-last` keeps, so that copies of memory as they were do not fill the machine's own.
const MOST_LAST: u64 = 100_000;

#[derive(Clone, Debug, PartialEq)]
pub enum Window {
    None,
    /// From there on, at most so many.
    From(Start, u64),
    /// The last ones, so many.
    Last(u64),
}

/// Where a window begins.
#[derive(Clone, Debug, PartialEq)]
pub enum Start {
    /// With the step of this number; the first is 1.
    Step(u64),
    /// With the first step at a place, which was given so.
    Place(String, Place),
}

impl Start {
    pub fn parse(text: &str, symbols: &Symbols) -> Result<Start, String> {
        if !text.starts_with(|first: char| first.is_ascii_digit()) {
            return Ok(Start::Place(text.into(), symbols.place(text)?));
        }
        match number(text)? {
            0 => Err("the first step is 1; give a step from 1 on, a symbol or v:ADDRESS".into()),
            step => Ok(Start::Step(step)),
        }
    }
}

impl Window {
    /// What is to be said where less was shown than was asked for.
    pub fn missed(&self, end: &End) -> Option<String> {
        let shown = end.shown;
        match self {
            Window::Last(steps) if shown < end.count.min(*steps) => Some(format!(
                "the trace has the last {shown} steps and not {steps}: the environment wrote too much in them to keep more"
            )),
            Window::From(Start::Step(step), _) if shown == 0 && *step > 1 => {
                Some(format!("the trace is empty: the run ended before step {step}"))
            }
            Window::From(Start::Place(name, _), _) if shown == 0 => {
                Some(format!("the trace is empty: the hart never came to {name}"))
            }
            _ => None,
        }
    }
}

/// How many steps a trace shows.
pub fn steps(text: &str) -> Result<u64, String> {
    match number(text)? {
        0 => Err("0 steps show nothing; try 1 or more".into()),
        steps => Ok(steps),
    }
}

/// How many of the last steps a trace shows.
pub fn last(text: &str) -> Result<u64, String> {
    match steps(text)? {
        steps if steps > MOST_LAST => Err(format!(
            "the desk keeps at most the last {MOST_LAST} steps; for more give --trace-from STEP"
        )),
        steps => Ok(steps),
    }
}
