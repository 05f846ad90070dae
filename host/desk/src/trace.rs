//! The trace: a line a step with its number, mode, address, word, text and what it changed, and where functions and lines of source
//! are known, a line where another begins.

use crate::explain::cause_name;
use crate::map::PageMap;
use crate::names::mode_name;
use crate::state::State;
use crate::steps::Step;
use crate::symbols::Symbols;
use crate::text::wrapped;
use disasm::register;
use sporhulma::{word, BASE, REST};

/// Where the column of changes begins: behind the widths that `line` gives the others.
const CHANGES: usize = 68;

/// The width of a step's number, where it is not longer.
const NUMBER: usize = 7;

/// A trace on its way: what the addresses are called, and where the step before was.
pub struct Trace<'a> {
    map: &'a PageMap,
    symbols: &'a Symbols,
    /// The symbol and the line of source of the step before.
    place: Option<(String, Option<String>)>,
}

impl<'a> Trace<'a> {
    pub fn new(map: &'a PageMap, symbols: &'a Symbols) -> Trace<'a> {
        Trace {
            map,
            symbols,
            place: None,
        }
    }

    /// The line of a step, and before it one that says where it is, if the step before was in another function or line.
    pub fn lines(&mut self, step: &Step) -> String {
        let (pc, space) = (step.before.pc(), step.before.space());
        let name = self.symbols.name(pc, space).map(|name| name.symbol.into());
        let line = self.symbols.line(pc, space);
        let place = match (name, line) {
            (None, None) => None,
            (name, line) => Some((name.unwrap_or_default(), line)),
        };
        let head = match place != self.place && place.is_some() {
            true => self.symbols.told(pc, space) + "\n",
            false => String::new(),
        };
        self.place = place;
        head + &self.line(step)
    }

    fn line(&self, step: &Step) -> String {
        let before = step.before;
        let pc = before.pc();
        let (bits, text) = match before.next_word(self.map) {
            Ok(word) => {
                let given = before.given.map_or("", |_| " (given)");
                (format!("{word:08x}"), disasm::text(word, pc) + given)
            }
            Err(_) => ("--------".into(), "(no word can be fetched)".into()),
        };
        let mode = mode_name(before.mode());
        let number = format!("{:>NUMBER$}", step.number);
        let head = format!("{number} {mode} {pc:#018x} {bits}  {text:<28} ");
        let column = CHANGES + number.len() - NUMBER;
        wrapped(&head, changes(step, self.symbols), column)
            .trim_end()
            .to_string()
            + "\n"
    }
}

/// The line behind a call that was served.
pub fn served(state: &State, symbols: &Symbols) -> String {
    let (a0, mode) = (state.hart.x[10], mode_name(state.mode()));
    let place = symbols.told(state.pc(), state.space());
    format!("        served: a0={a0:#x}, on at {place} in {mode}\n")
}

/// What a step changed: pc if it did not just go on, registers, the other fields; and what it wrote to memory.
fn changes(step: &Step, symbols: &Symbols) -> Vec<String> {
    let (before, after) = (step.before, step.after);
    let mut changes = Vec::new();
    if step.answer.trapped {
        changes.push(format!(
            "trap {} ({})",
            step.answer.cause,
            cause_name(step.answer.cause)
        ));
    }
    if after.pc() != before.pc().wrapping_add(4) {
        let shown = symbols.shown(after.pc(), after.space());
        changes.push(format!("pc={shown}"));
    }
    for (n, (old, new)) in before.hart.x.iter().zip(after.hart.x).enumerate() {
        if *old != new {
            changes.push(format!("{}={new:#x}", register(n)));
        }
    }
    for (index, (old, new)) in before.hart.rest.iter().zip(after.hart.rest).enumerate() {
        match index {
            word::PC => (),
            _ if *old == new => (),
            word::MODE => changes.push(format!("mode={}", mode_name(new))),
            _ => changes.push(format!("{}={new:#x}", REST[index])),
        }
    }
    changes.extend(memory(step));
    changes
}

/// The bytes that were written, as a little-endian number at their physical address.
fn memory(step: &Step) -> Option<String> {
    let width = step.written.len();
    let physical = BASE + step.written.clone().next()? as u64;
    Some(format!(
        "mem{width}[{physical:#x}]={:#x}",
        step.after.bytes(physical, width)
    ))
}
