//! The trap of a pop-check that finds another return address, and the calls that the shadow stack still has.

use super::{Rows, Verdict};
use crate::facts::{hex, object, Facts};
use crate::map::PageMap;
use crate::place::{Access, Kind, Path};
use crate::state::State;
use crate::symbols::Symbols;
use disasm::register;
use serde_json::Value;

/// Callers that a report shows; the JSON object has all of them.
const SHOWN: usize = 16;

/// A pop-check that is permitted: its register, and where the shadow stack has what was pushed.
pub struct Pop<'a> {
    pub source: usize,
    pub path: &'a Path,
    pub physical: u64,
}

/// The trap of a pop-check whose register is not what was pushed.
pub fn mismatch(before: &State, map: &PageMap, symbols: &Symbols, pop: Pop) -> Option<Verdict> {
    let used = before.hart.x[pop.source];
    let pushed = before.bytes(pop.physical, 8);
    if used == pushed {
        return None;
    }
    let stack = stack(before, map, pop.path.transformed);
    Some(Verdict {
        cause: 18,
        tval: 3,
        rows: rows(before, symbols, &pop, used, &stack),
        facts: facts(before, symbols, &pop, used, &stack),
    })
}

fn rows(before: &State, symbols: &Symbols, pop: &Pop, used: u64, stack: &[Slot]) -> Rows {
    let (name, at, physical) = (register(pop.source), pop.path.transformed, pop.physical);
    let returns = |address| symbols.returns(address, before.space());
    let goes = symbols.told(used, before.space());
    let pushed = returns(before.bytes(physical, 8));
    let why = "shadow stack mismatch: the return address is not the one that was pushed";
    let lies = format!("virtual {at:#x} (ssp), physical {physical:#x}");
    let mut rows = vec![
        ("why", why.into()),
        (
            "used",
            format!("{goes} (in {name}: the return would go there)"),
        ),
        ("pushed", format!("{pushed} (on the shadow stack)")),
        ("lies at", lies),
    ];
    rows.extend(callers(stack, returns));
    rows.extend(pop.path.entry.map(|entry| entry.row()));
    rows
}

fn facts(before: &State, symbols: &Symbols, pop: &Pop, used: u64, stack: &[Slot]) -> Facts {
    let space = before.space();
    let slot = |slot: &Slot| {
        let own = [("at", hex(slot.at)), ("returns_to", hex(slot.pushed))];
        object(own.into_iter().chain(symbols.call(slot.pushed, space)))
    };
    vec![
        ("register", Value::from(register(pop.source))),
        ("used", hex(used)),
        ("pushed", hex(before.bytes(pop.physical, 8))),
        ("virtual", hex(pop.path.transformed)),
        ("physical", hex(pop.physical)),
        ("used_at", object(symbols.facts(used, space))),
        ("call_stack", stack.iter().map(slot).collect()),
    ]
}

/// A word of the shadow stack, and its address.
struct Slot {
    at: u64,
    pushed: u64,
}

/// What the shadow stack has from `ssp` upward, each with its address: up to where no pop-check is permitted. Zeros at the end were
/// never pushed.
fn stack(before: &State, map: &PageMap, ssp: u64) -> Vec<Slot> {
    let slots = (0..).map(|slot: u64| ssp.wrapping_add(8 * slot));
    let read = |at| {
        let pop = Access {
            kind: Kind::Pop,
            width: 8,
            address: at,
        };
        let physical = before.path(map, pop).end.ok()?;
        let pushed = before.bytes(physical, 8);
        Some(Slot { at, pushed })
    };
    let mut stack: Vec<Slot> = slots.map_while(read).collect();
    let used = stack.iter().rposition(|slot| slot.pushed != 0);
    stack.truncate(used.map_or(0, |last| last + 1));
    stack
}

/// The calls behind the one that was to return, the nearest first.
fn callers(stack: &[Slot], returns: impl Fn(u64) -> String) -> Rows {
    let callers = stack.get(1..).unwrap_or_default();
    let label = |at| if at == 0 { "callers" } else { "" };
    let row = |(at, slot): (usize, &Slot)| (label(at), returns(slot.pushed));
    let mut rows: Rows = callers.iter().take(SHOWN).enumerate().map(row).collect();
    if callers.len() > SHOWN {
        rows.push(("", format!("and {} more", callers.len() - SHOWN)));
    }
    rows
}
