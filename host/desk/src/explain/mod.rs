//! Why a step trapped, in words and as facts for programs.
//!
//! `expected` goes through a step in the order of docs/HART.md, 10.1 (fetch, landing pad, decoding, the instruction) on the
//! state before it, and finds the trap and its reason. What the proved hart gave decides: where the two differ,
//! the explanation says so and gives no reason.

#[cfg(test)]
pub mod agreement;
mod csrs;
mod fault;
mod flow;
mod foreign;
mod illegal;
mod shadow;

pub use flow::{pads_on, shadow_stack_on};
pub use sporhulma::family;

use crate::facts::Facts;
use crate::map::PageMap;
use crate::names::{mode_name, M};
use crate::place::{by_the_rules, Access, Kind};
use crate::state::State;
use crate::symbols::Symbols;
use disasm::Word;
use sporhulma::{word, Hart, BASE};
use std::ops::Range;

/// Rows of a report: what it is about, and what is said.
pub type Rows = Vec<(&'static str, String)>;

/// A trap with its reason.
struct Verdict {
    cause: u64,
    tval: u64,
    rows: Rows,
    facts: Facts,
}

/// A trap as the hart gave it, explained.
pub struct Trap {
    pub cause: u64,
    pub tval: u64,
    /// Where and in which mode it happened.
    pub pc: u64,
    /// What that is called, for programs.
    pub place: Facts,
    pub from: u64,
    /// The mode that it was taken to.
    pub to: u64,
    pub rows: Rows,
    pub facts: Facts,
}

impl Trap {
    /// The trap of a step from `before` to `after`.
    pub fn explain(
        before: &State,
        map: &PageMap,
        symbols: &Symbols,
        after: &Hart,
        cause: u64,
    ) -> Trap {
        let to = after.rest[word::MODE];
        let tval = after.rest[if to == M { word::MTVAL } else { word::STVAL }];
        let (reason, facts) = match expected(before, map, symbols) {
            Some(verdict) if (verdict.cause, verdict.tval) == (cause, tval) => {
                (verdict.rows, verdict.facts)
            }
            other => (vec![("note", disagreement(other))], Vec::new()),
        };
        let rows = [("at", before.next_text(map, symbols))]
            .into_iter()
            .chain(reason)
            .collect();
        Trap {
            cause,
            tval,
            pc: before.pc(),
            place: symbols.facts(before.pc(), before.space()),
            from: before.mode(),
            to,
            rows,
            facts,
        }
    }

    /// The trap in one line.
    pub fn headline(&self) -> String {
        let delegated = if self.to == M {
            ""
        } else {
            ", delegated by medeleg"
        };
        format!(
            "cause {} ({}), tval {:#x}, from {} to {}{delegated}",
            self.cause,
            cause_name(self.cause),
            self.tval,
            mode_name(self.from),
            mode_name(self.to)
        )
    }
}

fn disagreement(own: Option<Verdict>) -> String {
    let own = match own {
        Some(verdict) => format!("cause {} with tval {:#x}", verdict.cause, verdict.tval),
        None => "no trap".into(),
    };
    format!("the desk has no explanation: it comes to {own}, and the proved hart decides. Please report this.")
}

pub fn cause_name(cause: u64) -> &'static str {
    match cause {
        0 => "instruction address misaligned",
        1 => "instruction access fault",
        2 => "illegal instruction",
        3 => "breakpoint",
        4 => "load address misaligned",
        5 => "load access fault",
        6 => "store address misaligned",
        7 => "store access fault",
        8 => "environment call from U",
        9 => "environment call from S",
        11 => "environment call from M",
        12 => "instruction page fault",
        13 => "load page fault",
        15 => "store page fault",
        18 => "software check",
        _ => "unknown cause",
    }
}

/// The trap of the next step, if it traps.
fn expected(before: &State, map: &PageMap, symbols: &Symbols) -> Option<Verdict> {
    let word = match before.next_word(map) {
        Ok(word) => word,
        Err(path) => return fault::verdict(&path, symbols),
    };
    if let Some(missing) = flow::landing_pad(before, word) {
        return Some(missing);
    }
    let family = sporhulma::family(word);
    if let Some(why) = illegal::reason(&before.hart, word, family) {
        return Some(illegal::verdict(word, why));
    }
    match family {
        family::JAL | family::JALR | family::BRANCH => flow::target(before, symbols, word, family),
        family::ECALL => Some(flow::ecall(before)),
        family::EBREAK => Some(flow::ebreak(before)),
        _ => access_trap(before, map, symbols, word),
    }
}

/// The access that a memory instruction makes, if the word is one and makes one.
pub fn access(before: &State, word: u32) -> Option<Access> {
    second::access(&by_the_rules(&before.hart), word)
}

/// The trap of a memory instruction.
fn access_trap(before: &State, map: &PageMap, symbols: &Symbols, word: u32) -> Option<Verdict> {
    let access = access(before, word)?;
    let path = before.path(map, access);
    match (access.kind, &path.end) {
        (Kind::Pop, Ok(physical)) => {
            let pop = shadow::Pop {
                source: Word(word).rs1() as usize,
                path: &path,
                physical: *physical,
            };
            shadow::mismatch(before, map, symbols, pop)
        }
        _ => fault::verdict(&path, symbols),
    }
}

/// Where in memory a step that does not trap writes, as indices of bytes.
pub fn written(before: &State, map: &PageMap) -> Option<Range<usize>> {
    let access = access(before, before.next_word(map).ok()?)?;
    let path = before.path(map, access);
    let physical = path.end.ok().filter(|_| access.kind.writes())?;
    let first = (physical - BASE) as usize;
    Some(first..first + access.width as usize)
}
