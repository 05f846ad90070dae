//! Notes: what was switched on and did nothing in a run. Nothing of this may be silent: a program that a switch does not protect ends
//! as well as one that it does.

#[cfg(test)]
mod agreement;
mod watch;

pub use watch::Watch;

use crate::names::mode_name;
use watch::{Count, Seen};

/// A line for each switch that had no effect in a run that `watch` has followed to its end.
pub fn notes(watch: &Watch) -> Vec<String> {
    let mut notes = shadow(watch);
    if watch.pads == Seen::NotYet {
        notes.push(
            "landing pads are on, and no pad was looked for: no indirect jump was made in a mode where they are on".into(),
        );
    }
    if watch.map == Seen::NotYet {
        notes.push(
            "the map was not in use: no access was made in S or U with satp on (--sv39 turns it on, --mode U starts in U)"
                .into(),
        );
    }
    if watch.masking == Seen::NotYet {
        notes.push("masking is on, and changed the address of no access".into());
    }
    notes
}

fn shadow(watch: &Watch) -> Vec<String> {
    let met = |(mode, count): (u64, &Count)| {
        let (mode, why) = match mode {
            3 => (
                "M",
                "where the hart has no shadow stack (a program in U with Sv39 has it)",
            ),
            mode => (mode_name(mode), "while menvcfg.SSE or senvcfg.SSE was 0"),
        };
        let what = counted(count);
        format!("the shadow stack is on, and {what} did nothing: met in {mode}, {why}")
    };
    let idle = (0..).zip(&watch.idle);
    let mut notes: Vec<String> = idle
        .filter(|(_, count)| **count != Count::default())
        .map(met)
        .collect();
    if watch.shadow == Seen::NotYet && notes.is_empty() {
        notes.push(
            "the shadow stack is on, and no push or pop-check was met: the program may be built without them (docs/C.md)".into(),
        );
    }
    notes
}

/// So many pushes and pop-checks, in words.
fn counted(count: &Count) -> String {
    let many = |count: u64, what: &str| match count {
        1 => format!("1 {what}"),
        _ => format!("{count} {what}s"),
    };
    let (pushes, checks) = (many(count.pushes, "push"), many(count.checks, "pop-check"));
    let pushes = pushes.replace("pushs", "pushes");
    match (count.pushes, count.checks) {
        (_, 0) => pushes,
        (0, _) => checks,
        _ => format!("{pushes} and {checks}"),
    }
}
