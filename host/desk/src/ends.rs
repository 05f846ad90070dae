//! How a run ended, in the report's first line, and whether that is how it was to end.

use crate::drive::{End, Stop};
use crate::explain::Trap;
use crate::run_options::{Expect, Wanted};

/// The report's first line.
pub fn headline(end: &End, trap: Option<&Trap>) -> String {
    let followed = match end.followed {
        0 => String::new(),
        1 => ", 1 trap before it followed".into(),
        more => format!(", {more} traps before it followed"),
    };
    let after = followed.replace(" before it", "");
    let (step, steps) = (end.count, steps(end.count));
    match (end.stop, trap) {
        (Stop::Trap, Some(trap)) => {
            format!("Stopped by a trap in step {step}{followed}: {}.", trap.headline())
        }
        (Stop::Stuck, Some(trap)) => format!(
            "Stuck in step {step}{followed}: this trap leaves the hart exactly as it was, for ever: {}.",
            trap.headline()
        ),
        (Stop::Exit(value), _) => {
            format!("The program exited with {} in step {step}{after}.", value)
        }
        (Stop::Still, _) => format!(
            "Stopped after {steps}{after}: the hart stands still, each further step would leave it exactly as it is."
        ),
        (Stop::Interrupted, _) => {
            format!("Ended by Ctrl-C after {steps}{after}: the program had not ended.")
        }
        _ => format!(
            "The program had not ended after {steps}, all that --steps allows{after}."
        ),
    }
}

fn steps(count: u64) -> String {
    match count {
        1 => "1 step".into(),
        _ => format!("{count} steps"),
    }
}

/// The name of an end in JSON.
pub fn name(stop: Stop) -> &'static str {
    match stop {
        Stop::Steps => "steps",
        Stop::Trap => "trap",
        Stop::Stuck => "stuck",
        Stop::Still => "still",
        Stop::Exit(_) => "exit",
        Stop::Interrupted => "interrupted",
    }
}

/// Whether it ended as it was to end: as `--expect` says, else by all its steps or an exit with 0.
pub fn as_asked(end: &End, trap: Option<&Trap>, expect: Option<&Expect>) -> bool {
    match (expect.map(|expect| &expect.wanted), end.stop) {
        (None, stop) => [Stop::Steps, Stop::Exit(0)].contains(&stop),
        (Some(Wanted::Causes(causes)), _) => trap.is_some_and(|trap| causes.contains(&trap.cause)),
        (Some(Wanted::Exit(None)), stop) => matches!(stop, Stop::Exit(_)),
        (Some(Wanted::Exit(Some(wanted))), stop) => stop == Stop::Exit(*wanted),
    }
}
