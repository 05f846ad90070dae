//! Of which runs the theorem of docs/ISOLATION.md speaks: from a hart in U with Sv39 on, up to and including the first trap.

use crate::names::{mode_name, U};
use formats::csr::field::SV39;
use sporhulma::{word, Hart};

/// How a run stands to the theorem; the default is a run that it speaks of from its start to its end.
#[derive(Default)]
pub struct Scope {
    /// Which of its conditions the start does not meet.
    pub unmet: Vec<String>,
    /// Traps that the run went on after.
    followed: u64,
}

impl Scope {
    /// Of a run that starts with this hart and went on after so many traps.
    pub fn of(start: &Hart, followed: u64) -> Scope {
        let mode = start.rest[word::MODE];
        let mode = (mode != U).then(|| format!("it starts in {}", mode_name(mode)));
        let bare = start.rest[word::SATP] != SV39;
        let bare = bare.then(|| "satp is Bare at its start".to_string());
        Scope {
            unmet: mode.into_iter().chain(bare).collect(),
            followed,
        }
    }

    /// What the theorem says of the run, or why it says nothing.
    pub fn text(&self) -> String {
        if !self.unmet.is_empty() {
            return format!(
                "docs/ISOLATION.md speaks of user mode under Sv39, and so not of this run: {}",
                self.unmet.join(", and ")
            );
        }
        let after = match self.followed {
            0 => "",
            _ => "; this run went on after its first trap, and of that it does not speak",
        };
        format!(
            "up to and including its first trap, a user program neither depends on the bytes of frames that are not named nor changes them (docs/ISOLATION.md){after}"
        )
    }
}
