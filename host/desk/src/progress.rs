//! A line of progress on a terminal, for runs that take longer than a second.

use crate::failure::Failure;
use crate::interrupt::Interrupt;
use crate::state::State;
use crate::symbols::Symbols;
use indicatif::{ProgressBar, ProgressState, ProgressStyle};
use std::time::Duration;
use terminal::progress::Progress as Line;

pub struct Progress<'a> {
    line: Line,
    interrupt: Interrupt,
    symbols: &'a Symbols,
}

impl<'a> Progress<'a> {
    /// For a run of so many steps; none where its end is not known.
    pub fn start(steps: Option<u64>, symbols: &'a Symbols) -> Result<Progress<'a>, Failure> {
        let (bar, form) = match steps {
            Some(steps) => (
                ProgressBar::new(steps),
                "{human_pos} of {human_len} steps ({percent}%), {rate}, at {msg}",
            ),
            None => (
                ProgressBar::new_spinner(),
                "{human_pos} steps, {rate}, at {msg} (Ctrl-C ends it with a report)",
            ),
        };
        // A template that indicatif does not take would show in its own form.
        if let Ok(style) = ProgressStyle::with_template(form) {
            bar.set_style(style.with_key("rate", rate));
        }
        Ok(Progress {
            line: Line::new(bar, Duration::from_secs(1), Duration::from_millis(200)),
            interrupt: Interrupt::new()?,
            symbols,
        })
    }

    pub fn tick(&self, count: u64, state: &State) {
        if let Some(bar) = self.line.due() {
            let place = self.symbols.shown(state.pc(), state.space());
            bar.set_message(place);
            bar.set_position(count);
        }
    }

    /// Whether the user wants it to end.
    pub fn interrupted(&self) -> bool {
        self.interrupt.pressed()
    }
}

/// Steps a second, since the start.
fn rate(state: &ProgressState, line: &mut dyn std::fmt::Write) {
    let rate = state.pos() as f64 / state.elapsed().as_secs_f64() / 1e6;
    // A line that cannot be written shows no rate.
    let _ = write!(line, "{rate:.1} million a second");
}
