//! A line of progress on stderr that is written over, where that is a terminal.

use indicatif::{ProgressBar, ProgressStyle};
use std::cell::Cell;
use std::time::{Duration, Instant};

pub struct Progress {
    /// Draws on stderr, and only where that is a terminal.
    bar: ProgressBar,
    start: Instant,
    /// When the next line is due, and how long after it the one behind it.
    due: Cell<Instant>,
    every: Duration,
}

impl Progress {
    /// Of a bar with a style of the caller's.
    pub fn new(bar: ProgressBar, first: Duration, every: Duration) -> Progress {
        let start = Instant::now();
        Progress {
            bar,
            start,
            due: Cell::new(start + first),
            every,
        }
    }

    /// Of lines that say all by themselves.
    pub fn lines(every: Duration) -> Progress {
        let bar = ProgressBar::new_spinner();
        // A template that indicatif does not take would show in its own form.
        if let Ok(style) = ProgressStyle::with_template("{msg}") {
            bar.set_style(style);
        }
        Progress::new(bar, Duration::ZERO, every)
    }

    /// The bar, if it is seen and a line is due: not oftener than it can be read.
    pub fn due(&self) -> Option<&ProgressBar> {
        if self.bar.is_hidden() || Instant::now() < self.due.get() {
            return None;
        }
        self.due.set(Instant::now() + self.every);
        Some(&self.bar)
    }

    /// Shows where the work stands, if a line is due.
    pub fn show(&self, line: impl FnOnce() -> String) {
        if let Some(bar) = self.due() {
            bar.set_message(line());
        }
    }

    /// Lets other text be printed while the line is away.
    pub fn aside(&self, print: impl FnOnce()) {
        self.bar.suspend(print);
    }

    /// Takes the line away, so that what is said at the end stands alone.
    pub fn clear(&self) {
        self.bar.finish_and_clear();
    }

    /// Seconds since the start.
    pub fn seconds(&self) -> f64 {
        self.start.elapsed().as_secs_f64()
    }
}

impl Drop for Progress {
    fn drop(&mut self) {
        self.clear();
    }
}
