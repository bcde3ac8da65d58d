//! How far a run is, told on standard error while it runs.

use std::io::{self, IsTerminal, Write};
use std::time::{Duration, Instant};

pub struct Progress {
    begun: Instant,
    told: Instant,
    /// A terminal has one line that is written over and over; elsewhere there
    /// is a line now and then.
    on_terminal: bool,
}

impl Progress {
    pub fn begin() -> Self {
        let now = Instant::now();
        Self {
            begun: now,
            told: now,
            on_terminal: io::stderr().is_terminal(),
        }
    }

    /// Tells it if the last time was long ago.
    pub fn tell(&mut self, far: impl FnOnce() -> String) {
        let wait = if self.on_terminal { 1 } else { 30 };
        if self.told.elapsed() < Duration::from_secs(wait) {
            return;
        }
        self.told = Instant::now();
        if self.on_terminal {
            // Back to the line's start, and what was left of it cleared.
            eprint!("\r{}\x1b[K", far());
            let _ = io::stderr().flush();
        } else {
            eprintln!("{}", far());
        }
    }

    /// Ends the line of a terminal.
    pub fn end(&self) {
        if self.on_terminal && self.told > self.begun {
            eprintln!();
        }
    }

    pub fn seconds(&self) -> f64 {
        self.begun.elapsed().as_secs_f64()
    }
}
