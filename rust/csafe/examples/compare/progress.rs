//! The line on standard error that tells how far the program is.

use std::io::{self, IsTerminal, Write};
use std::time::{Duration, Instant};

use crate::tally::grouped;

pub struct Progress {
    wanted: u64,
    started: Instant,
    next: Duration,
    terminal: bool,
}

impl Progress {
    pub fn new(wanted: u64) -> Progress {
        Progress {
            wanted,
            started: Instant::now(),
            next: Duration::ZERO,
            terminal: io::stderr().is_terminal(),
        }
    }

    /// Tells at most four times a second, and into a file once in ten seconds.
    pub fn tell(&mut self, calls: u64, kind: &str) {
        let elapsed = self.started.elapsed();
        if elapsed < self.next {
            return;
        }
        let (step, start, end) = match self.terminal {
            true => (Duration::from_millis(250), "\r", "\x1b[K"),
            false => (Duration::from_secs(10), "", "\n"),
        };
        self.next = elapsed + step;
        let rate = calls as f64 / elapsed.as_secs_f64();
        eprint!(
            "{start}{} of {} calls, {} a second, {kind}{end}",
            grouped(calls),
            grouped(self.wanted),
            grouped(rate as u64),
        );
        // A line that is not shown at once is shown with the next.
        let _ = io::stderr().flush();
    }

    /// Clears the line and answers the time that was taken.
    pub fn end(&self) -> Duration {
        if self.terminal {
            eprint!("\r\x1b[K");
        }
        self.started.elapsed()
    }
}
