//! A bar that shows how far a work is, on a terminal alone.

use std::io::{self, IsTerminal, Write};
use std::time::{Duration, Instant};

const WIDE: u64 = 40;
const EVERY: Duration = Duration::from_millis(100);

/// The bar of a work of so many steps.
#[derive(Debug)]
pub struct Progress {
    steps: u64,
    shown: bool,
    begun: Instant,
    last: Instant,
}

impl Progress {
    /// A bar of which nothing is done.
    pub fn of(steps: u64) -> Progress {
        let now = Instant::now();
        let progress = Progress {
            steps,
            shown: io::stderr().is_terminal(),
            begun: now,
            last: now,
        };
        progress.draw(0, "");
        progress
    }

    /// So many steps are done, one or more.
    pub fn done(&mut self, steps: u64) {
        if self.last.elapsed() < EVERY {
            return;
        }
        self.last = Instant::now();
        let left = self.begun.elapsed().as_secs_f64() * (self.steps - steps) as f64 / steps as f64;
        self.draw(steps, &format!(", {left:.0} s left "));
    }

    fn draw(&self, steps: u64, more: &str) {
        let full = (WIDE * steps / self.steps) as usize;
        let bar = "#".repeat(full) + &"-".repeat(WIDE as usize - full);
        let percent = 100 * steps / self.steps;
        self.write(&format!("\r[{bar}] {percent:3}%{more}"));
    }

    /// Nothing is lost with a bar that cannot be drawn.
    fn write(&self, text: &str) {
        if self.shown {
            let mut out = io::stderr();
            _ = out.write_all(text.as_bytes()).and_then(|()| out.flush());
        }
    }
}

/// The line is cleared when the work ends, however it ends.
impl Drop for Progress {
    fn drop(&mut self) {
        self.write("\r\x1b[K");
    }
}
