//! The line that shows how far it has come, on standard error.

use std::io::{IsTerminal, stderr};
use std::time::{Duration, Instant};

use super::counts::Counts;

/// How often the line comes if a terminal shows it, and if not.
const SHOWN: Duration = Duration::from_secs(1);
const LOGGED: Duration = Duration::from_secs(10);

pub struct Progress {
    start: Instant,
    next: Instant,
    terminal: bool,
}

impl Progress {
    pub fn new(start: Instant) -> Self {
        let terminal = stderr().is_terminal();
        let mut progress = Self {
            start,
            next: start,
            terminal,
        };
        progress.wait();
        progress
    }

    fn wait(&mut self) {
        self.next = Instant::now() + if self.terminal { SHOWN } else { LOGGED };
    }

    /// Shows the line if it is time.
    pub fn show(&mut self, rows: &[Counts], differences: u64) {
        if Instant::now() < self.next {
            return;
        }
        self.wait();
        let line = self.line(rows, differences);
        if self.terminal {
            eprint!("\r{line}");
        } else {
            eprintln!("{line}");
        }
    }

    /// Shows it a last time.
    pub fn end(&self, rows: &[Counts], differences: u64) {
        let back = if self.terminal { "\r" } else { "" };
        eprintln!("{back}{}", self.line(rows, differences));
    }

    fn line(&self, rows: &[Counts], differences: u64) -> String {
        let Counts { symbols, calls, .. } = Counts::sum(rows);
        let seconds = self.start.elapsed().as_secs();
        format!("{seconds} s, {symbols} symbols, {calls} calls, {differences} differences")
    }
}
