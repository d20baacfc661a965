//! A line on a terminal's standard error that says how far a long run is.

use std::io::{IsTerminal, Write};
use std::time::{Duration, Instant};

/// How often it is said, and what is worth saying at all.
const EVERY: Duration = Duration::from_secs(1);

/// The clock is looked at once in so many steps.
const STEPS: usize = 256;

pub struct Progress {
    what: &'static str,
    whole: usize,
    last: Option<Instant>,
    shown: bool,
}

impl Progress {
    pub fn new(what: &'static str, whole: usize) -> Progress {
        let last = std::io::stderr().is_terminal().then(Instant::now);
        Progress { what, whole, last, shown: false }
    }

    pub fn step(&mut self, done: usize) {
        if !done.is_multiple_of(STEPS) {
            return;
        }
        if let Some(last) = self.last.filter(|last| last.elapsed() >= EVERY) {
            self.last = Some(last + last.elapsed());
            self.shown = true;
            // A terminal that is gone needs no progress.
            let _ = write!(std::io::stderr(), "\r{done} of {} {} ", self.whole, self.what);
        }
    }
}

impl Drop for Progress {
    /// The line is wiped, so that what comes behind it stands alone.
    fn drop(&mut self) {
        if self.shown {
            let _ = write!(std::io::stderr(), "\r\x1b[K");
        }
    }
}
