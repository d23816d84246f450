//! How far a long run is, on standard error.
use std::time::{Duration, Instant};

/// Nothing is said before this.
const QUIET: Duration = Duration::from_secs(2);
/// From one line to the next.
const PAUSE: Duration = Duration::from_secs(1);

pub struct Progress {
    command: &'static str,
    things: &'static str,
    all: u64,
    done: u64,
    start: Instant,
    next: Duration,
}

impl Progress {
    pub fn new(command: &'static str, things: &'static str, all: u64) -> Progress {
        Progress { command, things, all, done: 0, start: Instant::now(), next: QUIET }
    }

    /// So many more are done.
    pub fn made(&mut self, more: u64) {
        self.done += more;
        if self.start.elapsed() >= self.next && self.done < self.all {
            self.next = self.start.elapsed() + PAUSE;
            eprintln!("gerg: {}: {} of {} {}", self.command, self.done, self.all, self.things);
        }
    }
}
