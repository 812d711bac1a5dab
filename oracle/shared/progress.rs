//! Says on a terminal how far a run is, every three seconds; elsewhere, as in the gate, nothing.

use std::io::{IsTerminal, stderr};
use std::time::Instant;

pub struct Progress {
    name: &'static str,
    last: Instant,
    watched: bool,
}

impl Progress {
    pub fn new(name: &'static str) -> Progress {
        Progress { name, last: Instant::now(), watched: stderr().is_terminal() }
    }

    pub fn say(&mut self, done: u64, of: u64, what: &str) {
        if self.watched && self.last.elapsed().as_secs() >= 3 {
            eprintln!("{}: {done} of {of} {what}", self.name);
            self.last = Instant::now();
        }
    }
}
