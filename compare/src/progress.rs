//! Progress of a long run, on standard error.

use std::io::{self, Write};
use std::time::{Duration, Instant};

pub struct Progress {
    what: &'static str,
    all: usize,
    last: Instant,
}

impl Progress {
    pub fn new(what: &'static str, all: usize) -> Self {
        Self { what, all, last: Instant::now() }
    }

    /// Says how far the run is, but not more often than every two seconds.
    pub fn show(&mut self, done: usize) {
        if self.last.elapsed() >= Duration::from_secs(2) {
            // Whether anyone reads it is no matter.
            let _ = writeln!(io::stderr(), "{}: {done} of {}", self.what, self.all);
            self.last = Instant::now();
        }
    }
}
