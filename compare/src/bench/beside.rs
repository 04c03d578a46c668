//! Times operations that the Rust has not: the harness's own stands beside the library.

use super::{MOST_TIME, geometric_mean, nanoseconds, time_library};
use crate::operation::Operation;
use crate::oracle::Oracle;
use std::hint::black_box;
use std::time::Instant;

/// Times of one job in nanoseconds, each the least of all repetitions.
#[derive(Debug, Clone, Copy)]
pub struct BesideTimes {
    /// The library's whole call.
    pub library: f64,
    /// The harness's reading of the job, its change into the Rust's types, what it does with the
    /// Rust's items, and its writing.
    pub harness: f64,
}

/// Times an operation. Arena and buffer are kept from one job to the next.
pub struct BesideTimer {
    oracle: Oracle,
    operation: Operation,
    out: Vec<u8>,
    repeat: usize,
}

impl BesideTimer {
    pub fn new(oracle: Oracle, operation: Operation, repeat: usize) -> Self {
        Self { oracle, operation, out: vec![0; operation.least_bytes()], repeat }
    }

    /// The geometric mean over the jobs.
    pub fn mean(&mut self, jobs: &[Vec<u8>]) -> BesideTimes {
        let all: Vec<BesideTimes> = jobs.iter().map(|job| self.time(job)).collect();
        let mean = |of: fn(&BesideTimes) -> f64| geometric_mean(all.iter().map(of));
        BesideTimes { library: mean(|times| times.library), harness: mean(|times| times.harness) }
    }

    fn time(&mut self, job: &[u8]) -> BesideTimes {
        let mut least = BesideTimes { library: f64::INFINITY, harness: f64::INFINITY };
        let started = Instant::now();
        for done in 0..self.repeat.max(1) {
            if done > 1 && started.elapsed() > MOST_TIME {
                break;
            }
            least.harness = least.harness.min(self.time_harness(job));
            least.library = least.library.min(time_library(self.operation, job, &mut self.out));
        }
        least
    }

    fn time_harness(&mut self, job: &[u8]) -> f64 {
        let start = Instant::now();
        let _ = black_box(self.oracle.say(self.operation, black_box(job), self.out.len()));
        nanoseconds(start.elapsed())
    }
}
