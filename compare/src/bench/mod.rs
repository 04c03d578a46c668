//! Times the library and the Rust on the same jobs, in one process.

pub mod beside;
pub mod classes;
pub mod plot;

use crate::arena::Allocator;
use crate::job::limits;
use crate::library::{Library, Stage};
use crate::operation::Operation;
use crate::propagation::Propagation;
use crate::reader::read_job;
use crate::reference;
use std::hint::black_box;
use std::time::{Duration, Instant};

/// Times of one job in nanoseconds, each the least of all repetitions.
#[derive(Debug, Clone, Copy)]
pub struct Times {
    /// The library's whole call, from the bytes of the job to those of the answer.
    pub library: f64,
    /// The library's reading of the job's records, before it looks at their ids.
    pub library_reading: f64,
    /// The Rust's registry, propagation and tree, and the freeing of what they made.
    pub rust_stage: f64,
    /// The harness's reading of the job, and its writing of the answer.
    pub rust_reading: f64,
    pub rust_writing: f64,
}

impl Times {
    const NONE: Self = Self {
        library: f64::INFINITY,
        library_reading: f64::INFINITY,
        rust_stage: f64::INFINITY,
        rust_reading: f64::INFINITY,
        rust_writing: f64::INFINITY,
    };

    pub fn rust(&self) -> f64 {
        self.rust_reading + self.rust_stage + self.rust_writing
    }

    fn least(&mut self, other: Self) {
        self.library = self.library.min(other.library);
        self.library_reading = self.library_reading.min(other.library_reading);
        self.rust_stage = self.rust_stage.min(other.rust_stage);
        self.rust_reading = self.rust_reading.min(other.rust_reading);
        self.rust_writing = self.rust_writing.min(other.rust_writing);
    }
}

/// Times jobs. Arena and buffers are kept from one job to the next.
pub struct Timer {
    alloc: Allocator,
    out: Vec<u8>,
    repeat: usize,
}

/// A job that takes long is repeated less often.
const MOST_TIME: Duration = Duration::from_millis(1500);

impl Timer {
    pub fn new(repeat: usize) -> Self {
        Self { alloc: Allocator::default(), out: vec![0; limits::OUT_BYTES], repeat }
    }

    /// The times of an accepted job.
    pub fn time(&mut self, job: &[u8]) -> Times {
        let unread = refused_at_the_end(job);
        let (mut least, started) = (Times::NONE, Instant::now());
        for done in 0..self.repeat.max(1) {
            if done > 1 && started.elapsed() > MOST_TIME {
                break;
            }
            least.least(self.time_once(job, &unread));
        }
        least
    }

    fn time_once(&mut self, job: &[u8], unread: &[u8]) -> Times {
        let (rust_stage, rust_reading, rust_writing) = self.time_rust(job);
        let library = time_library(Operation::Answer, job, &mut self.out);
        let library_reading = time_library(Operation::Answer, unread, &mut self.out);
        Times { library, library_reading, rust_stage, rust_reading, rust_writing }
    }

    fn time_rust(&mut self, bytes: &[u8]) -> (f64, f64, f64) {
        self.alloc.reset();
        self.out.clear();
        let start = Instant::now();
        let job = read_job(black_box(bytes), limits::OUT_BYTES).expect("the job is accepted");
        let read = Instant::now();
        // The harness's own change of types is not counted.
        let prepared = black_box(reference::prepare(&job, &self.alloc));
        let prepared_at = Instant::now();
        let propagated = reference::propagate(&prepared, Propagation::Existing, None, &self.alloc);
        let returned = reference::derive(prepared, &propagated, &self.alloc);
        let derived = Instant::now();
        reference::put_answer(&mut self.out, &returned, &propagated);
        let written = Instant::now();
        drop(propagated);
        let freed = Instant::now();
        black_box(&self.out);
        self.out.resize(limits::OUT_BYTES, 0);
        let stage = (derived - prepared_at) + (freed - written);
        (nanoseconds(stage), nanoseconds(read - start), nanoseconds(written - derived))
    }
}

/// The time of one call of the library.
pub fn time_library(operation: Operation, job: &[u8], out: &mut [u8]) -> f64 {
    let mut library = Library::open().expect("it is linked");
    let start = Instant::now();
    let _ = black_box(library.call(operation, black_box(job), out));
    nanoseconds(start.elapsed())
}

fn nanoseconds(time: Duration) -> f64 {
    time.as_nanos() as f64
}

/// The same job with a byte more, so that it is refused once it is read to its end. One that has no
/// room for it has a byte less, and is refused at its last field.
fn refused_at_the_end(job: &[u8]) -> Vec<u8> {
    let mut bytes = job.to_vec();
    if bytes.len() < limits::JOB_BYTES {
        bytes.push(0);
    } else {
        bytes.pop();
    }
    bytes
}

/// The number whose power by the count is the product.
pub fn geometric_mean(numbers: impl IntoIterator<Item = f64>) -> f64 {
    let logarithms: Vec<f64> = numbers.into_iter().map(f64::ln).collect();
    (logarithms.iter().sum::<f64>() / logarithms.len() as f64).exp()
}
