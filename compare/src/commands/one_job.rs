//! One job: `answer` and `sheet` by the Rust, and by the harness `thin`, `strict_answer` and
//! `strict_sheet`.

use super::failure::{Failure, failed};
use super::{open, output};
use compare::job::limits;
use compare::operation::Operation;
use compare::oracle::{absent, program_bytes};
use compare::thin;
use std::io::{self, Read};

pub fn run(operation: Operation) -> Result<(), Failure> {
    let out_len = operation.least_bytes();
    let said = if operation == Operation::Thin && absent().is_some() {
        // Without the Rust, paths are compared by the harness itself.
        thin::thin(&read()?, out_len)
    } else {
        open("the Rust")?.say(operation, &read()?, out_len)
    };
    output::bytes(&program_bytes(&said))
}

/// The job on standard input.
pub fn read() -> Result<Vec<u8>, Failure> {
    let mut job = Vec::new();
    // One byte beyond the limit is enough to see that a job is too long.
    let limit = limits::JOB_BYTES as u64 + 1;
    let read = io::stdin().lock().take(limit).read_to_end(&mut job);
    read.map_err(|why| failed(format!("standard input cannot be read: {why}")))?;
    Ok(job)
}
