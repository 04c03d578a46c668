//! `check` and `store`: the stored list.

use super::failure::{Failure, failed};
use super::output::say;
use super::{open, repository};
use compare::list::{Record, read_list};
use compare::oracle::Oracle;
use compare::{check, store};
use std::fs;

const JOBS: &str = "compare/stored/jobs.bin";
const INDEX: &str = "compare/stored/index.txt";
/// The same list as program `replay`'s input.
const INPUT: &str = "crates/replay/stdin";

/// The records of the stored list, of which there is at least one.
pub fn records() -> Result<Vec<Record>, Failure> {
    let bytes = fs::read(repository(JOBS)).map_err(|why| failed(format!("{JOBS} cannot be read: {why}")))?;
    let records = read_list(&bytes).map_err(|why| failed(format!("{JOBS}: {why}")))?;
    if records.is_empty() { Err(failed(format!("{JOBS} holds no record"))) } else { Ok(records) }
}

pub fn check() -> Result<(), Failure> {
    let records = records()?;
    let count = records.len();
    let named = |why: String| failed(format!("{JOBS}: {why}"));
    check::without_rust(&records).map_err(named)?;
    match Oracle::open() {
        Ok(mut oracle) => {
            check::with_rust(&records, &mut oracle).map_err(named)?;
            say!("stored jobs: {count} agree with the Rust")
        }
        Err(why) => {
            say!("stored jobs: the comparison with the Rust did not run: {why}")?;
            say!("stored jobs: {count} well formed, with the reader's refusals and the harness's thin jobs")
        }
    }
}

pub fn store() -> Result<(), Failure> {
    let mut oracle = open("the making of the stored list")?;
    let chosen = store::choose(&mut oracle);
    let (mut jobs, mut index) = (Vec::new(), String::new());
    for (number, job) in chosen.iter().enumerate() {
        job.record.write(&mut jobs).expect("a vector takes all bytes");
        index += &store::index_line(number, job);
    }
    fs::write(repository(JOBS), &jobs)
        .and_then(|()| fs::write(repository(INDEX), index))
        .map_err(|why| failed(format!("compare/stored cannot be written: {why}")))?;
    fs::write(repository(INPUT), &jobs).map_err(|why| failed(format!("{INPUT} cannot be written: {why}")))?;
    say!("stored jobs: {} in {} bytes", chosen.len(), jobs.len())
}
