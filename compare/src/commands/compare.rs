//! `compare`: the stage's library against the Rust.

use super::failure::{Failure, failed};
use super::options::{Options, SEED};
use super::output::say;
use compare::comparison::Comparison;
use compare::comparison::run::{Generated, Mismatch, fixed_jobs, generated_jobs};
use compare::library::Library;
use compare::oracle::Oracle;
use std::fs;
use std::time::{Duration, Instant};

const KNOWN: [&str; 5] = ["--seed", "--count", "--seconds", "--class", "--first"];
const COUNT: usize = 20_000;

pub fn run(words: &[&str]) -> Result<(), Failure> {
    let options = Options::read("compare", &KNOWN, words)?;
    let asked = Generated {
        seed: options.seed.unwrap_or(SEED),
        first: options.first.unwrap_or(0),
        count: options.count.unwrap_or(if options.seconds.is_some() { usize::MAX } else { COUNT }),
        time: options.seconds.map(Duration::from_secs),
        class: options.class.as_deref(),
    };
    match (Oracle::open(), Library::open()) {
        (Ok(oracle), Ok(library)) => compare_all(oracle, library, &asked),
        (Err(why), _) | (_, Err(why)) => {
            say!("library: the comparison with the Rust did not run: {why}")
        }
    }
}

fn compare_all(oracle: Oracle, mut library: Library, asked: &Generated) -> Result<(), Failure> {
    let mut comparison = Comparison::new(oracle, &mut library);
    let fixed = fixed_jobs(&mut comparison).map_err(kept)?;
    say!("library: {fixed} fixed jobs agree with the Rust")?;
    let started = Instant::now();
    let tally = generated_jobs(&mut comparison, asked).map_err(kept)?;
    let (jobs, seed, seconds) = (tally.jobs, asked.seed, started.elapsed().as_secs_f64());
    say!("library: {jobs} generated jobs of seed {seed} agree with the Rust, in {seconds:.1} s")?;
    say!("{}", tally.text())
}

/// Keeps the job of a mismatch in a file.
fn kept(mismatch: Mismatch) -> Failure {
    let Mismatch { what, file, job } = mismatch;
    let kept = match fs::write(&file, job) {
        Ok(()) => format!("the job is in {file}"),
        Err(why) => format!("the job could not be written to {file}: {why}"),
    };
    failed(format!("the library and the Rust differ: {what}; {kept}"))
}
