//! `generate`: a list of jobs with what the Rust says of them, or one job alone.

use super::failure::{Failure, failed, misused, unwritten};
use super::options::{Options, SEED};
use super::{open, output};
use compare::generate::generate;
use compare::list::Record;
use compare::oracle::Oracle;
use compare::progress::Progress;
use compare::store;
use std::fs::{self, File};
use std::io::{self, BufWriter, Write};

const KNOWN: [&str; 7] = ["--seed", "--count", "--first", "--class", "--max-bytes", "--job", "--out"];
const COUNT: usize = 100;

/// Jobs longer than asked for are passed over, but not without end.
const MOST_PASSED_OVER: u64 = 5_000;

pub fn run(words: &[&str]) -> Result<(), Failure> {
    let options = Options::read("generate", &KNOWN, words)?;
    match options.job {
        Some(number) => one_job(&options, number),
        None => list(&options),
    }
}

/// Writes the bytes of one job, which takes no Rust.
fn one_job(options: &Options, number: u64) -> Result<(), Failure> {
    if options.count.is_some() || options.first.is_some() || options.max_bytes.is_some() {
        return Err(misused("`--job` is for one job, so --count, --first and --max-bytes do not go with it"));
    }
    let job = generate(options.seed.unwrap_or(SEED), number, options.class.as_deref()).job;
    match &options.out {
        Some(file) => fs::write(file, job).map_err(|why| unwritable(file, why)),
        None => output::bytes(&job),
    }
}

fn list(options: &Options) -> Result<(), Failure> {
    let mut oracle = open("the generator's comparison with the Rust")?;
    match &options.out {
        Some(file) => {
            let named = |why| unwritable(file, why);
            let out = BufWriter::new(File::create(file).map_err(named)?);
            write_list(options, &mut oracle, out, named)
        }
        None => write_list(options, &mut oracle, BufWriter::new(io::stdout().lock()), unwritten),
    }
}

fn unwritable(file: &str, why: io::Error) -> Failure {
    failed(format!("{file} cannot be written: {why}"))
}

fn write_list(
    options: &Options,
    oracle: &mut Oracle,
    mut out: impl Write,
    named: impl Fn(io::Error) -> Failure,
) -> Result<(), Failure> {
    generate_records(options, oracle, |record| record.write(&mut out).map_err(&named))?;
    out.flush().map_err(&named)
}

fn generate_records(
    options: &Options,
    oracle: &mut Oracle,
    mut write: impl FnMut(&Record) -> Result<(), Failure>,
) -> Result<(), Failure> {
    let (seed, count) = (options.seed.unwrap_or(SEED), options.count.unwrap_or(COUNT));
    let mut progress = Progress::new("jobs generated", count);
    let (mut done, mut passed_over) = (0, 0);
    for tried in options.first.unwrap_or(0).. {
        if done == count {
            break;
        }
        let generated = generate(seed, tried, options.class.as_deref());
        if options.max_bytes.is_some_and(|most| generated.job.len() > most) {
            passed_over += 1;
            if passed_over == MOST_PASSED_OVER {
                return Err(failed(format!("{passed_over} jobs in a row are longer than --max-bytes")));
            }
            continue;
        }
        passed_over = 0;
        write(&store::record(&generated, &oracle.all(&generated.job, generated.out_len)))?;
        done += 1;
        progress.show(done);
    }
    Ok(())
}
