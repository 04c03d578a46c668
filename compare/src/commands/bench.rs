//! `bench`: the times of the library and of the Rust.

use super::failure::Failure;
use super::options::Options;
use super::output::say;
use compare::{library, oracle};

pub fn run(words: &[&str]) -> Result<(), Failure> {
    let options = Options::read("bench", &["--seed", "--repeat", "--plot"], words)?;
    if let Some(why) = oracle::absent().or(library::absent()) {
        return say!("bench: nothing was timed: {why}");
    }
    #[cfg(all(library, reference))]
    timing::run(&options)?;
    #[cfg(not(all(library, reference)))]
    drop(options);
    Ok(())
}

#[cfg(all(library, reference))]
mod timing {
    use crate::commands::failure::{Failure, failed};
    use crate::commands::options::{Options, SEED};
    use crate::commands::output::say;
    use compare::bench::beside::BesideTimer;
    use compare::bench::classes::{Class, classes, slow_jobs, spread, thin_classes};
    use compare::bench::{Timer, Times, geometric_mean, plot, time_library};
    use compare::job::limits;
    use compare::library::{Library, Stage};
    use compare::operation::Operation;
    use compare::oracle::Oracle;
    use compare::progress::Progress;
    use compare::propagation::Propagation;
    use std::fs;

    const REPEAT: usize = 15;
    const EACH: usize = 100;
    const SPREAD: usize = 300;

    /// The size of a job in bytes, and its times.
    type Timed = (usize, Times);

    pub fn run(options: &Options) -> Result<(), Failure> {
        let mut oracle = Oracle::open().map_err(failed)?;
        let seed = options.seed.unwrap_or(SEED);
        let repeat = options.repeat.unwrap_or(REPEAT);
        let mut classes = classes(seed, EACH, |job| nodes(&mut oracle, job));
        let refused = classes.pop().expect("the refused jobs are the last class");
        let mut timer = Timer::new(repeat);
        let mut all = Vec::new();
        head()?;
        for class in &classes {
            let timed = time_jobs(&mut timer, class.name, &class.jobs);
            row(class.name, &timed)?;
            all.extend(timed);
        }
        let (name, job, tried) = slowest(Operation::Answer)?;
        let timed = time_jobs(&mut timer, "slowest found", &[job]);
        row("slowest found", &timed)?;
        all.extend(timed);
        say!("the slowest of {tried} accepted jobs at the limits: {name}")?;
        refused_row(&refused, repeat)?;
        strict_rows(&classes, repeat)?;
        let for_thin: Vec<Class> = classes.into_iter().chain(thin_classes(seed, EACH)).collect();
        thin_rows(&for_thin, repeat)?;
        if let Some(file) = &options.plot {
            let spread = spread(seed, SPREAD, |job| nodes(&mut oracle, job).is_some());
            all.extend(time_jobs(&mut timer, "further jobs for the plot", &spread));
            fs::write(file, plot::svg(&all))
                .map_err(|why| failed(format!("{file} cannot be written: {why}")))?;
            say!("the plot of {} jobs is in {file}", all.len())?;
        }
        Ok(())
    }

    /// How many nodes a job has in the end, where it is accepted.
    fn nodes(oracle: &mut Oracle, job: &[u8]) -> Option<usize> {
        let both = oracle.both(Propagation::Existing, job, limits::OUT_BYTES);
        both.answer.ok().and(both.counts).map(|counts| counts.nodes)
    }

    fn head() -> Result<(), Failure> {
        say!(
            "{:<22} {:>9} {:>10} {:>10} {:>11} {:>10} {:>7} {:>7} {:>7}",
            "microseconds per job",
            "bytes",
            "library",
            "(reading)",
            "Rust stage",
            "Rust all",
            "stage",
            "least",
            "all"
        )
    }

    fn beside(operation: Operation, repeat: usize) -> Result<BesideTimer, Failure> {
        Ok(BesideTimer::new(Oracle::open().map_err(failed)?, operation, repeat))
    }

    /// Prints the times of strict answers beside those of answers. The Rust has no strict
    /// propagation: the harness's is beside.
    fn strict_rows(classes: &[Class], repeat: usize) -> Result<(), Failure> {
        let (name, job, tried) = slowest(Operation::StrictAnswer)?;
        let slowest = [Class { name: "slowest found", jobs: vec![job] }];
        let mut existing = beside(Operation::Answer, repeat)?;
        let mut strict = beside(Operation::StrictAnswer, repeat)?;
        say!(
            "{:<22} {:>9} {:>10} {:>10} {:>18}",
            "strict, microseconds",
            "bytes",
            "library",
            "(existing)",
            "harness's strict"
        )?;
        for Class { name, jobs } in classes.iter().chain(&slowest) {
            let (bytes, times) = (mean_bytes(jobs), strict.mean(jobs));
            let [library, existing, harness] =
                [times.library, existing.mean(jobs).library, times.harness].map(|time| time / 1000.0);
            say!("{name:<22} {bytes:>9} {library:>10.2} {existing:>10.2} {harness:>18.2}")?;
        }
        say!("the slowest of {tried} jobs at the limits that are accepted strictly: {name}")
    }

    /// Prints the times of thin jobs. The Rust makes none: the harness's writer is beside.
    fn thin_rows(classes: &[Class], repeat: usize) -> Result<(), Failure> {
        let mut timer = beside(Operation::Thin, repeat)?;
        say!("{:<22} {:>9} {:>10} {:>18}", "thin, microseconds", "bytes", "library", "harness's writer")?;
        for Class { name, jobs } in classes {
            let (bytes, times) = (mean_bytes(jobs), timer.mean(jobs));
            let [library, harness] = [times.library, times.harness].map(|time| time / 1000.0);
            say!("{name:<22} {bytes:>9} {library:>10.2} {harness:>18.2}")?;
        }
        Ok(())
    }

    fn mean_bytes(jobs: &[Vec<u8>]) -> usize {
        jobs.iter().map(Vec::len).sum::<usize>() / jobs.len()
    }

    fn time_jobs(timer: &mut Timer, what: &'static str, jobs: &[Vec<u8>]) -> Vec<Timed> {
        let mut progress = Progress::new(what, jobs.len());
        let time = |(done, job): (usize, &Vec<u8>)| {
            progress.show(done);
            (job.len(), timer.time(job))
        };
        jobs.iter().enumerate().map(time).collect()
    }

    /// Prints the times and ratios of a class, the geometric means over its jobs, and the least of
    /// the ratios "stage".
    fn row(name: &str, timed: &[Timed]) -> Result<(), Failure> {
        let bytes = timed.iter().map(|(bytes, _)| bytes).sum::<usize>() / timed.len();
        let mean = |of: fn(&Times) -> f64| geometric_mean(timed.iter().map(|(_, times)| of(times)));
        let [library, reading, stage, all] =
            [mean(|t| t.library), mean(|t| t.library_reading), mean(|t| t.rust_stage), mean(Times::rust)]
                .map(|time| time / 1000.0);
        let least = timed.iter().map(|(_, t)| t.rust_stage / t.library).fold(f64::INFINITY, f64::min);
        say!(
            "{name:<22} {bytes:>9} {library:>10.2} {reading:>10.2} {stage:>11.2} {all:>10.2} {:>7.1} {least:>7.1} {:>7.1}",
            stage / library,
            all / library
        )
    }

    /// Prints the times of refused jobs, most of which are decided while they are read.
    fn refused_row(class: &Class, repeat: usize) -> Result<(), Failure> {
        let times = beside(Operation::Answer, repeat)?.mean(&class.jobs);
        let [library, harness] = [times.library, times.harness].map(|time| time / 1000.0);
        say!("{:<22} {:>9} {:>10} {:>18}", "refused, microseconds", "bytes", "library", "harness and Rust")?;
        say!("{:<22} {:>9} {library:>10.2} {harness:>18.2}", class.name, mean_bytes(&class.jobs))
    }

    /// The job for which the library's operation takes longest, with its name, and how many were
    /// tried.
    fn slowest(operation: Operation) -> Result<(String, Vec<u8>, usize), Failure> {
        let mut library = Library::open().map_err(failed)?;
        let mut out = vec![0; operation.least_bytes()];
        let mut slowest = (0.0, String::new(), Vec::new());
        let mut tried = 0;
        for (name, job) in slow_jobs() {
            if library.call(operation, &job, &mut out) < 0 {
                continue;
            }
            tried += 1;
            let time = (0..3).map(|_| time_library(operation, &job, &mut out)).fold(f64::INFINITY, f64::min);
            if time > slowest.0 {
                slowest = (time, name, job);
            }
        }
        Ok((slowest.1, slowest.2, tried))
    }
}
