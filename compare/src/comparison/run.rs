//! Runs of a comparison: over the fixed list, and over generated jobs.

use super::fixed;
use super::nodes::NodesTally;
use super::{Comparison, Propagations, Seen};
use crate::generate::generate;
use std::collections::BTreeMap;
use std::io::{self, Write};
use std::time::{Duration, Instant};

/// A job on which the two differ, and a name for a file to keep it in.
#[derive(Debug)]
pub struct Mismatch {
    pub what: String,
    pub file: String,
    pub job: Vec<u8>,
}

/// Compares all jobs of the fixed list, and gives their number.
pub fn fixed_jobs(comparison: &mut Comparison) -> Result<usize, Mismatch> {
    let list = fixed::list();
    for (number, fixed) in list.iter().enumerate() {
        comparison.compare(&fixed.job, fixed.out_len).map_err(|why| Mismatch {
            what: format!("fixed job {number}, {}, out buffer of {} bytes: {why}", fixed.name, fixed.out_len),
            file: format!("mismatch-fixed-{number}.job"),
            job: fixed.job.clone(),
        })?;
    }
    Ok(list.len())
}

/// Which generated jobs are compared.
pub struct Generated<'o> {
    pub seed: u64,
    /// The number of the first job.
    pub first: u64,
    pub count: usize,
    pub time: Option<Duration>,
    pub class: Option<&'o str>,
}

/// Classes whose jobs take long. Where no class is asked for, only those whose number
/// is divisible by `KEPT` are compared.
const LONG: [&str; 6] =
    ["many-blocks", "ladder", "nodes-entered", "nodes-reduced", "nodes-late", "nodes-looped"];
const KEPT: u64 = 4;

/// Compares generated jobs and says now and then how far it is.
pub fn generated_jobs(comparison: &mut Comparison, asked: &Generated) -> Result<Tally, Mismatch> {
    let (started, mut shown) = (Instant::now(), Instant::now());
    let mut tally = Tally::default();
    for number in asked.first.. {
        let past_end = asked.time.is_some_and(|time| started.elapsed() >= time);
        if tally.jobs == asked.count || past_end {
            break;
        }
        let generated = generate(asked.seed, number, asked.class);
        if asked.class.is_none() && LONG.contains(&generated.class) && !number.is_multiple_of(KEPT) {
            continue;
        }
        match comparison.compare(&generated.job, generated.out_len) {
            Ok(seen) => tally.count(generated.class, &seen),
            Err(why) => return Err(generated_mismatch(asked, number, generated, &why)),
        }
        if shown.elapsed() >= Duration::from_secs(2) {
            shown = Instant::now();
            // Whether anyone reads it is no matter.
            let _ =
                writeln!(io::stderr(), "jobs compared: {} in {} s", tally.jobs, started.elapsed().as_secs());
        }
    }
    Ok(tally)
}

fn generated_mismatch(
    asked: &Generated,
    number: u64,
    generated: crate::generate::Generated,
    why: &str,
) -> Mismatch {
    let seed = asked.seed;
    let class = asked.class.map_or(String::new(), |class| format!(" --class {class}"));
    let again = format!("--seed {seed}{class} --first {number} --count 1");
    let (kind, out_len) = (generated.class, generated.out_len);
    Mismatch {
        what: format!("seed {seed}, job {number} ({kind}, out buffer of {out_len} bytes; {again}): {why}"),
        file: format!("mismatch-seed-{seed}-job-{number}.job"),
        job: generated.job,
    }
}

/// How many jobs of each class were compared, and how many of each refusal.
#[derive(Default)]
pub struct Tally {
    pub jobs: usize,
    classes: BTreeMap<&'static str, usize>,
    /// 0 stands for an accepted job.
    refusals: BTreeMap<u8, usize>,
    /// Jobs with repeats: those that are accepted, and those that 9 refuses.
    pub repeats: [usize; 2],
    pub propagations: PropagationTally,
    pub nodes: NodesTally,
    pub reads: ReadsTally,
}

impl Tally {
    fn count(&mut self, class: &'static str, seen: &Seen) {
        self.jobs += 1;
        *self.classes.entry(class).or_default() += 1;
        *self.refusals.entry(seen.refusal.unwrap_or(0)).or_default() += 1;
        self.repeats[usize::from(seen.refusal.is_some())] += usize::from(seen.has_repeats);
        seen.propagations.iter().for_each(|propagations| self.propagations.count(propagations));
        seen.nodes.iter().for_each(|nodes| self.nodes.count(nodes));
        self.reads.count(seen.reads);
    }

    pub fn text(&self) -> String {
        let classes: Vec<String> = self.classes.iter().map(|(class, n)| format!("{class} {n}")).collect();
        let refusals = self.refusals.iter().map(|(number, n)| match number {
            0 => format!("accepted {n}"),
            number => format!("refused by {number}: {n}"),
        });
        let [accepted, refused] = self.repeats;
        let thin = format!("thin jobs with fewer paths: accepted {accepted}, refused by 9: {refused}");
        let (classes, refusals) = (classes.join(", "), refusals.collect::<Vec<_>>().join(", "));
        let (reads, propagations) = (self.reads.text(), self.propagations.text());
        format!("{classes}\n{refusals}\n{thin}\n{reads}\n{propagations}\n{}", self.nodes.text())
    }
}

/// Raw reads, over the jobs that the reader accepts.
#[derive(Debug, Default)]
pub struct ReadsTally {
    /// Jobs with some, and those of them in which some are kept and some are not.
    pub jobs: usize,
    pub mixed: usize,
    pub kept: usize,
    pub dropped: usize,
}

impl ReadsTally {
    fn count(&mut self, [kept, dropped]: [usize; 2]) {
        self.jobs += usize::from(kept + dropped > 0);
        self.mixed += usize::from(kept > 0 && dropped > 0);
        self.kept += kept;
        self.dropped += dropped;
    }

    fn text(&self) -> String {
        let Self { jobs, mixed, kept, dropped } = self;
        format!("raw reads in {jobs} jobs: {kept} kept, {dropped} dropped; both in {mixed} jobs")
    }
}

/// How often the two propagations differ, over the jobs that the reader accepts.
#[derive(Debug, Default)]
pub struct PropagationTally {
    pub without_loops: usize,
    pub with_loops: usize,
    /// Jobs, all with loops, of which answer or sheet differ.
    pub differing: usize,
    /// Those of them that 9 refuses under the existing propagation alone, and under the strict one
    /// alone.
    pub refused_by_one: [usize; 2],
}

impl PropagationTally {
    fn count(&mut self, seen: &Propagations) {
        let loops = if seen.has_loop { &mut self.with_loops } else { &mut self.without_loops };
        *loops += 1;
        self.differing += usize::from(seen.differ);
        let [existing, strict] = seen.refused;
        self.refused_by_one[0] += usize::from(existing && !strict);
        self.refused_by_one[1] += usize::from(strict && !existing);
    }

    fn text(&self) -> String {
        let Self { without_loops, with_loops, differing, refused_by_one: [existing, strict] } = self;
        format!(
            "strict propagation: as the existing one on {without_loops} jobs without loops; of {with_loops} \
             with loops {differing} differ, of which 9 refuses {existing} under the existing one alone and \
             {strict} under the strict one alone"
        )
    }
}
