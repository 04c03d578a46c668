//! The jobs that are timed, by class. They are those of the comparison's generator, in its order
//! and with its weights; a class only says which of them it takes, by what is in a job.

use crate::generate::{edges, generate};
use crate::job::{Block, Job, Path, limits};
use crate::reader::read_job;
use crate::worst;

/// Jobs of a class in the timing.
pub struct Class {
    pub name: &'static str,
    pub jobs: Vec<Vec<u8>>,
}

/// A class of accepted jobs: which ones it has, by the job and by its nodes at the end.
struct Kind {
    name: &'static str,
    has: fn(&Job, usize) -> bool,
}

const KINDS: &[Kind] = &[
    Kind { name: "1 to 12 blocks", has: |job, _| job.blocks.len() <= 12 },
    Kind { name: "13 to 48 blocks", has: |job, _| (13..=48).contains(&job.blocks.len()) },
    Kind { name: "49 to 128 blocks", has: |job, _| 49 <= job.blocks.len() },
    Kind { name: "dense graphs", has: |job, _| 8 * job.blocks.len() <= predecessors(job) },
    Kind { name: "many candidates", has: |job, _| 16 <= job.candidates.len() },
    Kind { name: "many optional chains", has: |job, _| 24 <= optional_chains(job) },
    Kind { name: "near 512 nodes", has: |_, nodes| 448 <= nodes },
];

/// The name of the class of refused jobs.
pub const REFUSED: &str = "refused";

fn predecessors(job: &Job) -> usize {
    job.blocks.iter().map(|block| block.predecessors.len()).sum()
}

/// How many assumed paths, those of raw reads included, have an optional entry.
fn optional_chains(job: &Job) -> usize {
    let is_chain = |path: &&Path| path.entries.iter().any(|entry| entry.optional);
    let paths = |block: &Block| {
        block.assumed.iter().chain(block.reads.iter().map(|read| &read.path)).filter(is_chain).count()
    };
    job.blocks.iter().map(paths).sum()
}

/// The classes, with `count` jobs of each: those of accepted jobs in order, and the refused ones
/// last. What is in several is timed in each. `nodes` says how many nodes a job has in the end, and
/// nothing of a refused one.
pub fn classes(seed: u64, count: usize, mut nodes: impl FnMut(&[u8]) -> Option<usize>) -> Vec<Class> {
    let mut classes: Vec<Class> = KINDS.iter().map(|kind| Class { name: kind.name, jobs: vec![] }).collect();
    let mut refused = Class { name: REFUSED, jobs: vec![] };
    for number in 0.. {
        let bytes = generate(seed, number, None).job;
        let (job, nodes) = match (read_job(&bytes, limits::OUT_BYTES), nodes(&bytes)) {
            (Ok(job), Some(nodes)) => (job, nodes),
            _ => {
                add(&mut refused, count, &bytes);
                continue;
            }
        };
        for (kind, class) in KINDS.iter().zip(&mut classes) {
            if (kind.has)(&job, nodes) {
                add(class, count, &bytes);
            }
        }
        if classes.iter().chain([&refused]).all(|class| class.jobs.len() == count) {
            break;
        }
    }
    classes.push(refused);
    classes
}

/// Adds a job where the class has fewer than `count`.
fn add(class: &mut Class, count: usize, job: &[u8]) {
    if class.jobs.len() < count {
        class.jobs.push(job.to_vec());
    }
}

/// Jobs for the timing of thin jobs alone: with many repeats, and with the most comparisons.
pub fn thin_classes(seed: u64, count: usize) -> Vec<Class> {
    let repeats = (0..count as u64).map(|number| generate(seed, number, Some("repeats")).job).collect();
    vec![
        Class { name: "many repeats", jobs: repeats },
        Class { name: "most comparisons", jobs: vec![worst::most_comparisons().to_bytes()] },
    ]
}

/// Further jobs for the plot, of the generator's classes and of all sizes.
pub fn spread(seed: u64, count: usize, mut accepted: impl FnMut(&[u8]) -> bool) -> Vec<Vec<u8>> {
    let sizes = (0..count / 8).map(|n| edges::of_size(200 + n * 32_000 * 8 / count, || n as u32));
    let generated = (0..).map(|n| generate(seed, n, None).job);
    sizes.chain(generated).filter(|job| accepted(job)).take(count).collect()
}

/// A job with its name.
type Named = (String, Job);

/// Jobs among which the slowest is looked for, each with its name.
pub fn slow_jobs() -> Vec<(String, Vec<u8>)> {
    let jobs = [worst::jobs(), ladders(), dense_graphs(), chains()].concat();
    jobs.into_iter().map(|(name, job)| (name, job.to_bytes())).collect()
}

/// How many optional chains, and of how many entries each, that nothing makes plain.
const BALLAST: [(usize, usize); 12] = [
    (480, 1),
    (400, 1),
    (340, 1),
    (340, 2),
    (300, 1),
    (300, 2),
    (260, 1),
    (240, 3),
    (220, 1),
    (120, 7),
    (56, 16),
    (48, 16),
];

/// Jobs of about 100 rounds, with and without blocks at which a path joins anew at each visit.
fn ladders() -> Vec<Named> {
    let mut jobs = Vec::new();
    for (steps, climbs) in [(61, 2), (50, 2), (33, 3)] {
        for (count, length) in BALLAST {
            for kinds in 0..=4 {
                let name = format!(
                    "ladder of {steps} steps climbed {climbs} times, {count} optional chains of {length} entries in all blocks, \
                     {kinds} of 4 kinds of blocks joined anew"
                );
                jobs.push((
                    name,
                    worst::joined_anew(worst::loaded_ladder(steps, climbs, count, length), steps, kinds),
                ));
            }
        }
    }
    jobs
}

/// Blocks with many predecessors, and paths in the middle one.
fn dense_graphs() -> Vec<Named> {
    let mut jobs = Vec::new();
    for (count, predecessors) in [(128, 32), (128, 48), (96, 60), (64, 63)] {
        for ring in [false, true] {
            for (kind, paths) in [
                ("512 nodes", worst::full_registry(limits::NODES)),
                ("60 optional chains of 8 entries", worst::ballast(60, 8)),
                ("30 optional chains of 16 entries", worst::ballast(30, 16)),
                ("a chain to reduce", worst::reducible_chain(1, limits::ENTRIES)),
            ] {
                let mut blocks = worst::dense(count, predecessors, ring);
                blocks[count / 2].assumed = paths;
                let ring = if ring { " in a ring" } else { "" };
                let name = format!("{count} blocks of {predecessors} predecessors{ring}, {kind}");
                jobs.push((name, Job { scope: 0, blocks, candidates: vec![] }));
            }
        }
    }
    jobs
}

/// Chains of 128 blocks in both orders, with paths in one block.
fn chains() -> Vec<Named> {
    let mut jobs = Vec::new();
    for (kind, paths) in [
        ("120 optional chains of 16 entries", worst::ballast(120, 16)),
        ("240 optional chains of 7 entries", worst::ballast(240, 7)),
        ("512 nodes", worst::full_registry(limits::NODES)),
    ] {
        for (order, chain) in
            [("rising", worst::rising_chain as fn(usize) -> Vec<Block>), ("falling", worst::falling_chain)]
        {
            for place in [0, 64, 127] {
                let mut blocks = chain(limits::BLOCKS);
                blocks[place].assumed = paths.clone();
                let name = format!("{order} chain of 128 blocks, {kind} in block {place}");
                jobs.push((name, Job { scope: 0, blocks, candidates: vec![] }));
            }
        }
    }
    jobs
}
