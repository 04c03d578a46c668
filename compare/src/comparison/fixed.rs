//! The limits of the specification, one job at each and one beyond.

mod nodes;
mod read_fields;
mod reads;

use crate::examples::examples;
use crate::generate::{edges, ladder};
use crate::job::{Block, Job, Path, RawRead, limits};
use crate::reads::{known_immutable, mutable};
use crate::worst::{self, block, candidates, falling_chain, full_registry, path, reducible_chain};

/// A job, the length of its out buffer, and what it is for.
pub struct Fixed {
    pub name: String,
    pub out_len: usize,
    pub job: Vec<u8>,
}

/// All jobs of the list.
pub fn list() -> Vec<Fixed> {
    let mut jobs = Vec::new();
    named(&mut jobs);
    counts(&mut jobs);
    nodes::entered_or_made(&mut jobs);
    nodes::made_late(&mut jobs);
    reads::edges(&mut jobs);
    reads::counts(&mut jobs);
    reads::nodes(&mut jobs);
    read_fields::refusals(&mut jobs);
    rounds(&mut jobs);
    sizes(&mut jobs);
    out_lengths(&mut jobs);
    ids(&mut jobs);
    faults(&mut jobs);
    jobs.extend(worst::jobs().into_iter().map(|(name, job)| fixed(name, job.to_bytes())));
    jobs
}

fn named(jobs: &mut Vec<Fixed>) {
    jobs.extend(examples().into_iter().map(|example| {
        let (name, out_len) = (format!("example {}", example.name), example.out_len);
        Fixed { name, out_len, job: example.job.to_bytes() }
    }));
}

fn fixed(name: impl Into<String>, job: Vec<u8>) -> Fixed {
    Fixed { name: name.into(), out_len: limits::THIN_BYTES, job }
}

fn one_block(assumed: Vec<Path>, candidates: Vec<Path>) -> Job {
    Job { scope: 5, blocks: vec![block(5, vec![], assumed)], candidates }
}

/// A job with a record of each kind, a join, a reduction and a cut.
fn good() -> Job {
    let read = |range_start| RawRead { range_start, range_end: u32::MAX, ..mutable(path(3, 30, 1, true)) };
    let mut blocks = vec![
        block(3, vec![], vec![path(1, 10, 0, false)]),
        block(1, vec![3], vec![path(1, 10, 2, true)]),
        block(2, vec![3, 1], vec![path(2, 20, 1, false)]),
    ];
    // One byte away from a range start that 10 refuses, and one that is not kept.
    blocks[1].reads = vec![read(limits::RANGE_START), read(7), known_immutable(path(3, 30, 2, true))];
    Job { scope: 2, blocks, candidates: vec![path(1, 10, 3, false), path(2, 20, 2, true)] }
}

/// Blocks, candidates, entries, predecessors and assumed paths.
fn counts(jobs: &mut Vec<Fixed>) {
    for count in [1, 2, 127, 128, 129, 130, 256, 65_535] {
        let job = Job { scope: 0, blocks: falling_chain(count), candidates: vec![] };
        jobs.push(fixed(format!("{count} blocks"), job.to_bytes()));
    }
    jobs.push(fixed("0 blocks", Job { scope: 0, blocks: vec![], candidates: vec![] }.to_bytes()));
    for count in [0, 1, 63, 64, 65, 256] {
        for shared in [0, 1, limits::ENTRIES - 1, limits::ENTRIES] {
            let job = one_block(vec![path(1, 10, 0, false)], candidates(count, shared));
            jobs.push(fixed(format!("{count} candidates that share {shared} names"), job.to_bytes()));
        }
    }
    for count in [0, 1, 15, 16, 17, 18, 255] {
        for optional in [false, true] {
            let long = || vec![path(1, 10, count, optional)];
            jobs.push(fixed(format!("{count} entries assumed"), one_block(long(), vec![]).to_bytes()));
            jobs.push(fixed(format!("{count} entries of a candidate"), one_block(vec![], long()).to_bytes()));
            jobs.push(fixed(format!("{count} entries of both"), one_block(long(), long()).to_bytes()));
        }
    }
    for count in [0, 1, 63, 64, 65, 66, 127, 255] {
        let last = count as u32;
        let first = (0..last).map(|id| block(id, vec![], vec![path(1, 10, 1, false)]));
        let blocks: Vec<Block> = first.chain([block(last, (0..last).collect(), vec![])]).collect();
        let job = Job { scope: last, blocks, candidates: vec![path(1, 10, 2, false)] };
        jobs.push(fixed(format!("{count} predecessors"), job.to_bytes()));
    }
    for count in [0, 1, 254, 255] {
        let assumed = (0..count).map(|n| path(n, 10, 2, false)).collect();
        jobs.push(fixed(format!("{count} assumed paths"), one_block(assumed, vec![]).to_bytes()));
        let equal = vec![path(1, 10, 2, false); count as usize];
        jobs.push(fixed(format!("{count} equal assumed paths"), one_block(equal, vec![]).to_bytes()));
    }
}

/// Ladders that end near round 100, settled or not.
fn rounds(jobs: &mut Vec<Fixed>) {
    for climbs in 1..=limits::ENTRIES / 2 + 1 {
        for goal in limits::ROUNDS - 4..=limits::ROUNDS + 4 {
            let steps = (goal / climbs).clamp(1, (limits::BLOCKS - 5) / 2);
            let job = ladder::of(1, steps, climbs);
            jobs.push(fixed(format!("ladder of {steps} steps climbed {climbs} times"), job.to_bytes()));
        }
    }
}

fn sizes(jobs: &mut Vec<Fixed>) {
    jobs.push(fixed("empty job", vec![]));
    for size in [32_766, 32_767, 32_768, 32_769, 32_770, 65_536] {
        jobs.push(fixed(format!("job of {size} bytes"), edges::of_size(size, || 1)));
        let mut last = 0;
        let differing = edges::of_size(size, || {
            last += 1;
            last
        });
        jobs.push(fixed(format!("job of {size} bytes without a repeat, of many nodes"), differing));
        jobs.push(fixed(format!("{size} bytes of zero"), vec![0; size]));
        let mut left_over = good().to_bytes();
        left_over.resize(size, 0);
        jobs.push(fixed(format!("good job with bytes up to {size}"), left_over));
    }
    for (name, job) in
        [("good job", good()), ("reduction", one_block(reducible_chain(1, 3), candidates(2, 1)))]
    {
        let bytes = job.to_bytes();
        for length in 0..=bytes.len() {
            jobs.push(fixed(format!("the first {length} bytes of a {name}"), bytes[..length].to_vec()));
        }
        for extra in [0, 1, b'C', b'H', 255] {
            let job = [&bytes[..], &[extra]].concat();
            jobs.push(fixed(format!("byte {extra} after a {name}"), job));
        }
    }
}

/// Refusal 1 comes before all others, and a longer buffer changes nothing.
fn out_lengths(jobs: &mut Vec<Fixed>) {
    let kinds = [
        ("a good job", good().to_bytes()),
        ("an empty job", vec![]),
        ("a job with a wrong mark", b"XX".to_vec()),
        ("a job that is too long", vec![0; limits::JOB_BYTES + 1]),
        ("513 nodes", one_block(full_registry(513), vec![]).to_bytes()),
        ("512 nodes", one_block(full_registry(512), vec![]).to_bytes()),
        ("a job with repeats", one_block(vec![path(1, 10, 2, false); 3], candidates(2, 16)).to_bytes()),
        ("32,768 bytes without a repeat", worst::longest_without_repeats().to_bytes()),
        ("32,768 bytes of raw reads", worst::longest_of_reads().to_bytes()),
    ];
    let around_the_least = [24_574, 24_575, 24_576, 24_577, 32_766, 32_767, 32_768, 32_769];
    for out_len in [0, 1, 6, 80].into_iter().chain(around_the_least).chain([65_536, 1 << 20]) {
        for (what, job) in &kinds {
            let name = format!("{what}, out buffer of {out_len} bytes");
            jobs.push(Fixed { name, out_len, job: job.clone() });
        }
    }
}

/// What is wrong with a job, and what makes it so.
type Fault = (&'static str, fn(&mut Job));

/// Ids that stand twice or are unknown, in all orders with each other.
fn ids(jobs: &mut Vec<Fixed>) {
    let faults: [Fault; 6] = [
        ("a block twice", |job| job.blocks.push(block(1, vec![], vec![]))),
        ("a predecessor twice", |job| job.blocks[2].predecessors = vec![3, 1, 3]),
        ("an unknown predecessor", |job| job.blocks[1].predecessors.push(99)),
        ("an unknown predecessor twice", |job| job.blocks[0].predecessors = vec![98, 98]),
        ("an unknown scope block", |job| job.scope = 77),
        ("a block after itself", |job| job.blocks[0].predecessors.push(3)),
    ];
    for (name, fault) in faults {
        for (other_name, other) in faults {
            let mut job = good();
            fault(&mut job);
            other(&mut job);
            jobs.push(fixed(format!("{name} and {other_name}"), job.to_bytes()));
        }
    }
    for id in [0, 1, u32::MAX - 1, u32::MAX] {
        let job = Job {
            scope: id,
            blocks: vec![block(id, vec![id], vec![path(id, 0, 1, true)])],
            candidates: vec![],
        };
        jobs.push(fixed(format!("block and identifier {id}"), job.to_bytes()));
    }
}

/// A good job with each of its bytes changed.
fn faults(jobs: &mut Vec<Fixed>) {
    let bytes = good().to_bytes();
    for place in 0..bytes.len() {
        for value in [0, 1, 2, 3, 17, 65, 129, 255, bytes[place] ^ 0x80] {
            let mut job = bytes.clone();
            job[place] = value;
            jobs.push(fixed(format!("byte {place} of a good job set to {value}"), job));
        }
    }
}
