//! Jobs with the most raw reads. All of them are kept, and for each every condition is looked at.

use super::{ballast, block, candidates, fill_with_candidates, full_registry, job, one_block};
use super::{reducible_chain, rising_chain};
use crate::job::{Job, Path, RawRead, limits};
use crate::reads::known_immutable;

/// The bytes of a raw read without entries, and of an entry.
const READ: usize = 34;
const ENTRY: usize = 14;

fn reading(paths: Vec<Path>) -> Vec<RawRead> {
    paths.into_iter().map(known_immutable).collect()
}

/// As many raw reads as a block can have, and as long as there is room for.
pub fn most_reads() -> Job {
    let length = (limits::JOB_BYTES / limits::READS - READ) / ENTRY;
    let mut job = one_block(vec![]);
    job.blocks[0].reads = reading(ballast(limits::READS, length));
    job
}

/// A job of the most bytes, most of them in raw reads of 16 entries.
pub fn longest_of_reads() -> Job {
    let mut whole = job(0, vec![block(0, vec![], vec![]), block(1, vec![0], vec![])], vec![]);
    let count = (limits::JOB_BYTES - whole.to_bytes().len()) / (READ + ENTRY * limits::ENTRIES);
    whole.blocks[0].reads = reading(ballast(count, limits::ENTRIES));
    fill_with_candidates(&mut whole);
    whole
}

/// As many raw reads and as many paths as a block can have.
fn most_reads_and_paths() -> Job {
    let mut job = one_block(ballast(limits::ASSUMED, 2));
    job.blocks[0].reads = reading(ballast(limits::READS, 2));
    job
}

/// 512 nodes of raw reads, with a reduction where the forward visit is deepest.
fn deepest() -> Job {
    let mut blocks = rising_chain(limits::BLOCKS);
    // An optional chain, its bases, and what reduction makes of them.
    let reduced = 2 * limits::ENTRIES + 1;
    blocks[limits::BLOCKS - 1].reads = reading(reducible_chain(1, limits::ENTRIES));
    blocks[0].reads = reading(full_registry(limits::NODES - reduced));
    job(0, blocks, candidates(limits::CANDIDATES, 0))
}

pub fn jobs() -> Vec<(&'static str, Job)> {
    vec![
        ("255 raw reads of 6 entries", most_reads()),
        ("255 raw reads and 255 paths of 2 entries", most_reads_and_paths()),
        ("32,768 bytes, most of them in raw reads of 16 entries", longest_of_reads()),
        ("rising chain, 512 nodes of raw reads, a reduction and 64 candidates", deepest()),
    ]
}
