//! Jobs at, and one beyond, each limit of the specification.

use super::words::Words;
use super::{reads, shapes};
use crate::job::{Block, Entry, Job, Path, Property, RawRead, limits};
use crate::prng::Prng;
use crate::worst;

fn block(id: u32) -> Block {
    worst::block(id, vec![], vec![])
}

fn path(length: usize) -> Path {
    let entry = |n| Entry { optional: n % 3 == 0, property: Property::Name(n as u64), span: 1 };
    Path { identifier: 1, reactive: false, span: 2, entries: (0..length).map(entry).collect() }
}

pub fn limits(prng: &mut Prng) -> Vec<u8> {
    let job = shapes::without_loops(prng);
    let mut job = reads::sometimes(prng, job);
    let over = prng.below(2);
    match prng.below(12) {
        0 => job.blocks.clear(),
        1 => job = blocks_in_number(limits::BLOCKS + over),
        2 => job.candidates = candidates_in_number(prng, limits::CANDIDATES + over),
        3 => job.candidates.clear(),
        4 => job.candidates.insert(0, path(limits::ENTRIES + over)),
        5 => job.blocks[0].assumed.push(path(limits::ENTRIES + over)),
        6 => job = predecessors_in_number(limits::PREDECESSORS + over),
        7 => job.blocks[0].assumed = Words::few(prng).paths_in_number(prng, 255),
        8 => job.blocks[0].reads.push(reads::near_edges(prng, path(limits::ENTRIES + over))),
        9 => job.blocks[0].reads = reads_in_number(prng, limits::READS),
        10 => job.blocks[0].reads = start_at_limit(prng, over),
        _ => return edge_bytes(prng, job),
    }
    job.to_bytes()
}

/// No job at all, a byte too many, or a field at the end of its range.
fn edge_bytes(prng: &mut Prng, job: Job) -> Vec<u8> {
    let mut bytes = job.to_bytes();
    match prng.below(4) {
        0 => bytes.clear(),
        1 => bytes.push(prng.below(256) as u8),
        2 => bytes[3] = 1,
        _ => bytes[5] = 1,
    }
    bytes
}

fn blocks_in_number(count: usize) -> Job {
    let mut blocks: Vec<Block> = (0..count as u32).map(block).collect();
    for block in &mut blocks[1..] {
        block.predecessors = vec![block.id - 1];
    }
    blocks[count / 2].assumed = vec![path(2)];
    Job { scope: 0, blocks, candidates: vec![path(3)] }
}

fn candidates_in_number(prng: &mut Prng, count: usize) -> Vec<Path> {
    Words::few(prng).paths_in_number(prng, count)
}

fn reads_in_number(prng: &mut Prng, count: usize) -> Vec<RawRead> {
    let paths = Words::few(prng).paths_in_number(prng, count);
    paths.into_iter().map(|path| reads::near_edges(prng, path)).collect()
}

/// The largest range start that is accepted, or the one that 10 refuses.
fn start_at_limit(prng: &mut Prng, over: usize) -> Vec<RawRead> {
    let range_start = limits::RANGE_START + over as u32;
    vec![RawRead { range_start, ..reads::near_edges(prng, path(1)) }]
}

fn predecessors_in_number(count: usize) -> Job {
    let mut blocks: Vec<Block> = (0..=count as u32).map(block).collect();
    blocks[count].predecessors = (0..count as u32).collect();
    blocks[..count].iter_mut().for_each(|block| block.assumed = vec![path(1)]);
    Job { scope: count as u32, blocks, candidates: vec![path(2)] }
}

impl Words {
    fn paths_in_number(&self, prng: &mut Prng, count: usize) -> Vec<Path> {
        let mut paths: Vec<Path> = Vec::new();
        for _ in 0..count {
            let mut path = self.path_near(prng, &paths);
            path.entries.truncate(4);
            paths.push(path);
        }
        paths
    }
}

/// A job of exactly 32,768 bytes, or of a byte more or less.
pub fn job_size(prng: &mut Prng) -> Vec<u8> {
    let goal =
        prng.pick(&[limits::JOB_BYTES - 1, limits::JOB_BYTES, limits::JOB_BYTES, limits::JOB_BYTES + 1]);
    of_size(goal, || prng.below(3) as u32)
}

/// A job of exactly `goal` bytes, with one block or two: all records but BL have an even number of
/// bytes. The paths are those of the first block.
pub fn of_size(goal: usize, mut identifier: impl FnMut() -> u32) -> Vec<u8> {
    let blocks: Vec<Block> = if goal.is_multiple_of(2) { vec![block(1), block(2)] } else { vec![block(1)] };
    let mut job = Job { scope: 1, blocks, candidates: vec![] };
    let mut left = goal - job.to_bytes().len();
    while let Some(length) = fitting_entries(left) {
        left -= 12 + 14 * length;
        job.blocks[0].assumed.push(Path { identifier: identifier(), ..path(length) });
    }
    let mut bytes = job.to_bytes();
    // What no record can fill is left over after the job.
    bytes.resize(goal, 0);
    bytes
}

/// The most entries of a path after which paths can fill the rest exactly.
pub fn fitting_entries(left: usize) -> Option<usize> {
    (0..=limits::ENTRIES).rev().find(|length| left.checked_sub(12 + 14 * length).is_some_and(can_be_filled))
}

/// Whether some number of paths takes exactly this many bytes. A path takes 12
/// bytes, and 14 for each entry.
fn can_be_filled(bytes: usize) -> bool {
    (0..=bytes / 12).any(|paths| {
        let entries = bytes - 12 * paths;
        entries.is_multiple_of(14) && entries / 14 <= limits::ENTRIES * paths
    })
}

/// Ids that stand twice, ids of no block, and blocks that are their own predecessor.
pub fn ids(prng: &mut Prng) -> Vec<u8> {
    let job = if prng.chance(50) { shapes::without_loops(prng) } else { shapes::with_loops(prng) };
    let mut job = reads::sometimes(prng, job);
    for _ in 0..prng.pick(&[1, 1, 1, 2]) {
        let at = prng.below(job.blocks.len());
        let other = job.blocks[prng.below(job.blocks.len())].id;
        let unknown = prng.pick(&[77_777, u32::MAX - 5]);
        match prng.below(6) {
            0 => job.blocks.push(block(other)),
            1 => {
                let predecessors = &mut job.blocks[at].predecessors;
                predecessors.push(other);
                predecessors.push(other);
            }
            2 => job.blocks[at].predecessors.push(unknown),
            3 => job.scope = unknown,
            4 => {
                let id = job.blocks[at].id;
                job.blocks[at].predecessors.retain(|&predecessor| predecessor != id);
                job.blocks[at].predecessors.push(id);
            }
            _ => job.blocks[at].id = other,
        }
    }
    job.to_bytes()
}
