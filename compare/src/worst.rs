//! Accepted jobs at the limits: the deepest visits, the fullest registry, the most
//! candidates, the longest reductions and the most rounds.

mod reads;

pub use reads::{longest_of_reads, most_reads};

use crate::generate::{edges, ladder};
use crate::job::{Block, Entry, Job, Path, Property, limits};

pub fn entry(name: u64, optional: bool) -> Entry {
    Entry { optional, property: Property::Name(name), span: 3 }
}

/// A path whose names are `first`, `first` + 1 and so on.
pub fn path(identifier: u32, first: u64, length: usize, optional: bool) -> Path {
    let entries = (first..).take(length).map(|name| entry(name, optional)).collect();
    Path { identifier, reactive: true, span: 2, entries }
}

pub fn block(id: u32, predecessors: Vec<u32>, assumed: Vec<Path>) -> Block {
    Block { id, predecessors, reads: vec![], assumed }
}

/// Each block after the one that follows it in the job. The first visit of a forward
/// walk goes through all blocks, and so does the first of a backward walk.
pub fn rising_chain(count: usize) -> Vec<Block> {
    let last = count as u32 - 1;
    (0..=last).map(|id| block(id, (id < last).then_some(id + 1).into_iter().collect(), vec![])).collect()
}

/// Each block after the one that stands before it in the job. No visit goes deeper than one block.
pub fn falling_chain(count: usize) -> Vec<Block> {
    (0..count as u32).map(|id| block(id, id.checked_sub(1).into_iter().collect(), vec![])).collect()
}

/// Paths that together make `nodes` nodes: roots with chains of 16 entries below them.
pub fn full_registry(nodes: usize) -> Vec<Path> {
    let per_chain = limits::ENTRIES + 1;
    let chain = |n: usize| {
        let left = nodes - n * per_chain;
        path(100 + n as u32, 1000 * n as u64, left.min(per_chain) - 1, false)
    };
    (0..nodes.div_ceil(per_chain)).map(chain).collect()
}

/// An optional chain of `length` entries below a root that is there, so that each pass
/// makes one more entry plain and the whole chain is made anew.
pub fn reducible_chain(identifier: u32, length: usize) -> Vec<Path> {
    let whole = path(identifier, 10, length, true);
    let cut = |n: usize| {
        let mut base = whole.clone();
        base.entries.truncate(n);
        base.entries.iter_mut().for_each(|entry| entry.optional = false);
        base
    };
    let mut paths: Vec<Path> = (0..length).rev().map(cut).collect();
    paths.insert(0, whole.clone());
    paths
}

/// Candidates of 16 optional entries that are not cut. They share their first `shared` names.
pub fn candidates(count: usize, shared: usize) -> Vec<Path> {
    let candidate = |n: usize| {
        let mut candidate = path(1, 10, limits::ENTRIES, true);
        for entry in &mut candidate.entries[shared..] {
            let Property::Name(name) = entry.property else { unreachable!("a name") };
            entry.property = Property::Name(name + 1000 * (n as u64 + 1));
        }
        candidate
    };
    (0..count).map(candidate).collect()
}

/// Paths with optional entries that nothing makes plain: each pass walks all of them again.
pub fn ballast(count: usize, length: usize) -> Vec<Path> {
    (0..count)
        .map(|n| {
            let mut path = path(7, 10, length, true);
            if let Some(last) = path.entries.last_mut() {
                last.property = Property::Name(500 + n as u64);
            }
            path
        })
        .collect()
}

/// A ladder with ballast in all blocks. The ballast stands in the lowest block and in the
/// source, and comes to all others in the first forward walk. A second half of it, where it
/// is more than a block can hold, stands in a block before each of the two.
pub fn loaded_ladder(steps: usize, climbs: usize, count: usize, length: usize) -> Job {
    let mut job = ladder::of(1, steps, climbs);
    let last = job.blocks.len() - 1;
    let (source, middle, lowest) = (last, last - 2, last - 5);
    let before_source = job.blocks.len() as u32;
    job.blocks.push(block(before_source, vec![], vec![]));
    job.blocks[source].predecessors.push(before_source);
    let load = ballast(count, length);
    let (first, second) = load.split_at(count.div_ceil(2));
    for (places, half) in [([source, lowest], first), ([last + 1, middle], second)] {
        for place in places {
            job.blocks[place].assumed.extend(half.iter().cloned());
        }
    }
    job
}

/// A ladder of `steps` steps in which the first `kinds` of the four kinds of its blocks (by place
/// modulo 4) have a root and its child of their own, and all other blocks the child by an optional
/// entry. At each visit that entry joins the set and is reduced to the child that is there, so the
/// reduction is run although it changes nothing.
pub fn joined_anew(mut job: Job, steps: usize, kinds: usize) -> Job {
    let (ladder, source) = (2 * steps, job.blocks.len() - 2);
    for kind in 0..kinds {
        let root = 20 + kind as u32;
        let optional = path(root, 10, 1, true);
        for (place, block) in job.blocks[..=ladder].iter_mut().enumerate() {
            if place < ladder && place % 4 == kind {
                block.assumed.extend([path(root, 10, 0, false), path(root, 10, 1, false)]);
            } else {
                block.assumed.push(optional.clone());
            }
        }
        // The source is before each high block.
        job.blocks[source].assumed.push(optional);
    }
    job
}

/// Blocks each after the `predecessors` blocks before it, in a ring or not.
pub fn dense(count: usize, predecessors: usize, ring: bool) -> Vec<Block> {
    let before = |id: u32| {
        (1..=predecessors as u32)
            .filter(|&back| ring || back <= id)
            .map(|back| (id + count as u32 - back) % count as u32)
            .collect()
    };
    (0..count as u32).map(|id| block(id, before(id), vec![])).collect()
}

/// One block with these paths.
pub fn one_block(assumed: Vec<Path>) -> Job {
    job(0, vec![block(0, vec![], assumed)], vec![])
}

/// As many paths as a block can hold, and as long as there is room for, that differ at the last
/// entry: no repeat, and the most comparisons of entries until that is seen.
pub fn most_comparisons() -> Job {
    let length = (limits::JOB_BYTES / limits::ASSUMED - 12) / 14;
    one_block(ballast(limits::ASSUMED, length))
}

/// A job of the most bytes, with the most nodes, whose thin job is itself: blocks that assume the
/// same paths, and candidates of different identifiers.
pub fn longest_without_repeats() -> Job {
    let assumed = full_registry(limits::NODES);
    // An even number of blocks, since all records but BL have an even number of bytes.
    let mut whole = job(0, (0..4).map(|id| block(id, vec![], assumed.clone())).collect(), vec![]);
    fill_with_candidates(&mut whole);
    whole
}

/// Brings the job to the most bytes, where it has an even number of blocks.
fn fill_with_candidates(job: &mut Job) {
    let mut left = limits::JOB_BYTES - job.to_bytes().len();
    while let Some(length) = edges::fitting_entries(left) {
        left -= 12 + 14 * length;
        job.candidates.push(path(job.candidates.len() as u32, 10, length, true));
    }
}

fn job(scope: u32, blocks: Vec<Block>, candidates: Vec<Path>) -> Job {
    Job { scope, blocks, candidates }
}

/// A rising chain with paths in its first or its last block, which ends the deepest visit.
fn chain_with(assumed: Vec<Path>, at: usize, candidates: Vec<Path>) -> Job {
    let mut blocks = rising_chain(limits::BLOCKS);
    blocks[at].assumed = assumed;
    job(0, blocks, candidates)
}

/// The named jobs, all within the limits.
pub fn jobs() -> Vec<(String, Job)> {
    let last = limits::BLOCKS - 1;
    let reducible = || reducible_chain(1, limits::ENTRIES);
    let most = || candidates(limits::CANDIDATES, 0);
    let mut jobs = vec![
        ("rising chain of 128 blocks", chain_with(vec![], 0, vec![])),
        (
            "rising chain, a reduction where the forward visit is deepest",
            chain_with(reducible(), last, vec![]),
        ),
        ("rising chain, a reduction where the backward visit is deepest", chain_with(reducible(), 0, vec![])),
        ("rising chain, 512 nodes", chain_with(full_registry(limits::NODES), last, vec![])),
        ("rising chain, a reduction and 64 candidates", chain_with(reducible(), last, most())),
        ("falling chain of 128 blocks", job(0, falling_chain(limits::BLOCKS), vec![])),
        ("one block with 512 nodes", job(0, vec![block(0, vec![], full_registry(limits::NODES))], vec![])),
        (
            "64 candidates of 16 entries, apart from the root on",
            job(0, vec![block(0, vec![], vec![])], most()),
        ),
        (
            "64 candidates of 16 entries, apart at the last entry",
            job(0, vec![block(0, vec![], vec![])], candidates(limits::CANDIDATES, limits::ENTRIES - 1)),
        ),
        (
            "512 nodes and 64 candidates of 16 entries",
            job(0, vec![block(0, vec![], full_registry(limits::NODES))], most()),
        ),
    ];
    let mut full = rising_chain(limits::BLOCKS);
    full[last].assumed = [reducible_chain(1, 15), full_registry(limits::NODES - 31)].concat();
    jobs.push(("rising chain, 512 nodes, a reduction and 64 candidates", job(0, full, most())));
    let mut ring = rising_chain(limits::BLOCKS);
    ring[last].predecessors.push(0);
    ring[last].assumed = reducible();
    // The forward visit is deepest at the last block, whose only predecessor is Active there.
    jobs.push(("ring of 128 blocks, a reduction where nothing joins", job(0, ring, most())));
    jobs.push(("255 paths that differ at the last entry", most_comparisons()));
    jobs.push(("32,768 bytes without a repeat", longest_without_repeats()));
    jobs.extend(reads::jobs());
    jobs.into_iter().map(|(name, job)| (name.to_string(), job)).collect()
}
