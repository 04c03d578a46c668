//! Raw reads, with numbers near the edges at which they are kept or not.

use super::shapes;
use super::words::Words;
use crate::job::{Block, Job, Path, RawRead, limits};
use crate::prng::Prng;
use crate::reads::{kept, known_immutable};
use crate::worst::{block, full_registry};

/// The class: some of the jobs that 10 refuses have another fault, for which they would be refused
/// later.
pub fn class(prng: &mut Prng) -> Vec<u8> {
    let mut job = raw_reads(prng);
    let mut reads = job.blocks.iter().flat_map(|block| &block.reads);
    let is_refused = reads.any(|read| read.range_start == u32::MAX);
    let other = if is_refused { prng.below(8) } else { 8 };
    match other {
        0 => job.scope = 77_777,
        1 => job.blocks.push(job.blocks[0].clone()),
        2 => job.blocks.push(block(u32::MAX - 77, vec![], full_registry(limits::NODES + 1))),
        _ => {}
    }
    let mut bytes = job.to_bytes();
    if other == 3 {
        bytes.push(0);
    }
    bytes
}

/// Jobs with raw reads in most blocks, some of which 10 refuses.
pub fn raw_reads(prng: &mut Prng) -> Job {
    let mut job = match prng.below(5) {
        0 => shapes::with_loops(prng),
        1 => shapes::tree(prng),
        2 => shapes::reduction(prng),
        _ => shapes::without_loops(prng),
    };
    let words = Words::few(prng);
    let pool = pool(&job);
    for block in &mut job.blocks {
        let count = prng.pick(&[0, 1, 1, 2, 3, 6]);
        block.reads = some_reads(prng, &words, &pool, count);
    }
    vary(prng, &words, &mut job);
    job
}

/// All paths of the job.
fn pool(job: &Job) -> Vec<Path> {
    job.blocks.iter().flat_map(|block| &block.assumed).chain(&job.candidates).cloned().collect()
}

/// Reads of paths of the job, of such as are near them, and of others.
fn some_reads(prng: &mut Prng, words: &Words, pool: &[Path], count: usize) -> Vec<RawRead> {
    let read = |_| {
        let path = match prng.below(4) {
            0 if !pool.is_empty() => pool[prng.below(pool.len())].clone(),
            _ => words.path_near(prng, pool),
        };
        near_edges(prng, path)
    };
    (0..count).map(read).collect()
}

/// What only some jobs have.
fn vary(prng: &mut Prng, words: &Words, job: &mut Job) {
    let place = prng.below(job.blocks.len());
    let block = &mut job.blocks[place];
    match prng.below(30) {
        0 => fill(prng, words, block),
        1 | 2 => {
            let mut path = words.path(prng);
            let entry = words.entry(prng);
            path.entries.resize(limits::ENTRIES, entry);
            block.reads.push(near_edges(prng, path));
        }
        3 | 4 => job.blocks.iter_mut().for_each(|block| block.reads.retain(|read| !kept(read))),
        5 | 6 => repeat(prng, block),
        7 | 8 => block.assumed.extend(block.reads.iter().map(|read| read.path.clone())),
        9 | 10 => block.reads.extend(block.assumed.iter().cloned().map(known_immutable)),
        11 | 12 => job.blocks.iter_mut().for_each(all_read),
        13..=16 => {
            for _ in 0..prng.pick(&[1, 1, 2]) {
                refuse(prng, words, job);
            }
        }
        _ => {}
    }
}

/// As many reads as a block can have.
fn fill(prng: &mut Prng, words: &Words, block: &mut Block) {
    let pool: Vec<Path> = words.paths(prng, 8);
    block.reads.clear();
    while block.reads.len() < limits::READS {
        let mut path = words.path_near(prng, &pool);
        path.entries.truncate(4);
        block.reads.push(near_edges(prng, path));
    }
}

/// Reads that stand twice, as they were or with another number.
pub fn repeat(prng: &mut Prng, block: &mut Block) {
    for _ in 0..prng.between(1, 3) {
        if block.reads.is_empty() || block.reads.len() == limits::READS {
            return;
        }
        let mut copy = block.reads[prng.below(block.reads.len())].clone();
        match prng.below(4) {
            0 => copy.path.span ^= 1,
            1 => copy.instruction ^= 1,
            2 => copy.known_immutable ^= true,
            _ => {}
        }
        let place = prng.below(block.reads.len() + 1);
        block.reads.insert(place, copy);
    }
}

/// All paths of a block as reads that are kept, in the place of those that come ready.
fn all_read(block: &mut Block) {
    let left = limits::READS - block.reads.len();
    block.reads.extend(block.assumed.drain(..).take(left).map(known_immutable));
}

/// Gives a read the range start that 10 refuses.
fn refuse(prng: &mut Prng, words: &Words, job: &mut Job) {
    let place = prng.below(job.blocks.len());
    let reads = &mut job.blocks[place].reads;
    if reads.is_empty() {
        reads.extend(some_reads(prng, words, &[], 1));
    }
    let place = prng.below(reads.len());
    reads[place].range_start = u32::MAX;
}

/// Numbers in whose neighbourhood a read's lie.
const BASES: [u32; 6] = [0, 1, 5, 1000, 1 << 31, u32::MAX - 3];

/// A read of the path with numbers near the edges.
pub fn near_edges(prng: &mut Prng, path: Path) -> RawRead {
    let base = prng.pick(&BASES);
    let mut near = |most: usize| base.saturating_add(prng.below(most + 1) as u32);
    let range_start = near(2).min(limits::RANGE_START);
    let scope_start = near(3);
    let range_end = match prng.below(12) {
        0 => range_start.saturating_sub(1),
        1 => prng.pick(&BASES),
        2 => u32::MAX,
        n => range_start.saturating_add(prng.pick(&[0, 1, 2, 2, 3, n as u32])),
    };
    let scope_end = match prng.below(12) {
        0 => scope_start.saturating_sub(1),
        1 => u32::MAX,
        _ => scope_start.saturating_add(prng.pick(&[0, 1, 2, 3, 5])),
    };
    let instruction = match prng.below(6) {
        0 => scope_start.saturating_sub(1),
        1 => scope_end,
        2 => scope_end.saturating_sub(1),
        3 => prng.pick(&[range_start, range_end, 0, u32::MAX]),
        _ => scope_start,
    };
    let (has_scope, known_immutable) = (prng.chance(75), prng.chance(20));
    RawRead { instruction, range_start, range_end, has_scope, scope_start, scope_end, known_immutable, path }
}

/// A read that is not kept.
fn dropped(prng: &mut Prng, path: Path) -> RawRead {
    let (base, length) = (prng.pick(&BASES[..5]), prng.between(1, 4) as u32);
    RawRead {
        instruction: base + prng.below(length as usize) as u32,
        range_start: base,
        range_end: base + prng.between(2, 4) as u32,
        has_scope: true,
        scope_start: base,
        scope_end: base + length,
        known_immutable: false,
        path,
    }
}

/// The job, in some cases with raw reads of paths near its own.
pub fn sometimes(prng: &mut Prng, mut job: Job) -> Job {
    if !prng.chance(35) {
        return job;
    }
    let (words, pool) = (Words::few(prng), pool(&job));
    for block in &mut job.blocks {
        if prng.chance(50) {
            let count = prng.pick(&[1, 1, 2, 3]);
            block.reads = some_reads(prng, &words, &pool, count);
        }
    }
    job
}

/// The job, in some cases with the first of a block's paths as reads that are kept, and with reads
/// that are not: nothing else is entered, and nothing in another order.
pub fn in_place(prng: &mut Prng, mut job: Job) -> Job {
    if !prng.chance(25) {
        return job;
    }
    for block in &mut job.blocks {
        let count = prng.below(block.assumed.len().min(8) + 1);
        let paths = block.assumed.drain(..count).collect::<Vec<_>>();
        for path in paths {
            if prng.chance(30) {
                block.reads.push(dropped(prng, path.clone()));
            }
            let read = near_edges(prng, path);
            block.reads.push(if kept(&read) { read } else { RawRead { known_immutable: true, ..read } });
        }
    }
    job
}
