//! Jobs within the limits, each class with its own weight on a part of the stage.

use super::graph::{self, Graph};
use super::words::Words;
use crate::job::{Block, Entry, Job, Path, limits};
use crate::prng::Prng;

pub fn without_loops(prng: &mut Prng) -> Job {
    let size = few(prng);
    let graph = graph::without_loops(prng, size);
    let words = Words::few(prng);
    over(prng, &graph, &words)
}

pub fn with_loops(prng: &mut Prng) -> Job {
    let size = few(prng);
    let graph = graph::with_loops(prng, size);
    let words = Words::few(prng);
    over(prng, &graph, &words)
}

pub fn numbers(prng: &mut Prng) -> Job {
    let size = few(prng);
    let graph = graph::with_loops(prng, size);
    let words = Words::numbers(prng);
    over(prng, &graph, &words)
}

pub fn many_blocks(prng: &mut Prng) -> Job {
    let size = prng.pick(&[16, 32, 64, 100, 127, 128]);
    let graph = match prng.below(2) {
        0 => graph::without_loops(prng, size),
        _ => graph::with_loops(prng, size),
    };
    let mut words = Words::few(prng);
    words.longest = words.longest.min(3);
    over(prng, &graph, &words)
}

/// One block, or two, with many hoistable paths and candidates.
pub fn tree(prng: &mut Prng) -> Job {
    let size = prng.pick(&[1, 1, 1, 2]);
    let graph = graph::without_loops(prng, size);
    let words = Words::few(prng);
    let mut job = over(prng, &graph, &words);
    // Sorting is only unstable in earnest for more than 20 paths.
    let most_shared = prng.pick(&[4, 10, 10, 60]);
    let shared = words.paths(prng, most_shared);
    job.blocks[0].assumed.extend(shared.iter().cloned());
    job.scope = job.blocks[0].id;
    let most = prng.pick(&[4, 8, 8, 16, limits::CANDIDATES]);
    job.candidates = (0..prng.between(1, most)).map(|_| words.path_near(prng, &shared)).collect();
    job
}

/// Long paths with optional entries, with their bases in the same sets or in a neighbour's.
pub fn reduction(prng: &mut Prng) -> Job {
    let size = prng.pick(&[1, 2, 3, 4, 6]);
    let graph = if prng.chance(50) { graph::without_loops } else { graph::with_loops }(prng, size);
    let mut words = Words::few(prng);
    words.optional = prng.pick(&[50, 80, 100]);
    words.longest = prng.pick(&[2, 3, 4, 5, 8]);
    let mut job = over(prng, &graph, &words);
    for _ in 0..prng.between(1, 4) {
        let chain = words.path(prng);
        spread_bases(prng, &mut job.blocks, &chain);
    }
    for block in &mut job.blocks {
        prng.shuffle(&mut block.assumed);
    }
    job
}

/// Puts a path and some of its bases into blocks. A base has plain entries up to
/// a place, as a reduced path would have.
pub fn spread_bases(prng: &mut Prng, blocks: &mut [Block], chain: &Path) {
    let whole = prng.below(blocks.len());
    blocks[whole].assumed.push(chain.clone());
    for length in 0..chain.entries.len() {
        if prng.chance(60) {
            let mut base = chain.clone();
            base.entries.truncate(length);
            let plain = prng.below(length + 1);
            base.entries[..plain].iter_mut().for_each(|entry| entry.optional = false);
            let place = if prng.chance(60) { whole } else { prng.below(blocks.len()) };
            blocks[place].assumed.push(base);
        }
    }
}

fn few(prng: &mut Prng) -> usize {
    prng.pick(&[1, 2, 2, 3, 3, 4, 4, 5, 6, 8, 12])
}

/// A job over a graph, with paths that are near each other.
pub fn over(prng: &mut Prng, graph: &Graph, words: &Words) -> Job {
    let shared = words.paths(prng, 6);
    let most = prng.pick(&[1, 2, 3, 5]);
    let mut assumed_paths = |prng: &mut Prng| {
        let count = prng.below(most + 1);
        (0..count).map(|_| words.path_near(prng, &shared)).collect()
    };
    let blocks = graph::blocks(prng, graph, &mut assumed_paths);
    let scope = blocks[prng.below(blocks.len())].id;
    let most = prng.pick(&[1, 2, 4, 8]);
    let candidates = (0..prng.below(most + 1)).map(|_| words.path_near(prng, &shared)).collect();
    Job { scope, blocks, candidates }
}

/// The entries of a path without their spans, for counting nodes.
pub fn spanless(entries: &[Entry]) -> Vec<Entry> {
    entries.iter().map(|entry| Entry { span: 0, ..*entry }).collect()
}
