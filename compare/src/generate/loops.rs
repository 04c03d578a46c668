//! Jobs in whose loops the two propagations differ.

use super::graph::{self, Graph};
use super::nodes::near_limit;
use super::shapes;
use super::words::Words;
use crate::job::{Block, Entry, Job, Path, Property, limits};
use crate::prng::Prng;
use crate::worst::{self, full_registry};

/// Small graphs full of loops, with optional chains and their bases about them.
pub fn many_loops(prng: &mut Prng) -> Job {
    let size = prng.pick(&[1, 2, 3, 3, 4, 4, 5, 6, 8]);
    let mut graph = match prng.below(6) {
        0 => any_edges(prng, size),
        1 => two_entries(prng, size),
        2 => ring(size),
        3 => apart(prng, size),
        _ => graph::with_loops(prng, size),
    };
    if prng.chance(40) {
        let own = prng.below(graph.len());
        add_edge(prng, &mut graph, own, own);
    }
    let words = Words::few(prng);
    let mut job = shapes::over(prng, &graph, &words);
    if prng.chance(50) {
        let chain = words.path(prng);
        shapes::spread_bases(prng, &mut job.blocks, &chain);
    }
    job
}

fn add_edge(prng: &mut Prng, graph: &mut Graph, from: usize, to: usize) {
    if !graph[to].contains(&from) {
        let place = prng.below(graph[to].len() + 1);
        graph[to].insert(place, from);
    }
}

/// Each edge there or not, those from a block to itself too.
fn any_edges(prng: &mut Prng, size: usize) -> Graph {
    let percent = prng.pick(&[15, 30, 50]);
    (0..size).map(|_| graph::some_of(prng, 0..size, percent)).collect()
}

/// A ring: no block without a predecessor, and none without a successor.
fn ring(size: usize) -> Graph {
    (0..size).map(|n| vec![(n + size - 1) % size]).collect()
}

/// A ring that control enters at two blocks, and leaves at one.
fn two_entries(prng: &mut Prng, size: usize) -> Graph {
    let around = size.max(2);
    let mut graph = ring(around);
    let (start, end) = (around, around + 1);
    graph.push(vec![]);
    let [first, second] = [0, prng.between(1, around - 1)];
    add_edge(prng, &mut graph, start, first);
    add_edge(prng, &mut graph, start, second);
    graph.push(vec![prng.below(around)]);
    if prng.chance(30) {
        add_edge(prng, &mut graph, start, end);
    }
    graph
}

/// A ring that nothing reaches, before a block of a graph that is reached.
fn apart(prng: &mut Prng, size: usize) -> Graph {
    let mut graph = graph::with_loops(prng, size);
    let around = prng.between(1, 3);
    let beside = ring(around);
    graph.extend(beside.into_iter().map(|before| before.iter().map(|place| place + size).collect()));
    let (from, to) = (size + prng.below(around), prng.below(size));
    add_edge(prng, &mut graph, from, to);
    graph
}

/// Near 512 nodes by one of the two propagations, with fewer by the other.
pub fn nodes_looped(prng: &mut Prng) -> Job {
    let goal = near_limit(prng);
    let (mut blocks, made) = if prng.chance(50) { more_existing(prng) } else { more_strict(prng) };
    blocks.push(block(8, &[], full_registry(goal - made)));
    let scope = blocks[prng.below(blocks.len())].id;
    let candidates = blocks[prng.below(blocks.len())].assumed.iter().take(2).cloned().collect();
    Job { scope, blocks, candidates }
}

/// A block after itself that has the root of optional chains which stand after it. Only the
/// existing propagation brings them to it, where they are reduced and each entry made anew. Gives
/// the blocks, and how many nodes the existing propagation makes of them.
fn more_existing(prng: &mut Prng) -> (Vec<Block>, usize) {
    let chains: Vec<Path> =
        (0..prng.between(1, 6)).map(|n| chain(n as u64, &[true], prng.between(1, 8))).collect();
    let entries: usize = chains.iter().map(|path| path.entries.len()).sum();
    let blocks = vec![block(0, &[], vec![]), block(1, &[1], vec![root()]), block(2, &[1, 0], chains)];
    (blocks, 1 + 2 * entries)
}

/// A block after itself and after the root's. Where the root does not join it, its chains are
/// reduced twice: below their own optional bases, and again in the root's block. Gives the blocks,
/// and how many nodes the strict propagation makes of them.
fn more_strict(prng: &mut Prng) -> (Vec<Block>, usize) {
    let (mut assumed, mut made) = (vec![], 1);
    for n in 0..prng.between(1, 6) {
        let whole = chain(n as u64, &[true, true], prng.between(2, 8));
        let mut base = whole.clone();
        base.entries.truncate(1);
        made += 3 * whole.entries.len() - 1;
        assumed.extend([base, whole]);
    }
    (vec![block(0, &[], vec![root()]), block(1, &[1, 0], assumed)], made)
}

fn block(id: u32, predecessors: &[u32], assumed: Vec<Path>) -> Block {
    worst::block(id, predecessors.to_vec(), assumed)
}

fn root() -> Path {
    chain(0, &[], 0)
}

/// Chain `number` below the root 1, with these marks on its first entries and plain ones after.
fn chain(number: u64, marks: &[bool], length: usize) -> Path {
    let entry = |n: usize| Entry {
        optional: marks.get(n).copied().unwrap_or(false),
        property: Property::Name(100 * number + n as u64 + 10),
        span: 0,
    };
    let entries = (0..length.min(limits::ENTRIES)).map(entry).collect();
    Path { identifier: 1, reactive: true, span: 0, entries }
}
