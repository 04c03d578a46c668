//! Control-flow graphs: for each block, in a natural order, the places of its predecessors.

use crate::job::{Block, Path, limits};
use crate::prng::Prng;

pub type Graph = Vec<Vec<usize>>;

/// A graph whose edges all lead from an earlier place to a later one.
pub fn without_loops(prng: &mut Prng, size: usize) -> Graph {
    match prng.below(5) {
        0 => (0..size).map(|n| if n == 0 { vec![] } else { vec![n - 1] }).collect(),
        1 => diamonds(size),
        2 => (0..size).map(|n| if n == 0 { vec![] } else { vec![prng.below(n)] }).collect(),
        _ => {
            let percent = prng.pick(&[10, 25, 50]);
            (0..size).map(|n| some_of(prng, 0..n, percent)).collect()
        }
    }
}

/// Fork, two sides and a join that is the next fork.
fn diamonds(size: usize) -> Graph {
    let predecessors = |n: usize| match n % 3 {
        0 if n > 0 => vec![n - 2, n - 1],
        1 => vec![n - 1],
        2 => vec![n - 2],
        _ => vec![],
    };
    (0..size).map(predecessors).collect()
}

pub fn some_of(prng: &mut Prng, places: std::ops::Range<usize>, percent: usize) -> Vec<usize> {
    let mut chosen: Vec<usize> = places.filter(|_| prng.chance(percent)).collect();
    prng.shuffle(&mut chosen);
    chosen.truncate(limits::PREDECESSORS);
    chosen
}

/// Adds edges that lead back, and sometimes edges from a block to itself.
pub fn with_loops(prng: &mut Prng, size: usize) -> Graph {
    let mut graph = without_loops(prng, size);
    for _ in 0..prng.between(1, 1 + size / 2) {
        let to = prng.below(size);
        let from = if prng.chance(15) { to } else { prng.between(to, size - 1) };
        let predecessors = &mut graph[to];
        if !predecessors.contains(&from) && predecessors.len() < limits::PREDECESSORS {
            predecessors.insert(prng.below(predecessors.len() + 1), from);
        }
    }
    graph
}

/// Blocks for a graph, with ids and an order that may differ from the natural one.
pub fn blocks(prng: &mut Prng, graph: &Graph, mut assumed: impl FnMut(&mut Prng) -> Vec<Path>) -> Vec<Block> {
    let ids = ids(prng, graph.len());
    let mut blocks: Vec<Block> = (0..graph.len())
        .map(|n| Block {
            id: ids[n],
            predecessors: graph[n].iter().map(|&place| ids[place]).collect(),
            reads: vec![],
            assumed: assumed(prng),
        })
        .collect();
    match prng.below(5) {
        0 => blocks.reverse(),
        1 | 2 => prng.shuffle(&mut blocks),
        _ => {}
    }
    blocks
}

fn ids(prng: &mut Prng, size: usize) -> Vec<u32> {
    let mut ids: Vec<u32> = (0..size as u32).collect();
    if prng.chance(20) {
        // Far apart, the largest id included.
        ids.iter_mut().for_each(|id| *id = u32::MAX - *id * 0x0101_0101 / 4);
    }
    match prng.below(4) {
        0 => ids.reverse(),
        1 => prng.shuffle(&mut ids),
        _ => {}
    }
    ids
}
