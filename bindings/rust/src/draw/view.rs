//! What is drawn of a job: all blocks, or some, with gaps where the others are left out.

use crate::graph::Graph;
use crate::ids::BlockId;
use crate::job::Job;
use std::collections::BTreeSet;

/// The blocks that are drawn, and gaps. A gap stands for left-out blocks between which control
/// goes. The blocks come first in the numbers by which both are known.
pub(super) struct View {
    /// The blocks, by place in the job.
    pub(super) blocks: Vec<usize>,
    /// How many blocks each gap stands for.
    pub(super) gaps: Vec<usize>,
    /// Control between all of them.
    pub(super) graph: Graph,
}

impl View {
    /// All blocks.
    pub(super) fn whole(job: &Job) -> Self {
        Self { blocks: (0..job.blocks().len()).collect(), gaps: Vec::new(), graph: Graph::new(job) }
    }

    /// These blocks only.
    pub(super) fn only(job: &Job, drawn: &BTreeSet<BlockId>) -> Self {
        let graph = Graph::new(job);
        let is_drawn = |place: &usize| drawn.contains(&job.blocks()[*place].id());
        let blocks: Vec<usize> = (0..graph.len()).filter(is_drawn).collect();
        let mut number = vec![None; graph.len()];
        blocks.iter().enumerate().for_each(|(at, &block)| number[block] = Some(at));
        let mut gaps = Vec::new();
        for block in 0..graph.len() {
            if number[block].is_none() {
                gaps.push(fill(&graph, block, blocks.len() + gaps.len(), &mut number));
            }
        }
        let number: Vec<usize> = number.into_iter().flatten().collect();
        let graph = joined(&graph, &number, blocks.len(), gaps.len());
        Self { blocks, gaps, graph }
    }

    pub(super) fn is_gap(&self, number: usize) -> bool {
        number >= self.blocks.len()
    }
}

/// Gives the number to the block and to all without one to which control leads from there by way of
/// such blocks, along arrows and against them. Returns how many these are.
fn fill(graph: &Graph, block: usize, gap: usize, number: &mut [Option<usize>]) -> usize {
    let mut count = 0;
    let mut open = vec![block];
    while let Some(block) = open.pop() {
        if number[block].is_none() {
            number[block] = Some(gap);
            count += 1;
            open.extend(graph.predecessors[block].iter().chain(&graph.successors[block]));
        }
    }
    count
}

/// The graph in which blocks of the same number are one. What leads from a gap to itself is left
/// out.
fn joined(graph: &Graph, number: &[usize], blocks: usize, gaps: usize) -> Graph {
    let none = vec![Vec::new(); blocks + gaps];
    let mut joined = Graph { predecessors: none.clone(), successors: none };
    for (to, predecessors) in graph.predecessors.iter().enumerate() {
        for &from in predecessors {
            let (from, to) = (number[from], number[to]);
            let within = from == to && from >= blocks;
            if !within && !joined.predecessors[to].contains(&from) {
                joined.predecessors[to].push(from);
                joined.successors[from].push(to);
            }
        }
    }
    joined
}
