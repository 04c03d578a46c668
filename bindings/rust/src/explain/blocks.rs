//! The blocks of a job with what they hold in the end, and the last visits of them.

use super::paths::shows;
use crate::graph::Graph;
use crate::ids::{BlockId, NodeId};
use crate::job::Job;
use crate::path::Path;
use crate::replay::{Replay, Side, Visit};
use std::collections::HashMap;

/// Blocks are known by their place in the job, from 0.
pub(super) struct Blocks<'a> {
    pub(super) job: &'a Job,
    pub(super) replay: &'a Replay,
    pub(super) scope: usize,
    graph: Graph,
    places: HashMap<BlockId, usize>,
    /// The path of each node.
    paths: Vec<Path>,
    /// The last visit of each block on each side.
    last: HashMap<(usize, Side), usize>,
}

impl<'a> Blocks<'a> {
    pub(super) fn new(job: &'a Job, replay: &'a Replay, scope: usize) -> Self {
        let places = job.blocks().iter().enumerate().map(|(place, block)| (block.id(), place)).collect();
        let paths = replay.nodes().map(|node| replay.path(node)).collect();
        let visits = replay.visits().iter().enumerate();
        let last = visits.map(|(number, visit)| ((visit.block, visit.side), number)).collect();
        Self { job, replay, scope, graph: Graph::new(job), places, paths, last }
    }

    pub(super) fn len(&self) -> usize {
        self.graph.len()
    }

    pub(super) fn id(&self, block: usize) -> BlockId {
        self.job.blocks()[block].id()
    }

    pub(super) fn ids(&self, blocks: &[usize]) -> Vec<BlockId> {
        blocks.iter().map(|&block| self.id(block)).collect()
    }

    pub(super) fn place(&self, id: BlockId) -> usize {
        self.places[&id]
    }

    pub(super) fn path(&self, node: NodeId) -> &Path {
        &self.paths[usize::from(node.0)]
    }

    pub(super) fn neighbours(&self, block: usize, side: Side) -> &[usize] {
        match side {
            Side::Predecessors => &self.graph.predecessors[block],
            Side::Successors => &self.graph.successors[block],
        }
    }

    /// The last visit of a block on a side, and its number.
    pub(super) fn last_visit(&self, block: usize, side: Side) -> (usize, &Visit) {
        let number = self.last[&(block, side)];
        (number, &self.replay.visits()[number])
    }

    /// The nodes that a block holds in the end and that show the base to be there.
    pub(super) fn showing(&self, block: usize, base: &Path) -> Vec<NodeId> {
        self.replay.held(block).filter(|&node| shows(self.path(node), base)).collect()
    }

    /// Whether each block has the base in the end.
    pub(super) fn having(&self, base: &Path) -> Vec<bool> {
        let shows_base: Vec<NodeId> =
            self.replay.nodes().filter(|&node| shows(self.path(node), base)).collect();
        let has = |block| shows_base.iter().any(|&node| self.replay.holds(block, node));
        (0..self.len()).map(has).collect()
    }
}
