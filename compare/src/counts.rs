//! What is counted of a job that was run.

/// Counts by one propagation. Nodes are `nodes.len()` of the Rust's registry.
#[derive(Debug, Clone, Copy, PartialEq, Eq)]
pub struct Counts {
    pub rounds: u8,
    pub settled: bool,
    /// Nodes before the first round, when all assumed paths are entered.
    pub nodes_before: usize,
    /// Nodes after the first forward walk, of which the harness's own propagation alone tells.
    pub nodes_after_forward: Option<usize>,
    /// Nodes after the first round.
    pub nodes_after_first: usize,
    /// Nodes before the last round.
    pub nodes_before_last: usize,
    /// Nodes at the end, after the last round.
    pub nodes: usize,
    /// Whether reduction took a node that a block assumes out of the block's set.
    pub replaces: bool,
}

impl Counts {
    /// How many nodes reduction made.
    pub fn made(&self) -> usize {
        self.nodes - self.nodes_before
    }

    pub fn made_in_first(&self) -> usize {
        self.nodes_after_first - self.nodes_before
    }

    /// How many nodes reduction made in the second round and after it.
    pub fn made_later(&self) -> usize {
        self.nodes - self.nodes_after_first
    }

    pub fn made_in_last(&self) -> usize {
        self.nodes - self.nodes_before_last
    }
}
