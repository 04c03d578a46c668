//! The propagation of a job done again, with a trace of what happened.
//!
//! The library says what each block holds in the end, and not how that came about. This module
//! takes the specification's steps once more, in a small plain program, and notes each visit: which
//! neighbours were joined, which were passed over because they or others were being visited, which
//! paths came in, which were replaced, and which nodes were added for that. Nothing of it goes into
//! an answer or a sheet. [`explain`](mod@crate::explain) compares the sheet that comes out with the
//! library's, and explains nothing where the two differ.
//!
//! ```
//! use scope_deps::replay::{Replay, Side};
//! use scope_deps::{sheet, Job};
//!
//! let job: Job = "scope 1 block 0 assumes 5 block 1 after 0, 1".parse()?;
//! let replay = Replay::new(&job)?;
//! assert!(replay.agrees_with(&job, &sheet(&job)?));
//!
//! // Block 1 takes 5 over from block 0. It is being visited itself, and so is passed over.
//! let visit = replay.visits().iter().find(|visit| !visit.came_in.is_empty()).unwrap();
//! assert_eq!((visit.round, visit.side, visit.block), (1, Side::Predecessors, 1));
//! assert_eq!((&visit.joined[..], &visit.passed_over[..]), (&[0][..], &[1][..]));
//!
//! // By the strict propagation both are passed over, since block 1 is unfinished.
//! let strict = Replay::strict(&job)?;
//! let visit = &strict.visits()[1];
//! assert_eq!((visit.round, visit.side, visit.block), (1, Side::Predecessors, 1));
//! assert_eq!((&visit.passed_over[..], &visit.unfinished[..]), (&[0, 1][..], &[1][..]));
//! # Ok::<(), Box<dyn std::error::Error>>(())
//! ```

mod nodes;
mod reduce;
mod registry;
mod trace;
mod walk;

pub use trace::{Propagation, Replaced, Side, Visit};

use crate::ids::NodeId;
use crate::job::{Block, Job};
use crate::path::Path;
use crate::refusal::ManyNodes;
use crate::sheet::{NodeSet, Sheet};
use nodes::Nodes;
use registry::Registry;
use std::collections::BTreeMap;
use std::fmt;
use walk::{Neighbours, Walks};

/// The propagation of a job, visit by visit. Blocks are given by their place in the job, from 0.
#[derive(Clone)]
pub struct Replay {
    propagation: Propagation,
    registry: Registry,
    nodes_before_rounds: usize,
    assumed: Vec<Vec<NodeId>>,
    sets: Vec<Nodes>,
    visits: Vec<Visit>,
    rounds: u8,
    settled: bool,
}

impl Replay {
    /// Propagates the job's assumed paths.
    ///
    /// # Errors
    ///
    /// Where the job has more than 512 nodes, which the stage refuses by 9.
    pub fn new(job: &Job) -> Result<Self, ManyNodes> {
        Self::by(Propagation::Existing, job)
    }

    /// Propagates the job's assumed paths by the strict propagation.
    ///
    /// # Errors
    ///
    /// Where the job then has more than 512 nodes, which the stage refuses by 9.
    pub fn strict(job: &Job) -> Result<Self, ManyNodes> {
        Self::by(Propagation::Strict, job)
    }

    pub(crate) fn by(propagation: Propagation, job: &Job) -> Result<Self, ManyNodes> {
        let mut registry = Registry::default();
        let assumed = assumed(job, &mut registry)?;
        let nodes_before_rounds = registry.nodes().len();
        let sets = assumed.iter().map(|nodes| set_of(nodes)).collect();
        let neighbours = Neighbours::new(job);
        let mut walks = Walks::new(&neighbours, propagation, registry, sets);
        let (rounds, settled) = walks.rounds()?;
        let Walks { registry, sets, visits, .. } = walks;
        Ok(Self { propagation, registry, nodes_before_rounds, assumed, sets, visits, rounds, settled })
    }

    /// By which propagation this is.
    #[must_use]
    pub fn propagation(&self) -> Propagation {
        self.propagation
    }

    /// The visits, in the order in which they ended.
    #[must_use]
    pub fn visits(&self) -> &[Visit] {
        &self.visits
    }

    /// How many rounds there were.
    #[must_use]
    pub fn rounds(&self) -> u8 {
        self.rounds
    }

    /// Whether the last round changed nothing.
    #[must_use]
    pub fn is_settled(&self) -> bool {
        self.settled
    }

    /// The nodes of the paths that a block assumes, in the order of [`Block::all_assumed`]: first
    /// those of the raw reads that are kept.
    #[must_use]
    pub fn assumed(&self, block: usize) -> &[NodeId] {
        &self.assumed[block]
    }

    /// The nodes that a block holds in the end, ascending.
    pub fn held(&self, block: usize) -> impl Iterator<Item = NodeId> + '_ {
        self.sets[block].iter()
    }

    /// Whether a block holds a node in the end.
    #[must_use]
    pub fn holds(&self, block: usize, node: NodeId) -> bool {
        self.sets[block].contains(node)
    }

    /// All nodes, ascending.
    #[must_use]
    pub fn nodes(&self) -> impl ExactSizeIterator<Item = NodeId> {
        self.registry.numbers()
    }

    /// How many nodes there were before the first round. The nodes from this number on were added
    /// by reduction; each is in [`Replaced::added`] of the replacement for which it was.
    #[must_use]
    pub fn nodes_before_rounds(&self) -> usize {
        self.nodes_before_rounds
    }

    /// A node's path.
    ///
    /// # Panics
    ///
    /// Where there is no such node.
    #[must_use]
    pub fn path(&self, node: NodeId) -> Path {
        self.registry.path(node)
    }

    /// Whether this is what the sheet says: the same nodes, as many of them before the first round,
    /// and the same sets and rounds, for the same blocks.
    #[must_use]
    pub fn agrees_with(&self, job: &Job, sheet: &Sheet) -> bool {
        let ids = job.blocks().iter().map(|block| block.id());
        let sets = sheet.sets().map(|(_, set)| set);
        let same_set = |(block, set): (usize, &NodeSet)| set.iter().eq(self.held(block));
        self.rounds == sheet.rounds()
            && self.settled == sheet.is_settled()
            && self.nodes_before_rounds == sheet.nodes_before_rounds()
            && self.registry.nodes().iter().eq(sheet.nodes().map(|(_, node)| node))
            && ids.eq(sheet.sets().map(|(id, _)| id))
            && sets.enumerate().all(same_set)
    }
}

/// The nodes by their paths, and what each block assumes and holds by its nodes.
impl fmt::Debug for Replay {
    fn fmt(&self, f: &mut fmt::Formatter<'_>) -> fmt::Result {
        let nodes: BTreeMap<NodeId, String> =
            self.nodes().map(|node| (node, format!("{:#}", self.path(node)))).collect();
        let mut shown = f.debug_struct("Replay");
        shown.field("propagation", &self.propagation);
        shown.field("nodes", &nodes).field("nodes_before_rounds", &self.nodes_before_rounds);
        shown.field("assumed", &self.assumed).field("sets", &self.sets);
        shown.field("visits", &self.visits).field("rounds", &self.rounds).field("settled", &self.settled);
        shown.finish()
    }
}

/// The nodes of each block's assumed paths. All are entered first, in job order; of a block the raw
/// reads that are kept come first, and those that are not have no node.
fn assumed(job: &Job, registry: &mut Registry) -> Result<Vec<Vec<NodeId>>, ManyNodes> {
    let mut of_block = |block: &Block| block.all_assumed().map(|path| registry.enter(path)).collect();
    job.blocks().iter().map(&mut of_block).collect()
}

fn set_of(nodes: &[NodeId]) -> Nodes {
    let mut set = Nodes::NONE;
    nodes.iter().for_each(|&node| set.insert(node));
    set
}
