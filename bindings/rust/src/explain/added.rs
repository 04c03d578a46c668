//! The nodes that reduction added, where, and for which assumed paths.

use super::origins::{origins, Origin};
use super::steps::Steps;
use crate::ids::{BlockId, NodeId};
use crate::job::{Block, Job};
use crate::path::Path;
use crate::replay::{Replay, Side};

/// Nodes that reduction added when it made optional entries of one path of a block plain.
#[derive(Clone, Debug, PartialEq, Eq, Hash)]
pub struct Added {
    /// The nodes, ascending, each with its path: the new path, or one on the way to it. There is at
    /// least one.
    pub nodes: Vec<(NodeId, Path)>,
    /// The round, from 1.
    pub round: u8,
    /// Which of the round's two walks: that with the predecessors is the forward one.
    pub side: Side,
    /// The block.
    pub block: BlockId,
    /// The path that was replaced.
    pub from: Path,
    /// The path that took its place.
    pub to: Path,
    /// The paths of the block that made entries plain.
    pub bases: Vec<Path>,
    /// The assumed paths that the replaced one comes from: itself, or such as reduction made into
    /// it. There is at least one. Where it came to the block in several ways, these are of one of
    /// them.
    pub origins: Vec<Origin>,
    /// The number of the visit in [`Replay::visits`].
    pub visit: usize,
    /// The place in [`crate::replay::Visit::replaced`].
    pub place: usize,
}

/// All that reduction added, in the order in which it did, which is that of the nodes' numbers.
pub(super) fn added(job: &Job, replay: &Replay) -> Vec<Added> {
    let mut steps = Steps::new(job, replay);
    let mut found = Vec::new();
    for (visit, event) in replay.visits().iter().enumerate() {
        let replaced = event.replaced.iter().enumerate();
        let adding = replaced.filter(|(_, replaced)| !replaced.added.is_empty());
        found.extend(adding.map(|(place, replaced)| Added {
            nodes: replaced.added.iter().map(|&node| (node, replay.path(node))).collect(),
            round: event.round,
            side: event.side,
            block: job.blocks()[event.block].id(),
            from: replay.path(replaced.from),
            to: replay.path(replaced.to),
            bases: replaced.bases.iter().map(|&base| replay.path(base)).collect(),
            origins: of_replaced(job, &mut steps, visit, place),
            visit,
            place,
        }));
    }
    found
}

/// Where the path that was replaced comes from.
fn of_replaced(job: &Job, steps: &mut Steps, visit: usize, place: usize) -> Vec<Origin> {
    let step = steps.replaced(visit, place);
    let mut found = origins(&steps.found, step);
    for origin in &mut found {
        origin.path = own_form(job, origin.blocks[0], &origin.path);
    }
    found.sort_by_key(|origin| origin.blocks[0]);
    found
}

/// The path as the block itself assumes it. A node has the spans of the block that made it.
fn own_form(job: &Job, id: BlockId, path: &Path) -> Path {
    let block = job.blocks().iter().filter(|block| block.id() == id);
    let mut own = block.flat_map(Block::all_assumed).filter(|own| own.same_entries(path));
    own.next().unwrap_or(path).clone()
}
