//! Where a path that other blocks have stopped on its way to the scope block.
//!
//! Paths are passed on from neighbour to neighbour. So where some blocks have a base and the scope
//! block does not, there are blocks without it beside blocks that have it, and by way of blocks
//! without it they are connected with the scope block. At each of them the last visit says why
//! nothing was taken over.

use super::blocks::Blocks;
use super::paths::shows;
use super::steps::Steps;
use crate::ids::{BlockId, NodeId};
use crate::path::Path;
use crate::replay::{Side, Visit};
use std::collections::VecDeque;

/// A block at which a base stopped.
#[derive(Clone, Debug, PartialEq, Eq, Hash)]
pub struct Stop {
    /// The block, which does not have the base.
    pub at: BlockId,
    /// The side on which it has neighbours that have the base.
    pub side: Side,
    /// How it is connected with the scope block.
    pub way: Way,
    /// The number of its last visit on that side in [`crate::replay::Replay::visits`].
    pub visit: usize,
    /// One of the neighbours on that side that have the base, with the path by which it has it.
    pub holder: Holder,
    /// All of them.
    pub holders: Vec<BlockId>,
    /// Why the base was not taken over.
    pub why: Why,
}

/// How the block at which a base stopped is connected with the scope block, by way of blocks
/// without the base.
#[derive(Clone, Copy, Debug, PartialEq, Eq, Hash, PartialOrd, Ord)]
pub enum Way {
    /// Control comes from the neighbours by way of the block to the scope block.
    Before,
    /// Control goes on from the scope block by way of the block to the neighbours.
    After,
    /// Neither; but arrows connect them.
    Aside,
}

/// A block with a path of a base.
#[derive(Clone, Debug, PartialEq, Eq, Hash)]
pub struct Holder {
    /// The block.
    pub block: BlockId,
    /// The path. By it the block has the base, where it is the base itself or goes on from it
    /// plainly.
    pub path: Path,
    /// How the block came to have that path.
    pub step: usize,
}

/// Why a block did not take a base over from the neighbours on one side.
#[derive(Clone, Debug, PartialEq, Eq, Hash)]
pub enum Why {
    /// These were joined too, and do not have it.
    Lacking(Vec<BlockId>),
    /// All that were joined have it, but no path of it is the same in all.
    Different {
        /// A neighbour that was joined.
        one: Holder,
        /// Another, which does not have the path of the first.
        other: Holder,
    },
    /// None was joined, since all were being visited.
    Unfinished,
    /// None was joined, since these of them were being visited: the strict propagation joins all or
    /// none.
    SomeUnfinished(Vec<BlockId>),
    /// All that were joined have the same path of it in the end, but had not when the block was
    /// last visited.
    TooLate,
}

/// The stops of a base on its way to the scope block, the nearest first.
pub(super) fn stops(blocks: &Blocks, steps: &mut Steps, base: &Path, has: &[bool]) -> Vec<Stop> {
    let both = [Side::Predecessors, Side::Successors];
    let around = distances(blocks, has, &both);
    let along = both.map(|side| distances(blocks, has, &[side]));
    let mut found = Vec::new();
    for (block, side) in (0..blocks.len()).flat_map(|block| both.map(|side| (block, side))) {
        let along = &along[usize::from(side == Side::Successors)];
        if let Some(way) = way(side, along[block], around[block]) {
            found.extend(stop(blocks, steps, base, has, (block, side, way.0)).map(|stop| (way, stop)));
        }
    }
    found.sort_by_key(|(way, _)| *way);
    found.into_iter().map(|(_, stop)| stop).collect()
}

/// How a block is connected with the scope block, and how far it is, where it has neighbours with
/// the base on this side: by blocks on the same side of the scope block, or by any.
fn way(side: Side, along: Option<usize>, around: Option<usize>) -> Option<(Way, usize)> {
    match (along, side) {
        (Some(near), Side::Predecessors) => Some((Way::Before, near)),
        (Some(near), Side::Successors) => Some((Way::After, near)),
        (None, _) => around.map(|near| (Way::Aside, near)),
    }
}

/// How far each block without the base is from the scope block, by way of neighbours without it on
/// these sides.
fn distances(blocks: &Blocks, has: &[bool], sides: &[Side]) -> Vec<Option<usize>> {
    let mut distances = vec![None; blocks.len()];
    let mut open = VecDeque::from([(blocks.scope, 0)]);
    while let Some((block, distance)) = open.pop_front() {
        if distances[block].is_none() && !has[block] {
            distances[block] = Some(distance);
            let near = sides.iter().flat_map(|&side| blocks.neighbours(block, side));
            open.extend(near.map(|&near| (near, distance + 1)));
        }
    }
    distances
}

/// The stop at a block, if it has neighbours on this side that have the base.
fn stop(
    blocks: &Blocks,
    steps: &mut Steps,
    base: &Path,
    has: &[bool],
    (block, side, way): (usize, Side, Way),
) -> Option<Stop> {
    let near = blocks.neighbours(block, side).iter().copied();
    let holders: Vec<usize> = near.filter(|&near| has[near]).collect();
    let holder = holder(blocks, steps, base, &holders)?;
    let (visit, event) = blocks.last_visit(block, side);
    let why = why(blocks, steps, base, has, event);
    Some(Stop { at: blocks.id(block), side, way, visit, holder, holders: blocks.ids(&holders), why })
}

/// The first of these blocks that assumes a path by which it has the base; else the first, which
/// has it from others.
pub(super) fn holder(blocks: &Blocks, steps: &mut Steps, base: &Path, holders: &[usize]) -> Option<Holder> {
    let assuming = holders.iter().copied().find(|&holder| assumed(blocks, holder, base).is_some());
    let block = assuming.or(holders.first().copied())?;
    match assumed(blocks, block, base) {
        Some(node) => {
            let step = steps.assumed(block, node);
            Some(Holder { block: blocks.id(block), path: blocks.path(node).clone(), step })
        }
        None => Some(held(blocks, steps, block, blocks.showing(block, base).first().copied()?)),
    }
}

/// A block that holds a path in the end.
pub(super) fn held(blocks: &Blocks, steps: &mut Steps, block: usize, node: NodeId) -> Holder {
    let step = steps.held(block, node);
    Holder { block: blocks.id(block), path: blocks.path(node).clone(), step }
}

fn assumed(blocks: &Blocks, block: usize, base: &Path) -> Option<NodeId> {
    blocks.replay.assumed(block).iter().copied().find(|&node| shows(blocks.path(node), base))
}

/// Why nothing that shows the base came in when the block was last visited.
fn why(blocks: &Blocks, steps: &mut Steps, base: &Path, has: &[bool], last: &Visit) -> Why {
    let joined = &last.joined[..];
    let lacking: Vec<usize> = joined.iter().copied().filter(|&near| !has[near]).collect();
    let Some(&first) = joined.first() else {
        if last.unfinished.len() == last.passed_over.len() {
            return Why::Unfinished;
        }
        return Why::SomeUnfinished(blocks.ids(&last.unfinished));
    };
    if !lacking.is_empty() {
        return Why::Lacking(blocks.ids(&lacking));
    }
    let lacks = |node: NodeId| joined.iter().copied().find(|&near| !blocks.replay.holds(near, node));
    let of_first = blocks.showing(first, base);
    if of_first.iter().any(|&node| lacks(node).is_none()) {
        return Why::TooLate;
    }
    let mut by = |block: usize| held(blocks, steps, block, blocks.showing(block, base)[0]);
    let other = lacks(of_first[0]).expect("no path of the first is the same in all");
    Why::Different { one: by(first), other: by(other) }
}
