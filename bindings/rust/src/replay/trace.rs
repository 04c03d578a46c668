//! What happened: visit by visit, which neighbours a block took paths from, which it passed over,
//! and what came of it.

use crate::ids::NodeId;

/// From which neighbours a block takes paths over when it is visited.
#[derive(Clone, Copy, Debug, PartialEq, Eq, Hash, PartialOrd, Ord)]
pub enum Propagation {
    /// From those that are Done: that of [`answer`](crate::answer()) and
    /// [`sheet`](crate::sheet()).
    Existing,
    /// From all where every one is Done, else from none: that of
    /// [`strict_answer`](crate::strict_answer) and [`strict_sheet`](crate::strict_sheet).
    Strict,
}

/// The side of a block on which a walk looks for neighbours.
#[derive(Clone, Copy, Debug, PartialEq, Eq, Hash, PartialOrd, Ord)]
pub enum Side {
    /// The blocks before it: the forward walk.
    Predecessors,
    /// The blocks after it: the backward walk.
    Successors,
}

/// A visit of a block. Blocks are given by their place in the job, from 0.
#[derive(Clone, Debug, PartialEq, Eq, Hash)]
pub struct Visit {
    /// The round, from 1.
    pub round: u8,
    /// Which of the round's two walks.
    pub side: Side,
    /// The block.
    pub block: usize,
    /// The neighbours on that side that were joined, in the walk's order. All of them were Done.
    pub joined: Vec<usize>,
    /// The other neighbours on that side, which were passed over, in the walk's order. By the
    /// existing propagation they were Active. By the strict one they are all on that side, if there
    /// are any: some were Active, and the others were Done.
    pub passed_over: Vec<usize>,
    /// The neighbours on that side that were Active, in the walk's order.
    pub unfinished: Vec<usize>,
    /// The nodes that all joined neighbours had and the block had not, ascending.
    pub came_in: Vec<NodeId>,
    /// What reduction replaced after that, in order.
    pub replaced: Vec<Replaced>,
}

/// A node that reduction replaced in a block's set.
#[derive(Clone, Debug, PartialEq, Eq, Hash)]
pub struct Replaced {
    /// The node that was taken out.
    pub from: NodeId,
    /// The node that was put in: the same names, with one or more optional entries made plain.
    pub to: NodeId,
    /// The nodes of the set from which those entries are read.
    pub bases: Vec<NodeId>,
    /// The nodes that were added to the registry for it, ascending: those of its path that were not
    /// there.
    pub added: Vec<NodeId>,
}
