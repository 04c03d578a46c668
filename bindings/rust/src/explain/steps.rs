//! How a block came to have a path: which blocks assume it, and by way of which blocks it was
//! passed on.

use super::arrivals::{Arrivals, Moment, END};
use crate::ids::{BlockId, NodeId};
use crate::job::Job;
use crate::path::Path;
use crate::raw_read::RawRead;
use crate::replay::{Replay, Side};
use std::collections::HashMap;

/// How a block came to have a path.
#[derive(Clone, Debug, PartialEq, Eq, Hash)]
pub struct Step {
    /// The block.
    pub block: BlockId,
    /// The path, in the form that it had then.
    pub path: Path,
    /// How it came there.
    pub how: How,
}

/// How a path came to a block. Steps that this rests on are given by their places in
/// [`super::Explanation::steps`].
#[derive(Clone, Debug, PartialEq, Eq, Hash)]
pub enum How {
    /// The block assumes it.
    Assumed {
        /// The raw read by which it does, the first that is kept, if there is one.
        read: Option<RawRead>,
    },
    /// The block took it over from its neighbours on one side.
    TookOver {
        /// The number of the visit in [`Replay::visits`].
        visit: usize,
        /// On which side they are.
        side: Side,
        /// How the neighbours that were joined came to have it.
        from: Vec<usize>,
        /// The neighbours on that side that were passed over: they were being visited.
        left_out: Vec<BlockId>,
    },
    /// It took the place of another form, since the block had the bases of entries that were
    /// optional in that form.
    Made {
        /// The number of the visit in [`Replay::visits`].
        visit: usize,
        /// The place in [`crate::replay::Visit::replaced`].
        place: usize,
        /// How the block came to have the other form.
        from: usize,
        /// How the block came to have the bases.
        bases: Vec<usize>,
    },
}

impl How {
    /// The number of the visit in which it happened; `None` for what is assumed.
    #[must_use]
    pub fn visit(&self) -> Option<usize> {
        match *self {
            Self::Assumed { .. } => None,
            Self::TookOver { visit, .. } | Self::Made { visit, .. } => Some(visit),
        }
    }

    /// The instruction that reads a property of the path, where the block assumes it by a raw read.
    #[must_use]
    pub fn read_at(&self) -> Option<u32> {
        match self {
            Self::Assumed { read } => read.as_ref().map(|read| read.instruction),
            _ => None,
        }
    }

    /// The moment, by which steps are put in order.
    pub(super) fn moment(&self) -> Moment {
        match *self {
            Self::Assumed { .. } => None,
            Self::TookOver { visit, .. } => Some((visit, 0)),
            Self::Made { visit, place, .. } => Some((visit, place + 1)),
        }
    }

    /// The steps by which the path itself came, in whatever form.
    pub(super) fn from(&self) -> &[usize] {
        match self {
            Self::Assumed { .. } => &[],
            Self::TookOver { from, .. } => from,
            Self::Made { from, .. } => std::slice::from_ref(from),
        }
    }
}

/// The steps found so far.
pub(super) struct Steps<'a> {
    job: &'a Job,
    replay: &'a Replay,
    arrivals: Arrivals,
    places: HashMap<(usize, NodeId, Moment), usize>,
    pub(super) found: Vec<Step>,
    /// The steps whose `how` is still to be found.
    open: Vec<(usize, NodeId, Moment)>,
}

impl<'a> Steps<'a> {
    pub(super) fn new(job: &'a Job, replay: &'a Replay) -> Self {
        let arrivals = Arrivals::new(replay, job.blocks().len());
        Self { job, replay, arrivals, places: HashMap::new(), found: Vec::new(), open: Vec::new() }
    }

    /// How the block came to have what it holds in the end.
    pub(super) fn held(&mut self, block: usize, node: NodeId) -> usize {
        let step = self.had(block, node, END);
        self.fill();
        step
    }

    /// How the block came to have what was replaced.
    pub(super) fn replaced(&mut self, visit: usize, place: usize) -> usize {
        let event = &self.replay.visits()[visit];
        let step = self.had(event.block, event.replaced[place].from, Some((visit, place + 1)));
        self.fill();
        step
    }

    /// That the block assumes it.
    pub(super) fn assumed(&mut self, block: usize, node: NodeId) -> usize {
        let step = self.place_of((block, node, None));
        self.fill();
        step
    }

    /// How the block came to have the node that it had before a moment.
    fn had(&mut self, block: usize, node: NodeId, before: Moment) -> usize {
        self.place_of((block, node, self.arrivals.last_before(block, node, before)))
    }

    fn place_of(&mut self, key: (usize, NodeId, Moment)) -> usize {
        if let Some(&place) = self.places.get(&key) {
            return place;
        }
        let (block, node, _) = key;
        let (block, path) = (self.job.blocks()[block].id(), self.replay.path(node));
        self.found.push(Step { block, path, how: How::Assumed { read: None } });
        self.places.insert(key, self.found.len() - 1);
        self.open.push(key);
        self.found.len() - 1
    }

    fn fill(&mut self) {
        while let Some(key) = self.open.pop() {
            let place = self.places[&key];
            self.found[place].how = self.how(key);
        }
    }

    /// The first raw read by which the block assumes a node, if there is one.
    fn read(&self, block: usize, node: NodeId) -> Option<RawRead> {
        let reads = self.job.blocks()[block].kept_reads().zip(self.replay.assumed(block));
        let mut of_node = reads.filter(|(_, own)| **own == node);
        of_node.next().map(|(read, _)| read.clone())
    }

    fn how(&mut self, (block, node, moment): (usize, NodeId, Moment)) -> How {
        let replay = self.replay;
        let Some((visit, place)) = moment else {
            return How::Assumed { read: self.read(block, node) };
        };
        let event = &replay.visits()[visit];
        if place == 0 {
            let from = event.joined.iter().map(|&near| self.had(near, node, moment)).collect();
            let left_out = event.passed_over.iter().map(|&near| self.job.blocks()[near].id()).collect();
            return How::TookOver { visit, side: event.side, from, left_out };
        }
        let replaced = &event.replaced[place - 1];
        let from = self.had(block, replaced.from, moment);
        let bases = replaced.bases.iter().map(|&base| self.had(block, base, moment)).collect();
        How::Made { visit, place: place - 1, from, bases }
    }
}
