//! What would be known if one raw read that is not kept were kept.

use super::bases::{deciding_paths, knows};
use crate::ids::NodeId;
use crate::job::Job;
use crate::path::Path;
use crate::replay::{Propagation, Replay};
use std::collections::HashMap;

/// How many reads are tried for one base, so that a job with many reads of it is explained in
/// little time.
pub(super) const MOST: usize = 64;

/// The replays of a job in which one read is marked as immutable, by the same propagation. A replay
/// serves all bases.
pub(super) struct Trials<'a> {
    job: &'a Job,
    propagation: Propagation,
    scope: usize,
    /// The paths of the scope block, by the places of the block and of the read; `None` where the
    /// job would have too many nodes.
    found: HashMap<(usize, usize), Option<Vec<(NodeId, Path)>>>,
}

impl<'a> Trials<'a> {
    pub(super) fn new(job: &'a Job, propagation: Propagation, scope: usize) -> Self {
        Self { job, propagation, scope, found: HashMap::new() }
    }

    /// Whether the base would be known in the scope block if this read alone were kept, besides
    /// those that are.
    pub(super) fn would_know(&mut self, block: usize, read: usize, base: &Path) -> Option<bool> {
        let Self { job, propagation, scope, .. } = *self;
        let trial = self.found.entry((block, read)).or_insert_with(|| {
            let kept = job.with_immutable_read(block, read);
            Replay::by(propagation, &kept).ok().map(|replay| deciding_paths(&replay, scope))
        });
        trial.as_ref().map(|paths| knows(paths, base))
    }
}
