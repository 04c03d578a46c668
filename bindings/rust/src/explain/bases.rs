//! Which bases are known in the scope block, and by which of its paths.

use super::blocks::Blocks;
use super::paths::{shows, starts_optional};
use super::steps::{How, Step, Steps};
use super::trials::Trials;
use super::unknown::{self, Unknown};
use super::Mismatch;
use crate::ids::{BlockId, NodeId};
use crate::job::Job;
use crate::path::Path;
use crate::replay::Replay;

/// What the scope block knows of a base, the value from which an entry is read.
#[derive(Clone, Debug, PartialEq, Eq, Hash)]
pub enum Base {
    /// It is neither null nor undefined.
    Known(Known),
    /// It may be null or undefined.
    Unknown(Unknown),
}

/// By what a base is known.
#[derive(Clone, Debug, PartialEq, Eq, Hash)]
pub struct Known {
    /// The path of the scope block that shows it: the base itself, or one that goes on from it
    /// plainly.
    pub path: Path,
    /// How the scope block came to have that path.
    pub step: usize,
    /// A block that does not have the base, from which control comes or to which it goes on, and
    /// which was left out.
    pub left_out: Option<LeftOut>,
}

/// A block that was left out on the way of a path, since it was being visited, and does not have
/// the base in the end.
#[derive(Clone, Copy, Debug, PartialEq, Eq, Hash)]
pub struct LeftOut {
    /// The step in which it was left out.
    pub step: usize,
    /// The block.
    pub block: BlockId,
}

/// The paths of the scope block, in the order in which they decide.
pub(super) struct Bases<'a> {
    blocks: Blocks<'a>,
    steps: Steps<'a>,
    trials: Trials<'a>,
    paths: Vec<(NodeId, Path)>,
}

/// The paths that the scope block holds in the end, in the order in which they decide: those with
/// an optional first entry come first; otherwise the order is that of the nodes.
pub(super) fn deciding_paths(replay: &Replay, scope: usize) -> Vec<(NodeId, Path)> {
    let mut paths: Vec<(NodeId, Path)> = replay.held(scope).map(|node| (node, replay.path(node))).collect();
    paths.sort_by_key(|(_, path)| !starts_optional(path));
    paths
}

/// The path that decides about a base: the first with its names.
fn deciding<'p>(paths: &'p [(NodeId, Path)], base: &Path) -> Option<&'p (NodeId, Path)> {
    paths.iter().find(|(_, path)| base.names_start(path))
}

/// Whether the base is known by these paths.
pub(super) fn knows(paths: &[(NodeId, Path)], base: &Path) -> bool {
    deciding(paths, base).is_some_and(|(_, path)| shows(path, base))
}

impl<'a> Bases<'a> {
    pub(super) fn new(job: &'a Job, replay: &'a Replay) -> Result<Self, Mismatch> {
        let scope = job.place_of(job.scope()).ok_or(Mismatch)?;
        let paths = deciding_paths(replay, scope);
        let trials = Trials::new(job, replay.propagation(), scope);
        Ok(Self { blocks: Blocks::new(job, replay, scope), steps: Steps::new(job, replay), trials, paths })
    }

    pub(super) fn into_steps(self) -> Vec<Step> {
        self.steps.found
    }

    pub(super) fn is_known(&self, base: &Path) -> bool {
        knows(&self.paths, base)
    }

    /// The base of each entry of a returned path. The path's own marks must agree.
    pub(super) fn of_entries(&mut self, returned: &Path) -> Result<Vec<Base>, Mismatch> {
        let each = returned.entries().iter().enumerate();
        each.map(|(level, entry)| {
            let base = returned.prefix(level);
            match (entry.optional, self.is_known(&base)) {
                (true, false) => Ok(Base::Unknown(self.unknown(&base))),
                (false, true) => self.known(&base).map(Base::Known),
                _ => Err(Mismatch),
            }
        })
        .collect()
    }

    fn known(&mut self, base: &Path) -> Result<Known, Mismatch> {
        let (node, path) = deciding(&self.paths, base).cloned().ok_or(Mismatch)?;
        let step = self.steps.held(self.blocks.scope, node);
        let left_out = self.left_out(step, base);
        Ok(Known { path, step, left_out })
    }

    /// Why the base is not known.
    pub(super) fn unknown(&mut self, base: &Path) -> Unknown {
        let open = deciding(&self.paths, base).map(|(node, _)| *node);
        let here = self.paths.iter().find(|(_, path)| shows(path, base)).map(|(node, _)| *node);
        unknown::unknown(&self.blocks, &mut self.steps, &mut self.trials, base, (open, here))
    }

    /// Of the blocks that were left out on the way and do not have the base in the end, the last.
    fn left_out(&self, step: usize, base: &Path) -> Option<LeftOut> {
        let (steps, has) = (&self.steps.found, self.blocks.having(base));
        let lacking = on_the_way(steps, step).into_iter().filter_map(|step| {
            let How::TookOver { left_out, .. } = &steps[step].how else {
                return None;
            };
            let lacks = |block: &BlockId| !has[self.blocks.place(*block)];
            left_out.iter().copied().find(lacks).map(|block| LeftOut { step, block })
        });
        lacking.max_by_key(|left_out| steps[left_out.step].how.moment())
    }
}

/// The step and those by which its path came, in whatever form, each once.
pub(super) fn on_the_way(steps: &[Step], step: usize) -> Vec<usize> {
    let mut seen = vec![false; steps.len()];
    let mut way = vec![step];
    seen[step] = true;
    let mut next = 0;
    while let Some(&step) = way.get(next) {
        next += 1;
        let new = steps[step].how.from().iter().filter(|&&from| !std::mem::replace(&mut seen[from], true));
        way.extend(new.collect::<Vec<_>>());
    }
    way
}
