//! From which blocks a path comes, and in which forms these assume it.

use super::bases::on_the_way;
use super::steps::{How, Step};
use crate::ids::BlockId;
use crate::path::Path;

/// An assumed path, and the blocks from which it came. Where some blocks read it and others assume
/// it without a read, there is an origin for each.
#[derive(Clone, Debug, PartialEq, Eq, Hash)]
pub struct Origin {
    /// The path, with its spans and its `reactive` as the first of the blocks assumes it.
    pub path: Path,
    /// The blocks that assume it, ascending. There is at least one.
    pub blocks: Vec<BlockId>,
    /// Of blocks that read it the instruction of each; else none.
    pub read_at: Vec<u32>,
}

/// An origin on its way: the blocks in the order in which they are found, each with its
/// instruction.
struct Found<'s> {
    path: &'s Path,
    own: Vec<(BlockId, Option<u32>)>,
}

impl Found<'_> {
    fn origin(mut self) -> Origin {
        self.own.sort();
        let blocks = self.own.iter().map(|(block, _)| *block).collect();
        let read_at = self.own.iter().filter_map(|(_, read_at)| *read_at).collect();
        Origin { path: self.path.clone(), blocks, read_at }
    }
}

/// The assumed paths that the path of a step comes from: itself, or such as reduction made into it.
pub(super) fn origins(steps: &[Step], step: usize) -> Vec<Origin> {
    let mut found: Vec<Found> = Vec::new();
    for Step { block, path, how } in on_the_way(steps, step).into_iter().map(|step| &steps[step]) {
        let How::Assumed { .. } = how else { continue };
        let read_at = how.read_at();
        let is_same = |found: &&mut Found| {
            found.path.same_entries(path) && found.own[0].1.is_some() == read_at.is_some()
        };
        match found.iter_mut().find(is_same) {
            Some(found) => found.own.push((*block, read_at)),
            None => found.push(Found { path, own: vec![(*block, read_at)] }),
        }
    }
    found.into_iter().map(Found::origin).collect()
}
