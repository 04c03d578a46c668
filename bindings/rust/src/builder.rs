//! The builder, which makes no malformed job.

use crate::build_error::BuildError;
use crate::check::Parts;
use crate::ids::BlockId;
use crate::job::{Block, Job};
use crate::path::Path;

/// Collects the parts of a job and checks them together at the end.
///
/// ```
/// use scope_deps::{Block, BlockId, IdentifierId, Job, Path};
///
/// let chain = (0..3).map(|id| Block::new(BlockId(id)).after((0..id).last().map(BlockId)));
/// let variables = [5, 6].map(|id| Path::new(IdentifierId(id)));
/// let job = Job::builder(BlockId(2)).blocks(chain).candidates(variables).build()?;
/// assert_eq!(job, "scope 2 block 0 block 1 after 0 block 2 after 1 candidate 5, 6".parse()?);
/// # Ok::<(), Box<dyn std::error::Error>>(())
/// ```
#[derive(Clone, Debug)]
#[must_use = "a builder makes no job before `build`"]
pub struct JobBuilder {
    pub(crate) scope: BlockId,
    pub(crate) blocks: Vec<Block>,
    pub(crate) candidates: Vec<Path>,
}

impl JobBuilder {
    /// Adds a block after those that are there.
    pub fn block(mut self, block: Block) -> Self {
        self.blocks.push(block);
        self
    }

    /// Adds these blocks after those that are there.
    pub fn blocks(mut self, blocks: impl IntoIterator<Item = Block>) -> Self {
        self.blocks.extend(blocks);
        self
    }

    /// Adds a candidate after those that are there.
    pub fn candidate(mut self, path: Path) -> Self {
        self.candidates.push(path);
        self
    }

    /// Adds these candidates after those that are there.
    pub fn candidates(mut self, paths: impl IntoIterator<Item = Path>) -> Self {
        self.candidates.extend(paths);
        self
    }

    /// The job, whose bytes are written here and kept in it.
    ///
    /// # Errors
    ///
    /// The first reason why these parts make no job: one of the [`limits`](crate::limits) is
    /// passed, an id stands twice, or an id names no block.
    pub fn build(self) -> Result<Job, BuildError> {
        let Self { scope, blocks, candidates } = self;
        Parts { scope, blocks: &blocks, candidates: &candidates }.check()?;
        Ok(Job::of_checked(scope, blocks, candidates))
    }
}
