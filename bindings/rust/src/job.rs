//! Jobs and their blocks.

use crate::builder::JobBuilder;
use crate::bytes;
use crate::ids::{BlockId, IdentifierId};
use crate::names::Names;
use crate::path::{Path, Property};
use crate::raw_read::RawRead;
use crate::refusal::Refusal;
use std::collections::HashSet;
use std::fmt;
use std::hash::{Hash, Hasher};

/// A block: its id, its predecessors in order, and the paths assumed to be there when it runs.
/// These are given as such, or as raw reads, of which those that are kept are assumed.
#[derive(Clone, Debug, PartialEq, Eq, Hash)]
pub struct Block {
    id: BlockId,
    predecessors: Vec<BlockId>,
    raw_reads: Vec<RawRead>,
    assumed: Vec<Path>,
}

impl Block {
    /// A block with no predecessor, no raw read and no assumed path.
    #[must_use]
    pub fn new(id: BlockId) -> Self {
        Self { id, predecessors: Vec::new(), raw_reads: Vec::new(), assumed: Vec::new() }
    }

    /// The block with these predecessors after those that it has.
    #[must_use]
    pub fn after(mut self, predecessors: impl IntoIterator<Item = BlockId>) -> Self {
        self.predecessors.extend(predecessors);
        self
    }

    /// The block with these raw reads after those that it has.
    #[must_use]
    pub fn reading(mut self, reads: impl IntoIterator<Item = RawRead>) -> Self {
        self.raw_reads.extend(reads);
        self
    }

    /// The block with these assumed paths after those that it has.
    #[must_use]
    pub fn assuming(mut self, paths: impl IntoIterator<Item = Path>) -> Self {
        self.assumed.extend(paths);
        self
    }

    /// The block's id.
    #[must_use]
    pub fn id(&self) -> BlockId {
        self.id
    }

    /// The predecessors, in the job's order.
    #[must_use]
    pub fn predecessors(&self) -> &[BlockId] {
        &self.predecessors
    }

    /// The raw reads, kept or not, in the job's order.
    #[must_use]
    pub fn raw_reads(&self) -> &[RawRead] {
        &self.raw_reads
    }

    /// The paths that are given as assumed, in the job's order. [`all_assumed`](Self::all_assumed)
    /// has those of raw reads, too.
    #[must_use]
    pub fn assumed(&self) -> &[Path] {
        &self.assumed
    }

    /// The raw reads that are kept, in the job's order.
    pub(crate) fn kept_reads(&self) -> impl Iterator<Item = &RawRead> {
        self.raw_reads.iter().filter(|read| read.is_kept())
    }

    /// All paths that the block assumes, in the order in which the stage enters them: those of the
    /// raw reads that are kept, and then those of [`assumed`](Self::assumed).
    ///
    /// ```
    /// use scope_deps::{Block, BlockId};
    ///
    /// let block = Block::new(BlockId(7))
    ///     .assuming(["3".parse()?])
    ///     .reading(["1 at 4 range 0 to 9 scope 0 to 9".parse()?, "2 at 5 range 0 to 1".parse()?]);
    /// let assumed: Vec<String> = block.all_assumed().map(|path| path.to_string()).collect();
    /// assert_eq!(assumed, ["2", "3"]);
    /// # Ok::<(), Box<dyn std::error::Error>>(())
    /// ```
    pub fn all_assumed(&self) -> impl Iterator<Item = &Path> {
        self.kept_reads().map(|read| &read.path).chain(&self.assumed)
    }
}

/// A well-formed job. The stage refuses it at most by 9, [`Refusal::ManyNodes`].
///
/// It is shown in the notation of `docs/NOTATION.md` and read from it. It keeps its bytes, which
/// are written once, when it is built; two jobs are equal where their bytes are. Names that a text
/// gives are kept beside them, and play no part in equality.
///
/// ```
/// use scope_deps::{Block, BlockId, Job};
///
/// let job = Job::builder(BlockId(7))
///     .block(Block::new(BlockId(7)).assuming(["reactive 1".parse()?]))
///     .candidate("reactive 1@5.10@6".parse()?)
///     .build()?;
/// let text = "
///     scope 7
///     block 7 assumes reactive 1
///     candidate reactive 1@5.10@6";
/// assert_eq!(text.parse::<Job>()?, job);
/// assert_eq!(Job::from_bytes(job.as_bytes())?, job);
/// # Ok::<(), Box<dyn std::error::Error>>(())
/// ```
#[derive(Clone)]
pub struct Job {
    scope: BlockId,
    blocks: Vec<Block>,
    candidates: Vec<Path>,
    /// They say all of the above.
    bytes: Vec<u8>,
    names: Names,
}

impl Job {
    /// A builder of a job with this scope block.
    pub fn builder(scope: BlockId) -> JobBuilder {
        JobBuilder { scope, blocks: Vec::new(), candidates: Vec::new() }
    }

    /// The job of parts that were checked.
    pub(crate) fn of_checked(scope: BlockId, blocks: Vec<Block>, candidates: Vec<Path>) -> Self {
        let bytes = bytes::write_job(scope, &blocks, &candidates);
        Self { scope, blocks, candidates, bytes, names: Names::new() }
    }

    /// The job in these bytes.
    ///
    /// # Errors
    ///
    /// The refusal that the stage gives these bytes, one from 2 to 8 or 10, with its place.
    pub fn from_bytes(bytes: &[u8]) -> Result<Self, Refusal> {
        let JobBuilder { scope, blocks, candidates } = bytes::read_job(bytes)?;
        Ok(Self { scope, blocks, candidates, bytes: bytes.to_vec(), names: Names::new() })
    }

    /// The job's bytes, in the format of `docs/FORMAT.md`.
    #[must_use]
    pub fn as_bytes(&self) -> &[u8] {
        &self.bytes
    }

    /// How many nodes the job has before the first round: one for each path that is assumed, or
    /// that an assumed one starts with, however often it is there. With more than 512 the stage
    /// refuses the job by 9, [`ManyNodes`](crate::ManyNodes); to fewer reduction may add others.
    ///
    /// [`Sheet::nodes_before_rounds`](crate::Sheet::nodes_before_rounds) is the same number; this
    /// one is there for a job that has no sheet, too.
    ///
    /// ```
    /// use scope_deps::Job;
    ///
    /// let job: Job = "scope 7 block 7 assumes 1, 1?.10.11, 1?.10".parse()?;
    /// assert_eq!(job.nodes_before_rounds(), 3);
    /// # Ok::<(), Box<dyn std::error::Error>>(())
    /// ```
    #[must_use]
    pub fn nodes_before_rounds(&self) -> usize {
        let mut nodes: HashSet<(IdentifierId, Vec<(bool, Property)>)> = HashSet::new();
        for path in self.blocks.iter().flat_map(Block::all_assumed) {
            let entries: Vec<_> =
                path.entries().iter().map(|entry| (entry.optional, entry.property)).collect();
            nodes.extend((0..=entries.len()).map(|count| (path.identifier(), entries[..count].to_vec())));
        }
        nodes.len()
    }

    /// The same job with one raw read marked as known to be immutable, by the places of its block
    /// and of itself.
    #[cfg(feature = "explain")]
    pub(crate) fn with_immutable_read(&self, block: usize, read: usize) -> Self {
        let mut blocks = self.blocks.clone();
        blocks[block].raw_reads[read].known_immutable = true;
        Self::of_checked(self.scope, blocks, self.candidates.clone())
    }

    /// A copy of the job's bytes.
    #[must_use]
    pub fn to_bytes(&self) -> Vec<u8> {
        self.bytes.clone()
    }

    /// The job's bytes, without a copy.
    #[must_use]
    pub fn into_bytes(self) -> Vec<u8> {
        self.bytes
    }

    /// The scope block's id, the blocks and the candidates, without a copy. Names are left behind.
    #[must_use]
    pub fn into_parts(self) -> (BlockId, Vec<Block>, Vec<Path>) {
        (self.scope, self.blocks, self.candidates)
    }

    /// The same job with these names in place of those that it has.
    #[must_use]
    pub fn named(self, names: Names) -> Self {
        Self { names, ..self }
    }

    /// The names of the job's variables and properties, for people. The bytes do not have them.
    #[must_use]
    pub fn names(&self) -> &Names {
        &self.names
    }

    /// The scope block's id.
    #[must_use]
    pub fn scope(&self) -> BlockId {
        self.scope
    }

    /// The blocks, in the job's order.
    #[must_use]
    pub fn blocks(&self) -> &[Block] {
        &self.blocks
    }

    /// The candidates, in the job's order.
    #[must_use]
    pub fn candidates(&self) -> &[Path] {
        &self.candidates
    }

    /// The place of a block in the job's order, from 0.
    #[must_use]
    pub fn place_of(&self, id: BlockId) -> Option<usize> {
        self.blocks.iter().position(|block| block.id == id)
    }
}

impl PartialEq for Job {
    fn eq(&self, other: &Self) -> bool {
        self.bytes == other.bytes
    }
}

impl Eq for Job {}

impl Hash for Job {
    fn hash<H: Hasher>(&self, state: &mut H) {
        self.bytes.hash(state);
    }
}

/// Without the bytes, which say the same again.
impl fmt::Debug for Job {
    fn fmt(&self, f: &mut fmt::Formatter<'_>) -> fmt::Result {
        let Self { scope, blocks, candidates, bytes: _, names } = self;
        let mut shown = f.debug_struct("Job");
        shown.field("scope", scope).field("blocks", blocks).field("candidates", candidates);
        shown.field("names", names).finish()
    }
}
