//! What keeps parts from making a job: which record, which of its fields, and what is wrong with
//! it.

use crate::ids::BlockId;
use crate::limits;
use crate::refusal::Record;
use std::fmt;

/// Why parts make no job. It names the block or the path, the field of it, and what is wrong there.
///
/// ```
/// use scope_deps::{Block, BlockId, Field, Job, Record, Wrong};
///
/// let unknown = Job::builder(BlockId(7))
///     .block(Block::new(BlockId(7)).after([BlockId(7), BlockId(9)]))
///     .build()
///     .unwrap_err();
/// assert_eq!((unknown.record(), unknown.block()), (Record::Block(0), Some(BlockId(7))));
/// assert_eq!(unknown.field(), Field::Predecessor(1));
/// assert_eq!(unknown.wrong(), Wrong::Unknown(BlockId(9)));
/// assert_eq!(unknown.to_string(), "predecessor 9 of block 7 is no block of the job");
/// ```
#[derive(Clone, Copy, Debug, PartialEq, Eq, Hash)]
pub struct BuildError {
    pub(crate) record: Record,
    pub(crate) block: Option<BlockId>,
    pub(crate) field: Field,
    pub(crate) wrong: Wrong,
}

/// A field of a part of a job. Places are counted from 0.
#[derive(Clone, Copy, Debug, PartialEq, Eq, Hash)]
#[non_exhaustive]
pub enum Field {
    /// The job's blocks, as many as there are.
    Blocks,
    /// The job's candidates.
    Candidates,
    /// The job's scope block.
    Scope,
    /// A block's id.
    Id,
    /// A block's predecessors.
    Predecessors,
    /// The predecessor at this place.
    Predecessor(usize),
    /// A block's raw reads.
    RawReads,
    /// The start of a raw read's range.
    RangeStart,
    /// A block's assumed paths.
    Assumed,
    /// A path's entries.
    Entries,
    /// All bytes of the job up to the end of the record.
    Bytes,
}

/// What is wrong with a field.
#[derive(Clone, Copy, Debug, PartialEq, Eq, Hash)]
#[non_exhaustive]
pub enum Wrong {
    /// There is none, and one is needed.
    Missing,
    /// There are more than are allowed.
    TooMany {
        /// How many there are, in the whole job.
        count: usize,
        /// How many are allowed.
        most: usize,
    },
    /// The id stands there for the second time.
    Repeated(BlockId),
    /// No block of the job has the id.
    Unknown(BlockId),
    /// The start is 4,294,967,295, where start + 1 would not fit.
    LargestStart,
}

impl BuildError {
    /// The block or the path in which it was found, by its place; the header for what is the job's
    /// own.
    #[must_use]
    pub fn record(&self) -> Record {
        self.record
    }

    /// The id of the block that the record is, or belongs to.
    #[must_use]
    pub fn block(&self) -> Option<BlockId> {
        self.block
    }

    /// The field of that record.
    #[must_use]
    pub fn field(&self) -> Field {
        self.field
    }

    /// What is wrong with the field.
    #[must_use]
    pub fn wrong(&self) -> Wrong {
        self.wrong
    }

    /// The record as a person speaks of it.
    fn part(&self) -> String {
        match (self.record, self.block) {
            (Record::Block(_), Some(id)) => format!("block {id}"),
            (Record::RawRead { read, .. }, Some(id)) => format!("raw read {} of block {id}", read + 1),
            (Record::Assumed { path, .. }, Some(id)) => format!("assumed path {} of block {id}", path + 1),
            (Record::Candidate(place), _) => format!("candidate {}", place + 1),
            _ => "the job".to_string(),
        }
    }
}

impl fmt::Display for BuildError {
    fn fmt(&self, f: &mut fmt::Formatter<'_>) -> fmt::Result {
        let part = self.part();
        match (self.wrong, self.field) {
            (Wrong::Missing, _) => write!(f, "a job has at least one block, and at most {}", limits::BLOCKS),
            (Wrong::TooMany { count, most }, Field::Bytes) => {
                write!(f, "the job takes {count} bytes, and at most {most} are allowed; {part} passes them")
            }
            (Wrong::TooMany { count, most }, field) => {
                write!(f, "{part} has {count} {}, and at most {most} are allowed", plural(field))
            }
            (Wrong::LargestStart, _) => {
                let most = limits::RANGE_START;
                write!(f, "the range of {part} starts at {}, and at most {most} is allowed", u32::MAX)
            }
            (Wrong::Repeated(id), Field::Id) => write!(f, "two blocks have the id {id}"),
            (Wrong::Repeated(id), _) => write!(f, "{part} names predecessor {id} twice"),
            (Wrong::Unknown(id), Field::Scope) => write!(f, "the scope block {id} is no block of the job"),
            (Wrong::Unknown(id), _) => write!(f, "predecessor {id} of {part} is no block of the job"),
        }
    }
}

/// What a field has several of.
fn plural(field: Field) -> &'static str {
    match field {
        Field::Blocks => "blocks",
        Field::Candidates => "candidates",
        Field::Predecessors => "predecessors",
        Field::RawReads => "raw reads",
        Field::Assumed => "assumed paths",
        Field::Entries => "entries",
        Field::Scope | Field::Id | Field::Predecessor(_) => "ids",
        Field::RangeStart => "range starts",
        Field::Bytes => "bytes",
    }
}

impl std::error::Error for BuildError {}
