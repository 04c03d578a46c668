//! The refusals of the stage, and where in a job each was met.

use crate::ids::BlockId;
use std::fmt;

/// Why the stage turned a job back. The names are those of the stage's own code.
///
/// The stage gives a number. For 3 to 8 and 10 this crate's reader finds the place, for display
/// only; it is `None` where that reader would not refuse by the same number.
///
/// ```
/// use scope_deps::{Job, Record, Refusal};
///
/// // A header of one block and no candidate, and then another mark than `BL`.
/// match Job::from_bytes(b"HD\x01\0\0\0\x07\0\0\0CA") {
///     Err(Refusal::WrongMark(Some(place))) => {
///         assert_eq!((place.byte, place.record), (10, Record::Block(0)));
///     }
///     other => panic!("{other:?}"),
/// }
/// ```
#[derive(Clone, Copy, Debug, PartialEq, Eq, Hash)]
pub enum Refusal {
    /// 1: the out buffer has fewer than 24,576 bytes, or fewer than 32,768 where a thin job is to
    /// be written.
    ShortBuffer,
    /// 2: the job has more than 32,768 bytes.
    LongJob,
    /// 3: a field needs a byte past the job's end.
    MissingByte(Option<Place>),
    /// 4: another mark stands where one is due.
    WrongMark(Option<Place>),
    /// 5: a field's value is outside its range.
    OutOfRange(Option<Place>),
    /// 6: a byte follows the last candidate.
    ExtraByte(Option<Place>),
    /// 7: two blocks have one id, or one block names a predecessor twice.
    RepeatedId(Option<Place>),
    /// 8: a predecessor, or the scope block, is no block of the job.
    UnknownBlock(Option<Place>),
    /// 9: the registry has more than 512 nodes when propagation ends.
    ManyNodes,
    /// 10: a range start is 4,294,967,295, where start + 1 would not fit.
    LargestStart(Option<Place>),
}

impl Refusal {
    /// The number in the specification.
    #[must_use]
    pub fn number(&self) -> u8 {
        match self {
            Self::ShortBuffer => 1,
            Self::LongJob => 2,
            Self::MissingByte(_) => 3,
            Self::WrongMark(_) => 4,
            Self::OutOfRange(_) => 5,
            Self::ExtraByte(_) => 6,
            Self::RepeatedId(_) => 7,
            Self::UnknownBlock(_) => 8,
            Self::ManyNodes => 9,
            Self::LargestStart(_) => 10,
        }
    }

    /// The place at which it was met, for 3 to 8 and 10.
    #[must_use]
    pub fn place(&self) -> Option<Place> {
        match self {
            Self::MissingByte(place)
            | Self::WrongMark(place)
            | Self::OutOfRange(place)
            | Self::ExtraByte(place)
            | Self::RepeatedId(place)
            | Self::UnknownBlock(place)
            | Self::LargestStart(place) => *place,
            Self::ShortBuffer | Self::LongJob | Self::ManyNodes => None,
        }
    }

    /// The refusal of a number, without a place, if it is a number of one.
    #[must_use]
    pub fn from_number(number: u8) -> Option<Self> {
        Some(match number {
            1 => Self::ShortBuffer,
            2 => Self::LongJob,
            3 => Self::MissingByte(None),
            4 => Self::WrongMark(None),
            5 => Self::OutOfRange(None),
            6 => Self::ExtraByte(None),
            7 => Self::RepeatedId(None),
            8 => Self::UnknownBlock(None),
            9 => Self::ManyNodes,
            10 => Self::LargestStart(None),
            _ => return None,
        })
    }

    /// The name, which is the same in `docs/FORMAT.md`, in the stage's code and here.
    #[must_use]
    pub fn name(&self) -> &'static str {
        match self {
            Self::ShortBuffer => "ShortBuffer",
            Self::LongJob => "LongJob",
            Self::MissingByte(_) => "MissingByte",
            Self::WrongMark(_) => "WrongMark",
            Self::OutOfRange(_) => "OutOfRange",
            Self::ExtraByte(_) => "ExtraByte",
            Self::RepeatedId(_) => "RepeatedId",
            Self::UnknownBlock(_) => "UnknownBlock",
            Self::ManyNodes => "ManyNodes",
            Self::LargestStart(_) => "LargestStart",
        }
    }

    /// What the name stands for, in the words of `docs/FORMAT.md`.
    #[must_use]
    pub fn meaning(&self) -> &'static str {
        match self {
            Self::ShortBuffer => {
                "the out buffer has fewer than 24,576 bytes, or fewer than 32,768 where a thin job is to be written"
            }
            Self::LongJob => "the job has more than 32,768 bytes",
            Self::MissingByte(_) => "a field needs a byte past the job's end",
            Self::WrongMark(_) => "another mark stands where one is due",
            Self::OutOfRange(_) => "a field's value is outside its range",
            Self::ExtraByte(_) => "a byte follows the last candidate",
            Self::RepeatedId(_) => "two blocks have one id, or one block names a predecessor twice",
            Self::UnknownBlock(_) => "a predecessor, or the scope block, is no block of the job",
            Self::ManyNodes => "the registry has more than 512 nodes when propagation ends",
            Self::LargestStart(_) => "a range start is 4,294,967,295, where start + 1 would not fit",
        }
    }
}

impl fmt::Display for Refusal {
    fn fmt(&self, f: &mut fmt::Formatter<'_>) -> fmt::Result {
        write!(f, "refusal {}, {}: {}", self.number(), self.name(), self.meaning())?;
        match self.place() {
            Some(place) => write!(f, "; {place}"),
            None => Ok(()),
        }
    }
}

impl std::error::Error for Refusal {}

/// Refusal 9, the only one that a [`Job`](crate::Job) can meet: from its answer or its sheet, and
/// never where it is thinned.
#[derive(Clone, Copy, Debug, PartialEq, Eq, Hash)]
pub struct ManyNodes;

impl ManyNodes {
    /// Its number in the specification.
    pub const NUMBER: u8 = 9;
}

impl From<ManyNodes> for Refusal {
    fn from(_: ManyNodes) -> Self {
        Self::ManyNodes
    }
}

impl fmt::Display for ManyNodes {
    fn fmt(&self, f: &mut fmt::Formatter<'_>) -> fmt::Result {
        Refusal::from(*self).fmt(f)
    }
}

impl std::error::Error for ManyNodes {}

/// Where in a job's bytes a refusal was met.
#[derive(Clone, Copy, Debug, PartialEq, Eq, Hash)]
pub struct Place {
    /// The first byte of the field, from 0.
    pub byte: usize,
    /// The record that the field belongs to.
    pub record: Record,
    /// What the field says.
    pub field: &'static str,
    /// What stands there in its place, for refusals 4 and 5.
    pub found: Option<Found>,
    /// For a refusal within the raw reads of a block, or where the bytes end within its
    /// predecessors, how many raw reads the block says that it has. In bytes that were written
    /// before blocks had that count, another field stands there.
    pub raw_count: Option<RawCount>,
}

impl fmt::Display for Place {
    fn fmt(&self, f: &mut fmt::Formatter<'_>) -> fmt::Result {
        write!(f, "at byte {}, in {}: {}", self.byte, self.record, self.field)?;
        match self.found {
            None => {}
            Some(Found::Mark([first, second])) => write!(f, ", found {first:02X} {second:02X}")?,
            Some(Found::Value(value)) => write!(f, ", found {value}")?,
        }
        match self.raw_count {
            None => Ok(()),
            Some(RawCount { block, count, byte }) => {
                let reads = if count == 1 { "raw read" } else { "raw reads" };
                write!(f, "; block {block} says that it has {count} {reads} (byte {byte})")
            }
        }
    }
}

/// What stands in the place of a field's value.
#[derive(Clone, Copy, Debug, PartialEq, Eq, Hash)]
pub enum Found {
    /// Another mark.
    Mark([u8; 2]),
    /// A value outside the field's range.
    Value(usize),
}

/// How many raw reads a block says that it has.
#[derive(Clone, Copy, Debug, PartialEq, Eq, Hash)]
pub struct RawCount {
    /// The block.
    pub block: BlockId,
    /// How many.
    pub count: usize,
    /// The byte that says it, from 0.
    pub byte: usize,
}

/// A record of a job. Places are counted from 0, and shown counted from 1.
#[derive(Clone, Copy, Debug, PartialEq, Eq, Hash)]
pub enum Record {
    /// `HD`.
    Header,
    /// The `BL` of the block at this place.
    Block(usize),
    /// An `RD` of a block.
    RawRead {
        /// The block's place.
        block: usize,
        /// The read's place among the block's.
        read: usize,
    },
    /// A `PA` of a block.
    Assumed {
        /// The block's place.
        block: usize,
        /// The path's place among the block's.
        path: usize,
    },
    /// The `CA` at this place.
    Candidate(usize),
    /// What follows the last record.
    End,
}

impl fmt::Display for Record {
    fn fmt(&self, f: &mut fmt::Formatter<'_>) -> fmt::Result {
        match self {
            Self::Header => write!(f, "the HD record"),
            Self::Block(block) => write!(f, "BL record {}", block + 1),
            Self::RawRead { block, read } => write!(f, "RD record {} of BL record {}", read + 1, block + 1),
            Self::Assumed { block, path } => write!(f, "PA record {} of BL record {}", path + 1, block + 1),
            Self::Candidate(candidate) => write!(f, "CA record {}", candidate + 1),
            Self::End => write!(f, "what follows the last record"),
        }
    }
}
