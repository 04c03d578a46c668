//! Where the parts of a job stand in its text.

use super::error::Position;
use crate::build_error::{BuildError, Field, Wrong};
use crate::refusal::Record;

#[derive(Default)]
pub(super) struct Positions {
    pub(super) scope: Option<Position>,
    pub(super) blocks: Vec<BlockPositions>,
    pub(super) candidates: Vec<Position>,
}

#[derive(Default)]
pub(super) struct BlockPositions {
    pub(super) id: Option<Position>,
    pub(super) predecessors: Vec<Position>,
    pub(super) raw_reads: Vec<Position>,
    pub(super) assumed: Vec<Position>,
}

impl Positions {
    /// The part that keeps the text from being a job.
    pub(super) fn of(&self, why: &BuildError) -> Option<Position> {
        let beyond = match why.wrong() {
            Wrong::TooMany { most, .. } => most,
            _ => 0,
        };
        match (why.record(), why.field()) {
            (_, Field::Blocks) => self.blocks.get(beyond)?.id,
            (_, Field::Candidates) => self.candidates.get(beyond).copied(),
            (Record::Block(block), field) => self.blocks.get(block)?.of(field, beyond),
            (Record::RawRead { block, read }, _) => self.blocks.get(block)?.raw_reads.get(read).copied(),
            (Record::Assumed { block, path }, _) => self.blocks.get(block)?.assumed.get(path).copied(),
            (Record::Candidate(place), _) => self.candidates.get(place).copied(),
            (Record::Header | Record::End, _) => self.scope,
        }
    }
}

impl BlockPositions {
    fn of(&self, field: Field, beyond: usize) -> Option<Position> {
        match field {
            Field::Predecessors => self.predecessors.get(beyond).copied(),
            Field::Predecessor(place) => self.predecessors.get(place).copied(),
            Field::RawReads => self.raw_reads.get(beyond).copied(),
            Field::Assumed => self.assumed.get(beyond).copied(),
            _ => self.id,
        }
    }
}
