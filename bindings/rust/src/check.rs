//! The checks of a job's parts: counts, ids, length.

use crate::build_error::{BuildError, Field, Wrong};
use crate::bytes::lengths;
use crate::ids::BlockId;
use crate::job::Block;
use crate::limits;
use crate::path::Path;
use crate::raw_read::RawRead;
use crate::refusal::Record;
use std::collections::HashSet;

/// The parts of a job, which may make none.
#[derive(Clone, Copy)]
pub(crate) struct Parts<'p> {
    pub(crate) scope: BlockId,
    pub(crate) blocks: &'p [Block],
    pub(crate) candidates: &'p [Path],
}

impl Parts<'_> {
    /// That the stage refuses a job of these parts at most by 9.
    pub(crate) fn check(self) -> Result<(), BuildError> {
        self.check_counts()?;
        self.check_ids()?;
        self.check_length()
    }

    fn check_counts(self) -> Result<(), BuildError> {
        let job = |field, wrong| BuildError { record: Record::Header, block: None, field, wrong };
        if self.blocks.is_empty() {
            return Err(job(Field::Blocks, Wrong::Missing));
        }
        let of_job = |field| move |wrong| job(field, wrong);
        at_most(limits::BLOCKS, self.blocks.len()).map_err(of_job(Field::Blocks))?;
        at_most(limits::CANDIDATES, self.candidates.len()).map_err(of_job(Field::Candidates))?;
        let mut blocks = self.blocks.iter().enumerate();
        blocks.try_for_each(|(place, block)| check_block(place, block))?;
        let mut candidates = self.candidates.iter().enumerate();
        candidates.try_for_each(|(place, path)| check_path(Record::Candidate(place), None, path))
    }

    /// Looks for ids that stand twice, then for ids that name no block: refusal 7 comes before 8.
    pub(crate) fn check_ids(self) -> Result<(), BuildError> {
        let mut ids = HashSet::new();
        if let Some((place, block)) =
            self.blocks.iter().enumerate().find(|(_, block)| !ids.insert(block.id()))
        {
            let (record, id) = (Record::Block(place), block.id());
            return Err(BuildError { record, block: Some(id), field: Field::Id, wrong: Wrong::Repeated(id) });
        }
        let mut of_one_block = HashSet::new();
        self.find_predecessor(|block, id| !of_one_block.insert((block, id)), Wrong::Repeated)?;
        self.find_predecessor(|_, id| !ids.contains(&id), Wrong::Unknown)?;
        if ids.contains(&self.scope) {
            return Ok(());
        }
        let wrong = Wrong::Unknown(self.scope);
        Err(BuildError { record: Record::Header, block: None, field: Field::Scope, wrong })
    }

    /// That no predecessor is bad.
    fn find_predecessor(
        self,
        mut bad: impl FnMut(usize, BlockId) -> bool,
        wrong: impl Fn(BlockId) -> Wrong,
    ) -> Result<(), BuildError> {
        for (place, block) in self.blocks.iter().enumerate() {
            let found = block.predecessors().iter().position(|&id| bad(place, id));
            if let Some(at) = found {
                return Err(BuildError {
                    record: Record::Block(place),
                    block: Some(block.id()),
                    field: Field::Predecessor(at),
                    wrong: wrong(block.predecessors()[at]),
                });
            }
        }
        Ok(())
    }

    /// That the job is not too long; otherwise which record passes the limit.
    fn check_length(self) -> Result<(), BuildError> {
        let bytes: usize = self.records().map(|(.., length)| length).sum();
        let mut end = 0;
        let passes = self.records().find(|(.., length)| {
            end += length;
            end > limits::JOB_BYTES
        });
        match passes {
            None => Ok(()),
            Some((record, block, _)) => {
                let wrong = Wrong::TooMany { count: bytes, most: limits::JOB_BYTES };
                Err(BuildError { record, block, field: Field::Bytes, wrong })
            }
        }
    }

    /// The records with their lengths in bytes, and the ids of the blocks that they belong to.
    fn records(&self) -> impl Iterator<Item = (Record, Option<BlockId>, usize)> + '_ {
        let blocks = self.blocks.iter().enumerate().flat_map(|(place, block)| {
            let id = Some(block.id());
            let head = (Record::Block(place), id, lengths::block(block.predecessors().len()));
            let reads = block.raw_reads().iter().enumerate().map(move |(at, read)| {
                (Record::RawRead { block: place, read: at }, id, lengths::raw_read(read.path.entries().len()))
            });
            let assumed = block.assumed().iter().enumerate().map(move |(path, assumed)| {
                (Record::Assumed { block: place, path }, id, lengths::path(assumed.entries().len()))
            });
            std::iter::once(head).chain(reads).chain(assumed)
        });
        let candidates = self.candidates.iter().enumerate();
        let candidates = candidates
            .map(|(place, path)| (Record::Candidate(place), None, lengths::path(path.entries().len())));
        std::iter::once((Record::Header, None, lengths::HEADER)).chain(blocks).chain(candidates)
    }
}

fn at_most(most: usize, count: usize) -> Result<(), Wrong> {
    if count <= most {
        Ok(())
    } else {
        Err(Wrong::TooMany { count, most })
    }
}

fn check_block(place: usize, block: &Block) -> Result<(), BuildError> {
    let (record, id) = (Record::Block(place), Some(block.id()));
    let of_block = |field| move |wrong| BuildError { record, block: id, field, wrong };
    at_most(limits::PREDECESSORS, block.predecessors().len()).map_err(of_block(Field::Predecessors))?;
    at_most(limits::ASSUMED, block.assumed().len()).map_err(of_block(Field::Assumed))?;
    at_most(limits::RAW_READS, block.raw_reads().len()).map_err(of_block(Field::RawReads))?;
    let mut reads = block.raw_reads().iter().enumerate();
    reads.try_for_each(|(at, read)| check_read(Record::RawRead { block: place, read: at }, id, read))?;
    let mut assumed = block.assumed().iter().enumerate();
    assumed.try_for_each(|(path, assumed)| check_path(Record::Assumed { block: place, path }, id, assumed))
}

fn check_read(record: Record, block: Option<BlockId>, read: &RawRead) -> Result<(), BuildError> {
    if read.range_start > limits::RANGE_START {
        return Err(BuildError { record, block, field: Field::RangeStart, wrong: Wrong::LargestStart });
    }
    check_path(record, block, &read.path)
}

fn check_path(record: Record, block: Option<BlockId>, path: &Path) -> Result<(), BuildError> {
    at_most(limits::ENTRIES, path.entries().len()).map_err(|wrong| BuildError {
        record,
        block,
        field: Field::Entries,
        wrong,
    })
}
