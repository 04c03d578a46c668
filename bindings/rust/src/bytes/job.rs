//! Reads a job, or finds the refusal with its place, one from 2 to 8 or 10.

use super::fields::{Fault, Fields, Malformed};
use crate::build_error::{BuildError, Field, Wrong};
use crate::builder::JobBuilder;
use crate::check::Parts;
use crate::ids::BlockId;
use crate::job::{Block, Job};
use crate::limits;
use crate::refusal::{Place, RawCount, Record, Refusal};

/// Where the scope block's id stands in the header.
const SCOPE_BYTE: usize = 6;
/// Where a block's id stands in its record.
const ID_BYTE: usize = 2;
/// Where the count of raw reads stands in a block's record.
const RAW_COUNT_BYTE: usize = 8;
/// Where the first predecessor stands in a block's record.
const PREDECESSORS_BYTE: usize = 9;

/// The parts of the job in these bytes, which are checked here.
pub(crate) fn read_job(bytes: &[u8]) -> Result<JobBuilder, Refusal> {
    if bytes.len() > limits::JOB_BYTES {
        return Err(Refusal::LongJob);
    }
    let mut fields = Fields::new(bytes);
    let mut block_bytes = Vec::new();
    let (blocks, candidates, scope) = header(&mut fields).map_err(within(Record::Header, None))?;
    let mut job = Job::builder(scope);
    for block in 0..blocks {
        block_bytes.push(fields.at());
        job = job.block(read_block(&mut fields, block)?);
    }
    for candidate in 0..candidates {
        let path = fields.path(*b"CA", "the mark CA").map_err(within(Record::Candidate(candidate), None))?;
        job = job.candidate(path);
    }
    fields.end().map_err(within(Record::End, None))?;
    let parts = Parts { scope, blocks: &job.blocks, candidates: &job.candidates };
    parts.check_ids().map_err(|bad| bad_id(bad, &block_bytes))?;
    Ok(job)
}

/// How many blocks and candidates there are, and the scope block.
fn header(fields: &mut Fields) -> Result<(usize, usize, BlockId), Malformed> {
    fields.mark(*b"HD", "the mark HD")?;
    let blocks = fields.long_count(1..=limits::BLOCKS, "how many blocks (1 to 128)")?;
    let candidates = fields.long_count(0..=limits::CANDIDATES, "how many candidates (0 to 64)")?;
    let scope = fields.u32("the scope block's id")?;
    Ok((blocks, candidates, BlockId(scope)))
}

fn read_block(fields: &mut Fields, place: usize) -> Result<Block, Refusal> {
    let (raw_count, predecessors, assumed) =
        block_head(fields).map_err(within(Record::Block(place), None))?;
    let mut block = Block::new(raw_count.block);
    for _ in 0..predecessors {
        let id = fields.u32("a predecessor's id").map_err(within(Record::Block(place), Some(raw_count)))?;
        block = block.after([BlockId(id)]);
    }
    for read in 0..raw_count.count {
        let record = Record::RawRead { block: place, read };
        block = block.reading([fields.raw_read().map_err(within(record, Some(raw_count)))?]);
    }
    for path in 0..assumed {
        let record = Record::Assumed { block: place, path };
        block = block.assuming([fields.path(*b"PA", "the mark PA").map_err(within(record, None))?]);
    }
    Ok(block)
}

/// How many raw reads a block has, and how many predecessors and assumed paths.
fn block_head(fields: &mut Fields) -> Result<(RawCount, usize, usize), Malformed> {
    let byte = fields.at() + RAW_COUNT_BYTE;
    fields.mark(*b"BL", "the mark BL")?;
    let id = BlockId(fields.u32("the block's id")?);
    let predecessors = fields.count(0..=limits::PREDECESSORS, "how many predecessors (0 to 64)")?;
    let assumed = fields.count(0..=limits::ASSUMED, "how many assumed paths (0 to 255)")?;
    let raw_reads = fields.count(0..=limits::RAW_READS, "how many raw reads (0 to 255)")?;
    Ok((RawCount { block: id, count: raw_reads, byte }, predecessors, assumed))
}

/// The refusal for a field of this record, after this count where it bears on the field.
fn within(record: Record, raw_count: Option<RawCount>) -> impl Fn(Malformed) -> Refusal {
    move |Malformed { fault, byte, field, found }| {
        let place = Some(Place { byte, record, field, found, raw_count });
        match fault {
            Fault::MissingByte => Refusal::MissingByte(place),
            Fault::WrongMark => Refusal::WrongMark(place),
            Fault::OutOfRange => Refusal::OutOfRange(place),
            Fault::ExtraByte => Refusal::ExtraByte(place),
            Fault::LargestStart => Refusal::LargestStart(place),
        }
    }
}

/// The refusal for an id, where the block records start at these bytes.
fn bad_id(bad: BuildError, block_bytes: &[usize]) -> Refusal {
    let start = match bad.record {
        Record::Block(block) => block_bytes[block],
        _ => 0,
    };
    let (byte, field) = match bad.field {
        Field::Predecessor(place) => (start + PREDECESSORS_BYTE + 4 * place, "a predecessor's id"),
        Field::Id => (start + ID_BYTE, "the block's id"),
        _ => (SCOPE_BYTE, "the scope block's id"),
    };
    let place = Some(Place { byte, record: bad.record, field, found: None, raw_count: None });
    match bad.wrong {
        Wrong::Repeated(_) => Refusal::RepeatedId(place),
        _ => Refusal::UnknownBlock(place),
    }
}
