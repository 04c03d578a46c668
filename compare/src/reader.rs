//! Reads a job, or finds the refusal that it gets: one from 1 to 8, or 10.
//!
//! Written from the specification alone, so that it stands beside any other
//! reader as a second opinion.

use crate::job::{Block, Entry, Job, Path, Property, RawRead, limits};

/// A refusal's number.
pub type Refusal = u8;

pub const SHORT_BUFFER: Refusal = 1;
pub const LONG_JOB: Refusal = 2;
pub const MISSING_BYTE: Refusal = 3;
pub const WRONG_MARK: Refusal = 4;
pub const OUT_OF_RANGE: Refusal = 5;
pub const EXTRA_BYTE: Refusal = 6;
pub const REPEATED_ID: Refusal = 7;
pub const UNKNOWN_BLOCK: Refusal = 8;
pub const MANY_NODES: Refusal = 9;
pub const LARGEST_START: Refusal = 10;

/// The job in `bytes`, for an answer or a sheet in an out buffer of `out_len` bytes.
pub fn read_job(bytes: &[u8], out_len: usize) -> Result<Job, Refusal> {
    read_job_for(bytes, out_len, limits::OUT_BYTES)
}

/// The job in `bytes`, for an operation whose shortest out buffer has `least` bytes.
pub fn read_job_for(bytes: &[u8], out_len: usize, least: usize) -> Result<Job, Refusal> {
    if out_len < least {
        return Err(SHORT_BUFFER);
    }
    if bytes.len() > limits::JOB_BYTES {
        return Err(LONG_JOB);
    }
    let mut reader = Reader::new(bytes);
    let job = reader.job()?;
    if !reader.at_end() {
        return Err(EXTRA_BYTE);
    }
    refuse_repeats(&job)?;
    refuse_unknown_blocks(&job)?;
    Ok(job)
}

/// Where the range start stands that 10 refuses, if one does.
pub fn largest_start(bytes: &[u8]) -> Option<usize> {
    let mut reader = Reader::new(bytes);
    let refused = reader.job() == Err(LARGEST_START);
    refused.then(|| bytes.len() - reader.rest.len() - size_of::<u32>())
}

/// The bytes still to be read.
pub struct Reader<'b> {
    rest: &'b [u8],
}

impl<'b> Reader<'b> {
    pub fn new(bytes: &'b [u8]) -> Self {
        Self { rest: bytes }
    }

    pub fn at_end(&self) -> bool {
        self.rest.is_empty()
    }

    pub fn take<const N: usize>(&mut self) -> Result<[u8; N], Refusal> {
        let (field, rest) = self.rest.split_first_chunk::<N>().ok_or(MISSING_BYTE)?;
        self.rest = rest;
        Ok(*field)
    }

    pub fn mark(&mut self, due: &[u8; 2]) -> Result<(), Refusal> {
        if self.take::<2>()? == *due { Ok(()) } else { Err(WRONG_MARK) }
    }

    pub fn u8(&mut self) -> Result<u8, Refusal> {
        self.take().map(u8::from_le_bytes)
    }

    pub fn u16(&mut self) -> Result<u16, Refusal> {
        self.take().map(u16::from_le_bytes)
    }

    pub fn u32(&mut self) -> Result<u32, Refusal> {
        self.take().map(u32::from_le_bytes)
    }

    pub fn u64(&mut self) -> Result<u64, Refusal> {
        self.take().map(u64::from_le_bytes)
    }

    pub fn flag(&mut self) -> Result<bool, Refusal> {
        match self.u8()? {
            0 => Ok(false),
            1 => Ok(true),
            _ => Err(OUT_OF_RANGE),
        }
    }

    /// A path under its mark; PA, CA and DE have the same fields.
    pub fn path(&mut self, mark: &[u8; 2]) -> Result<Path, Refusal> {
        self.mark(mark)?;
        self.path_fields()
    }

    /// The fields of PA from the identifier on, which RD ends with too.
    fn path_fields(&mut self) -> Result<Path, Refusal> {
        let identifier = self.u32()?;
        let reactive = self.flag()?;
        let span = self.u32()?;
        let count = in_range(self.u8()?.into(), 0, limits::ENTRIES)?;
        let entries = (0..count).map(|_| self.entry()).collect::<Result<_, _>>()?;
        Ok(Path { identifier, reactive, span, entries })
    }

    fn entry(&mut self) -> Result<Entry, Refusal> {
        let optional = self.flag()?;
        let number = self.flag()?;
        let value = self.u64()?;
        let span = self.u32()?;
        let property = if number { Property::Number(value) } else { Property::Name(value) };
        Ok(Entry { optional, property, span })
    }

    fn raw_read(&mut self) -> Result<RawRead, Refusal> {
        self.mark(b"RD")?;
        Ok(RawRead {
            instruction: self.u32()?,
            range_start: self.range_start()?,
            range_end: self.u32()?,
            has_scope: self.flag()?,
            scope_start: self.u32()?,
            scope_end: self.u32()?,
            known_immutable: self.flag()?,
            path: self.path_fields()?,
        })
    }

    /// One more than a range start must fit.
    fn range_start(&mut self) -> Result<u32, Refusal> {
        match self.u32()? {
            u32::MAX => Err(LARGEST_START),
            start => Ok(start),
        }
    }

    fn block(&mut self) -> Result<Block, Refusal> {
        self.mark(b"BL")?;
        let id = self.u32()?;
        let predecessor_count = in_range(self.u8()?.into(), 0, limits::PREDECESSORS)?;
        let assumed_count = self.u8()?;
        let raw_count = self.u8()?;
        let predecessors = (0..predecessor_count).map(|_| self.u32()).collect::<Result<_, _>>()?;
        let reads = (0..raw_count).map(|_| self.raw_read()).collect::<Result<_, _>>()?;
        let assumed = (0..assumed_count).map(|_| self.path(b"PA")).collect::<Result<_, _>>()?;
        Ok(Block { id, predecessors, reads, assumed })
    }

    /// The whole job, without a look at what follows it or at its ids.
    pub fn job(&mut self) -> Result<Job, Refusal> {
        self.mark(b"HD")?;
        let block_count = in_range(self.u16()?.into(), 1, limits::BLOCKS)?;
        let candidate_count = in_range(self.u16()?.into(), 0, limits::CANDIDATES)?;
        let scope = self.u32()?;
        let blocks = (0..block_count).map(|_| self.block()).collect::<Result<_, _>>()?;
        let candidates = (0..candidate_count).map(|_| self.path(b"CA")).collect::<Result<_, _>>()?;
        Ok(Job { scope, blocks, candidates })
    }
}

fn in_range(value: usize, least: usize, most: usize) -> Result<usize, Refusal> {
    if (least..=most).contains(&value) { Ok(value) } else { Err(OUT_OF_RANGE) }
}

fn refuse_repeats(job: &Job) -> Result<(), Refusal> {
    let ids = sorted(job.blocks.iter().map(|block| block.id));
    let all_differ = |numbers: &[u32]| numbers.windows(2).all(|pair| pair[0] != pair[1]);
    let predecessors_differ = |block: &Block| all_differ(&sorted(block.predecessors.iter().copied()));
    if all_differ(&ids) && job.blocks.iter().all(predecessors_differ) { Ok(()) } else { Err(REPEATED_ID) }
}

fn sorted(numbers: impl Iterator<Item = u32>) -> Vec<u32> {
    let mut numbers: Vec<u32> = numbers.collect();
    numbers.sort_unstable();
    numbers
}

fn refuse_unknown_blocks(job: &Job) -> Result<(), Refusal> {
    let ids = sorted(job.blocks.iter().map(|block| block.id));
    let mut named = job.blocks.iter().flat_map(|block| &block.predecessors).chain([&job.scope]);
    if named.all(|id| ids.binary_search(id).is_ok()) { Ok(()) } else { Err(UNKNOWN_BLOCK) }
}
