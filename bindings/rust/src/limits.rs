//! The limits of a job. One beyond them is refused by the stage, and cannot be built here.

/// The most bytes of a job.
pub const JOB_BYTES: usize = 32_768;
/// The fewest bytes of an out buffer for answer and sheet. None is longer.
pub const OUT_BYTES: usize = 24_576;
/// The fewest bytes of an out buffer for a thin job. None is longer.
pub const THIN_BYTES: usize = 32_768;
/// The most blocks of a job, which has at least one.
pub const BLOCKS: usize = 128;
/// The most candidates of a job.
pub const CANDIDATES: usize = 64;
/// The most predecessors of a block.
pub const PREDECESSORS: usize = 64;
/// The most raw reads of a block.
pub const RAW_READS: usize = 255;
/// The largest start of a raw read's range. One more would be refused by 10.
pub const RANGE_START: u32 = u32::MAX - 1;
/// The most assumed paths of a block.
pub const ASSUMED: usize = 255;
/// The most entries of a path.
pub const ENTRIES: usize = 16;
/// The most nodes of the registry when propagation ends.
pub const NODES: usize = 512;

#[cfg(feature = "library")]
const _: () = {
    assert!(JOB_BYTES == crate::interface::JOB_BYTES);
    assert!(OUT_BYTES == crate::interface::OUT_BYTES);
    assert!(THIN_BYTES == crate::interface::THIN_BYTES);
};
