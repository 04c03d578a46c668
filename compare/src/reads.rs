//! Which raw reads are kept, from the specification's sentences alone: a second opinion beside the
//! Rust's own `is_immutable_at_instr` (`src/reference/reads.rs`), and the only one where the Rust
//! is absent.

use crate::job::{Block, Job, Path, RawRead};

/// A read is kept unless its path is mutable at the instruction and not known immutable.
pub fn kept(read: &RawRead) -> bool {
    read.known_immutable || !is_mutable(read)
}

/// The range ends after the number that follows its start, there is a scope, and the instruction
/// lies in the scope's range, whose start is part of it and whose end is not.
fn is_mutable(read: &RawRead) -> bool {
    let is_long = u64::from(read.range_end) > u64::from(read.range_start) + 1;
    is_long && read.has_scope && (read.scope_start..read.scope_end).contains(&read.instruction)
}

/// The assumed paths of a block: those of its reads that are kept, and then those that come ready.
pub fn assumed(block: &Block) -> impl Iterator<Item = &Path> {
    block.reads.iter().filter(|read| kept(read)).map(|read| &read.path).chain(&block.assumed)
}

/// The assumed paths of all blocks, in job order.
pub fn all_assumed(job: &Job) -> impl Iterator<Item = &Path> {
    job.blocks.iter().flat_map(assumed)
}

/// A read that is not kept: its range, from 0 to 2, is long enough, and it is made at 3, in a scope
/// from 0 to 9.
pub fn mutable(path: Path) -> RawRead {
    RawRead {
        instruction: 3,
        range_start: 0,
        range_end: 2,
        has_scope: true,
        scope_start: 0,
        scope_end: 9,
        known_immutable: false,
        path,
    }
}

/// The same read, kept since it is known immutable.
pub fn known_immutable(path: Path) -> RawRead {
    RawRead { known_immutable: true, ..mutable(path) }
}

/// How many raw reads of a job are kept, and how many are not.
pub fn counted(job: &Job) -> [usize; 2] {
    let mut counts = [0; 2];
    for read in job.blocks.iter().flat_map(|block| &block.reads) {
        counts[usize::from(!kept(read))] += 1;
    }
    counts
}

#[cfg(test)]
mod tests {
    use super::*;
    use crate::notation::{block, dropped, immutable, paths, read};

    #[test]
    fn each_condition_alone_keeps_a_read() {
        let mutable = || read("1", 3, (0, 2), Some((0, 9)));
        assert!(!kept(&mutable()) && kept(&immutable(mutable())));
        assert!(kept(&RawRead { range_end: 1, ..mutable() }));
        assert!(kept(&RawRead { has_scope: false, ..mutable() }));
        assert!(kept(&RawRead { scope_start: 4, ..mutable() }));
        assert!(kept(&RawRead { scope_end: 3, ..mutable() }));
    }

    #[test]
    fn the_edges() {
        let at = |instruction| kept(&read("1", instruction, (0, 2), Some((3, 9))));
        assert_eq!([2, 3, 8, 9].map(at), [true, false, false, true]);
        let ending = |end| kept(&read("1", 3, (5, end), Some((0, 9))));
        assert_eq!([0, 5, 6, 7].map(ending), [true, true, true, false]);
        let last = read("1", 3, (u32::MAX - 1, u32::MAX), Some((0, 9)));
        assert!(kept(&last) && !kept(&RawRead { range_start: u32::MAX - 2, ..last }));
    }

    #[test]
    fn kept_reads_come_before_the_paths_that_are_ready() {
        let reads = vec![read("1", 3, (0, 1), None), dropped("2"), immutable(dropped("3"))];
        let block = block(7, &[], "4, 1").reading(reads);
        assert!(assumed(&block).eq(&paths("1, 3, 4, 1")));
        assert_eq!(counted(&Job { scope: 7, blocks: vec![block], candidates: vec![] }), [2, 1]);
    }
}
