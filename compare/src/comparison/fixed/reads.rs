//! Raw reads: the numbers around each edge, and how many there are.

use super::{Fixed, fixed, one_block};
use crate::job::{Job, RawRead, limits};
use crate::reads::{known_immutable, mutable};
use crate::worst::{full_registry, path};

/// A job of one block with these reads; what each reads has an identifier of its own.
fn reading(reads: Vec<RawRead>) -> Job {
    let mut job = one_block(vec![], vec![path(1, 10, 2, false)]);
    job.blocks[0].reads = reads;
    for (read, identifier) in job.blocks[0].reads.iter_mut().zip(1..) {
        read.path.identifier = identifier;
    }
    job
}

/// Ranges around their starts, and scopes; the nodes tell which reads are kept.
pub fn edges(jobs: &mut Vec<Fixed>) {
    for start in [0, 1, 5, (1 << 31) - 1, 1 << 31, u32::MAX - 3, u32::MAX - 2, limits::RANGE_START] {
        for end in [-1, 0, 1, 2, 3].map(|more| start.wrapping_add_signed(more)) {
            for scope in [(4, 9), (0, 0), (u32::MAX - 2, u32::MAX), (9, 4)] {
                let name = format!("raw reads of range {start} to {end}, scope {} to {}", scope.0, scope.1);
                jobs.push(fixed(name, reading(around((start, end), scope)).to_bytes()));
            }
        }
    }
}

/// Reads at the start and the end of the scope and beside them, with the scope and without it,
/// known immutable and not.
fn around(range: (u32, u32), scope: (u32, u32)) -> Vec<RawRead> {
    let beside = |at: u32| [at.wrapping_sub(1), at, at.wrapping_add(1)];
    let instructions = [scope.0, scope.1].map(beside).concat();
    let flags = [(false, false), (false, true), (true, false), (true, true)];
    let read = |(instruction, (has_scope, known_immutable))| RawRead {
        instruction,
        range_start: range.0,
        range_end: range.1,
        has_scope,
        scope_start: scope.0,
        scope_end: scope.1,
        known_immutable,
        path: path(1, 10, 1, false),
    };
    let each = instructions.into_iter().flat_map(|instruction| flags.map(|flags| (instruction, flags)));
    each.map(read).collect()
}

/// How many there are, beside how many paths, and how many entries.
pub fn counts(jobs: &mut Vec<Fixed>) {
    let kinds =
        [("kept", known_immutable(path(1, 10, 1, false))), ("dropped", mutable(path(1, 10, 1, false)))];
    for (kind, read) in kinds {
        for count in [0, 1, 2, 254, 255, 256] {
            let mut job = reading(vec![read.clone(); count]);
            jobs.push(fixed(format!("{count} {kind} raw reads"), job.to_bytes()));
            job.blocks[0].assumed = vec![path(1, 10, 1, false); limits::ASSUMED];
            jobs.push(fixed(format!("{count} {kind} raw reads and 255 assumed paths"), job.to_bytes()));
        }
        for length in [0, 1, 15, 16, 17, 255] {
            let mut job = reading(vec![read.clone()]);
            job.blocks[0].reads[0].path = path(1, 10, length, length % 2 == 0);
            jobs.push(fixed(format!("{length} entries of a {kind} raw read"), job.to_bytes()));
        }
    }
}

/// 512 and 513 nodes by raw reads, and one read fewer.
pub fn nodes(jobs: &mut Vec<Fixed>) {
    for nodes in [511, 512, 513] {
        let mut job = one_block(vec![], vec![path(100, 0, 3, false)]);
        job.blocks[0].reads = full_registry(nodes).into_iter().map(known_immutable).collect();
        jobs.push(fixed(format!("{nodes} nodes by raw reads"), job.to_bytes()));
        job.blocks[0].reads[0].known_immutable = false;
        jobs.push(fixed(format!("{nodes} nodes by raw reads, one of them dropped"), job.to_bytes()));
    }
}
