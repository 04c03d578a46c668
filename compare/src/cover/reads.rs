//! Raw reads: which are kept and why, and what lies at an edge.

use super::{Features, add};
use crate::job::{Block, Job, RawRead, limits};
use crate::oracle::{All, Oracle};
use crate::propagation::Propagation;
use crate::read_mistakes::ReadMistake;
use crate::reader::read_job;
use crate::reads::{all_assumed, counted, kept};
use crate::thin::same_path;

/// The features of a job's raw reads.
pub fn read_features(job: &Job, found: &mut Features) {
    for block in &job.blocks {
        block.reads.iter().for_each(|read| one_read_features(read, found));
        block_features(block, found);
    }
    let [kept, dropped] = counted(job);
    add(found, "reads: all dropped", kept == 0 && dropped > 0);
    add(found, "reads: all kept", kept > 0 && dropped == 0);
    add(found, "reads: some kept and some dropped", kept > 0 && dropped > 0);
    let later = job.blocks.iter().skip(1).any(|block| !block.reads.is_empty());
    add(found, "reads: in a later block alone", later && job.blocks[0].reads.is_empty());
    add(found, "reads: of a root that a dropped read would make first", dropped_first(job));
}

fn one_read_features(read: &RawRead, found: &mut Features) {
    let RawRead { instruction, range_start, range_end, has_scope, scope_start, scope_end, .. } = *read;
    let is_long = u64::from(range_end) > u64::from(range_start) + 1;
    let in_scope = (scope_start..scope_end).contains(&instruction);
    if !read.known_immutable {
        add(found, "reads: dropped", is_long && has_scope && in_scope);
        add(found, "reads: kept for its range alone", !is_long && has_scope && in_scope);
        add(found, "reads: kept for want of a scope alone", is_long && !has_scope && in_scope);
        add(found, "reads: kept outside its scope alone", is_long && has_scope && !in_scope);
    }
    add(found, "reads: kept as known immutable alone", {
        read.known_immutable && is_long && has_scope && in_scope
    });
    if is_long && has_scope && scope_start < scope_end {
        add(found, "reads: instruction at scope start", instruction == scope_start);
        add(found, "reads: instruction before scope start", instruction.checked_add(1) == Some(scope_start));
        add(found, "reads: instruction at scope end", instruction == scope_end);
        add(found, "reads: instruction before scope end", instruction + 1 == scope_end);
    }
    for more in 0..3 {
        let ends = u64::from(range_end) == u64::from(range_start) + more;
        add(found, &format!("reads: range end {more} after its start"), ends && has_scope && in_scope);
    }
    add(found, "reads: range end before its start", range_end < range_start);
    add(found, "reads: the largest range start", range_start == limits::RANGE_START);
    let length = read.path.entries.len();
    add(found, &format!("reads: {length} entries"), length == 0 || length == limits::ENTRIES);
    let largest = [instruction, range_end, scope_start, scope_end].contains(&u32::MAX);
    add(found, "reads: 4294967295 in another field", largest);
}

fn block_features(block: &Block, found: &mut Features) {
    let reads = &block.reads;
    add(found, "reads: 255 in a block", reads.len() == limits::READS);
    add(found, "reads: alone in a block", !reads.is_empty() && block.assumed.is_empty());
    let assumed = |read: &RawRead| block.assumed.iter().any(|path| same_path(path, &read.path));
    add(found, "reads: a kept one is assumed too", reads.iter().any(|read| kept(read) && assumed(read)));
    add(found, "reads: a dropped one is assumed too", reads.iter().any(|read| !kept(read) && assumed(read)));
    let repeated = |(place, read): (usize, &RawRead)| reads[..place].iter().any(|other| other == read);
    add(found, "reads: two are equal", reads.iter().enumerate().any(repeated));
}

/// Whether the first read of the first block, which would be entered first, is dropped, and the
/// root of its identifier is made by a path of another reactive or span.
fn dropped_first(job: &Job) -> bool {
    let Some(first) = job.blocks[0].reads.first().filter(|read| !kept(read)) else { return false };
    let maker = all_assumed(job).find(|path| path.identifier == first.path.identifier);
    maker.is_some_and(|path| (path.reactive, path.span) != (first.path.reactive, first.path.span))
}

/// Mistakes are looked for in jobs of at most so many blocks, since each takes a run.
const MOST_BLOCKS: usize = 24;

/// Which mistakes with raw reads would differ.
pub fn mistake_features(bytes: &[u8], out_len: usize, all: &All, oracle: &mut Oracle, found: &mut Features) {
    let Ok(job) = read_job(bytes, out_len) else { return };
    if job.blocks.len() > MOST_BLOCKS || job.blocks.iter().all(|block| block.reads.is_empty()) {
        return;
    }
    for mistake in ReadMistake::ALL {
        let wrong =
            oracle.with_mistake(mistake, |oracle| oracle.sheet(Propagation::Existing, bytes, out_len));
        add(found, &format!("reads: {} would differ", mistake.text()), wrong != all.existing.sheet);
    }
}
