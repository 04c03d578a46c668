//! What can be done wrong with raw reads where a job is thinned: they stay as they are, and are
//! compared with nothing.

use super::{Thinner, right, starts};
use crate::job::{Block, Job, Path, RawRead};
use crate::reads;
use crate::thin::{kept, same_path};

pub fn with_reads() -> Vec<(&'static str, Thinner)> {
    vec![
        ("assumed paths compared with raw reads", |job| {
            with_blocks(job, |block| without_read(block, |_| true))
        }),
        ("assumed paths compared with kept reads", |job| {
            with_blocks(job, |block| without_read(block, reads::kept))
        }),
        ("repeated raw reads dropped", |job| {
            with_blocks(job, |block| without_repeated_reads(block, |_| true))
        }),
        ("repeated kept reads dropped", |job| {
            with_blocks(job, |block| without_repeated_reads(block, reads::kept))
        }),
        ("raw reads that are not kept dropped", |job| of_reads(job, |_, read| reads::kept(read))),
        ("raw reads that are assumed dropped", |job| {
            of_reads(job, |block, read| !block.assumed.iter().any(|path| same_path(path, &read.path)))
        }),
        ("all raw reads dropped", |job| of_reads(job, |_, _| false)),
        ("kept reads made into assumed paths", |job| with_blocks(job, with_reads_assumed)),
        ("scopes that are not there emptied", |job| with_blocks(job, with_empty_scopes)),
        ("raw count lowered too", with_lowered_raw_counts),
    ]
}

/// The thin job with its blocks changed so.
fn with_blocks(job: &Job, change: impl Fn(Block) -> Block) -> Vec<u8> {
    let thin = right(job);
    Job { blocks: thin.blocks.into_iter().map(change).collect(), ..thin }.to_bytes()
}

/// The thin job with those raw reads that stay.
fn of_reads(job: &Job, stays: impl Fn(&Block, &RawRead) -> bool) -> Vec<u8> {
    with_blocks(job, |block| {
        let reads = block.reads.iter().filter(|read| stays(&block, read)).cloned().collect();
        block.reading(reads)
    })
}

/// Without the assumed paths that are the same as that of such a read.
fn without_read(mut block: Block, counts: impl Fn(&RawRead) -> bool) -> Block {
    let same = |path: &Path| block.reads.iter().any(|read| counts(read) && same_path(&read.path, path));
    block.assumed = block.assumed.iter().filter(|path| !same(path)).cloned().collect();
    block
}

/// Without such reads as have the path of an earlier one.
fn without_repeated_reads(block: Block, counts: impl Fn(&RawRead) -> bool) -> Block {
    let same = |a: &RawRead, b: &RawRead| counts(a) && counts(b) && same_path(&a.path, &b.path);
    let stays = kept(&block.reads, same);
    let left = block.reads.iter().zip(stays).filter(|(_, stays)| *stays).map(|(read, _)| read.clone());
    let left = left.collect();
    block.reading(left)
}

fn with_reads_assumed(block: Block) -> Block {
    let assumed = reads::assumed(&block).cloned().collect();
    Block { reads: vec![], assumed, ..block }
}

fn with_empty_scopes(block: Block) -> Block {
    let emptied = |read: &RawRead| match read.has_scope {
        true => read.clone(),
        false => RawRead { scope_start: 0, scope_end: 0, ..read.clone() },
    };
    let reads = block.reads.iter().map(emptied).collect();
    block.reading(reads)
}

/// The raw count lowered by as much as the assumed count.
fn with_lowered_raw_counts(job: &Job) -> Vec<u8> {
    let thin = right(job);
    let mut bytes = thin.to_bytes();
    for ((at, block), left) in starts(&thin).into_iter().zip(&job.blocks).zip(&thin.blocks) {
        let fewer = (block.assumed.len() - left.assumed.len()) as u8;
        bytes[at + RAW_COUNT] = bytes[at + RAW_COUNT].saturating_sub(fewer);
    }
    bytes
}

/// Where the raw count stands in BL.
const RAW_COUNT: usize = 8;
