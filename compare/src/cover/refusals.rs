//! Where a job is refused.

use super::Features;
use crate::entering::entered;
use crate::job::limits;
use crate::reader::{
    EXTRA_BYTE, LARGEST_START, LONG_JOB, MANY_NODES, MISSING_BYTE, OUT_OF_RANGE, REPEATED_ID, Reader,
    Refusal, SHORT_BUFFER, UNKNOWN_BLOCK, WRONG_MARK, largest_start, read_job,
};
use crate::start_mistakes::with_smaller_starts;

/// Where the refusal is met, and which later ones the job would get without it.
pub fn refusal_features(number: Refusal, bytes: &[u8], found: &mut Features) {
    let read = |bytes: &[u8]| read_job(bytes, limits::OUT_BYTES).err();
    match number {
        SHORT_BUFFER => add_later(found, number, read(bytes)),
        MISSING_BYTE | WRONG_MARK | OUT_OF_RANGE => {
            found.insert(format!("refusal {number} met {}", place(bytes, needed_bytes(bytes))));
        }
        LARGEST_START => {
            found.insert(format!("refusal {number} met {}", block_of_start(bytes)));
            let without = with_smaller_starts(bytes);
            add_later(found, number, read(&without).or_else(|| many_nodes(&without)));
        }
        LONG_JOB => add_later(found, number, largest_start(bytes).map(|_| LARGEST_START)),
        EXTRA_BYTE => add_later(found, number, read(&bytes[..needed_bytes(bytes)])),
        REPEATED_ID => {
            let job = Reader::new(bytes).job().expect("a job with repeats can be read");
            let known = |id: &u32| job.blocks.iter().any(|block| block.id == *id);
            let mut named = job.blocks.iter().flat_map(|block| &block.predecessors).chain([&job.scope]);
            add_later(found, number, named.any(|id| !known(id)).then_some(UNKNOWN_BLOCK));
        }
        _ => {}
    }
}

/// 9, where the assumed paths alone make too many nodes.
fn many_nodes(bytes: &[u8]) -> Option<Refusal> {
    let job = read_job(bytes, limits::OUT_BYTES).ok()?;
    (entered(&job).len() > limits::NODES).then_some(MANY_NODES)
}

/// In which block the range start stands that 10 refuses.
fn block_of_start(bytes: &[u8]) -> &'static str {
    let mut one_block = bytes.to_vec();
    one_block[2..4].copy_from_slice(&[1, 0]);
    match largest_start(&one_block) == largest_start(bytes) {
        true => "at a raw read of the first block",
        false => "at a raw read of a later block",
    }
}

fn add_later(found: &mut Features, number: Refusal, later: Option<Refusal>) {
    if let Some(later) = later {
        found.insert(format!("{number} comes before {later}"));
    }
}

/// The shortest part of the job that does not end too early, or all of it.
/// Every shorter part ends too early as well.
fn needed_bytes(bytes: &[u8]) -> usize {
    let lengths: Vec<usize> = (0..bytes.len()).collect();
    lengths
        .partition_point(|&length| read_job(&bytes[..length], limits::OUT_BYTES).err() == Some(MISSING_BYTE))
}

/// Marks, where the fields of their records end, and where entries begin. Entries after the first
/// count as the first.
const FIELD_ENDS: [(&[u8; 2], &[usize], usize); 5] = [
    (b"HD", &[2, 4, 6, 10], 0),
    (b"BL", &[2, 6, 7, 8, 9, 13], 0),
    (b"RD", &[2, 6, 10, 14, 15, 19, 23, 24, 28, 29, 33, 34, 35, 36, 44, 48], 34),
    (b"PA", &[2, 6, 7, 11, 12, 13, 14, 22, 26], 12),
    (b"CA", &[2, 6, 7, 11, 12, 13, 14, 22, 26], 12),
];
/// The bytes of an entry.
const ENTRY: usize = 14;

/// The record and the field in which the last of `length` bytes lies.
fn place(bytes: &[u8], length: usize) -> String {
    let record_at = |at: usize| FIELD_ENDS.iter().find(|(mark, ..)| bytes[at..].starts_with(*mark));
    let last = (0..length).rev().find_map(|at| Some((at, record_at(at)?)));
    let Some((start, (mark, ends, entries))) = last else { return "at no mark".into() };
    let offset = match length - start {
        offset if *entries > 0 && offset > entries + ENTRY => entries + 1 + (offset - entries - 1) % ENTRY,
        offset => offset,
    };
    let field = ends.iter().position(|&end| offset <= end).unwrap_or(ends.len());
    format!("at {} field {field}", String::from_utf8_lossy(*mark))
}
