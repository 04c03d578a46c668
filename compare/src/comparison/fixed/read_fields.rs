//! Refusals among the fields of raw reads. The name of each job begins with the number by which it
//! is refused, 0 where it is not.

use super::{Fixed, fixed, one_block};
use crate::job::{Job, limits};
use crate::reads::{known_immutable, mutable};
use crate::worst::{block, full_registry, path};

/// Where fields stand in RD.
const RANGE_START: usize = 6;
const RANGE_END: usize = 10;
const HAS_SCOPE: usize = 14;
const KNOWN_IMMUTABLE: usize = 23;
const REACTIVE: usize = 28;
const ENTRY_COUNT: usize = 33;
const FLAGS: [(&str, usize); 3] =
    [("has-scope", HAS_SCOPE), ("known-immutable", KNOWN_IMMUTABLE), ("reactive", REACTIVE)];

/// Where the first block stands, and fields in it.
const BLOCK: usize = 10;
const BLOCK_ID: usize = BLOCK + 2;
const PREDECESSOR_COUNT: usize = BLOCK + 6;
const ASSUMED_COUNT: usize = BLOCK + 7;
const RAW_COUNT: usize = BLOCK + 8;

/// A job of two blocks with a raw read and a path each, and where these stand.
struct Places {
    job: Vec<u8>,
    first: usize,
    first_path: usize,
    second: usize,
}

fn places() -> Places {
    let root = |identifier| path(identifier, 10, 0, false);
    let blocks = [block(1, vec![], vec![root(1)]), block(2, vec![1], vec![root(2)])];
    let blocks = blocks.map(|block| block.reading(vec![known_immutable(path(1, 10, 1, false))])).to_vec();
    let job = Job { scope: 2, blocks, candidates: vec![path(1, 10, 2, false)] }.to_bytes();
    let marks = |mark: &[u8; 2]| -> Vec<usize> {
        (0..job.len() - 1).filter(|&at| job[at..].starts_with(mark)).collect()
    };
    let (reads, paths) = (marks(b"RD"), marks(b"PA"));
    Places { first: reads[0], first_path: paths[0], second: reads[1], job }
}

impl Places {
    fn with(&self, at: usize, bytes: &[u8]) -> Vec<u8> {
        changed(&self.job, at, bytes)
    }

    /// The job with a range start in a read that 10 refuses.
    fn refused(&self, read: usize) -> Vec<u8> {
        self.with(read + RANGE_START, &[0xff; 4])
    }
}

fn changed(job: &[u8], at: usize, bytes: &[u8]) -> Vec<u8> {
    let mut job = job.to_vec();
    job[at..at + bytes.len()].copy_from_slice(bytes);
    job
}

pub fn refusals(jobs: &mut Vec<Fixed>) {
    let places = places();
    let named = [starts(&places), ends(&places), flags(&places), marks(&places), counts(&places)];
    jobs.extend(named.into_iter().flatten().map(|(name, job)| fixed(name, job)));
    later(&places, jobs);
}

type Named = Vec<(String, Vec<u8>)>;

/// The largest range start, and the next smaller one.
fn starts(places: &Places) -> Named {
    let Places { first, second, .. } = *places;
    let both = changed(&places.refused(first), second + RANGE_START, &[0xff; 4]);
    let smaller = places.with(first + RANGE_START, &limits::RANGE_START.to_le_bytes());
    vec![
        ("0: a range start of 4294967294".into(), smaller),
        ("0: a range end of 4294967295".into(), places.with(first + RANGE_END, &[0xff; 4])),
        ("10: a range start of 4294967295".into(), places.refused(first)),
        ("10: a range start of 4294967295 in the second block".into(), places.refused(second)),
        ("10: a range start of 4294967295 in both blocks".into(), both),
    ]
}

/// The job ends in a raw read, or right behind a range start.
fn ends(places: &Places) -> Named {
    let refused = places.refused(places.first);
    let behind = places.first + RANGE_START + 4;
    let mut jobs = vec![("10: the job ends right behind the range start".into(), refused[..behind].to_vec())];
    for missing in 1..=4 {
        let name = format!("3: the job ends {missing} bytes before the range start does");
        jobs.push((name, refused[..behind - missing].to_vec()));
    }
    for length in places.first..places.first_path {
        jobs.push((format!("3: the first {length} bytes, in a raw read"), places.job[..length].to_vec()));
    }
    jobs
}

/// A field outside its range, alone, before the range start, and behind it.
fn flags(places: &Places) -> Named {
    let Places { first, second, .. } = *places;
    let refused = places.refused(first);
    let mut jobs = vec![
        ("5: 17 entries of a raw read".into(), places.with(first + ENTRY_COUNT, &[17])),
        ("10: 17 entries behind the range start".into(), changed(&refused, first + ENTRY_COUNT, &[17])),
        ("5: 65 predecessors before the range start".into(), changed(&refused, PREDECESSOR_COUNT, &[65])),
    ];
    for (what, at) in FLAGS {
        let before = changed(&places.refused(second), first + at, &[2]);
        jobs.extend([
            (format!("5: {what} of 2"), places.with(first + at, &[2])),
            (format!("10: {what} of 2 behind the range start"), changed(&refused, first + at, &[2])),
            (format!("5: {what} of 2 in the block before the range start"), before),
            (
                format!("10: {what} of 2 in the block behind the range start"),
                changed(&refused, second + at, &[2]),
            ),
        ]);
    }
    jobs
}

/// A wrong mark before the range start, and behind it.
fn marks(places: &Places) -> Named {
    let refused = places.refused(places.first);
    let second = changed(&places.refused(places.second), places.second, b"DR");
    vec![
        (
            "4: a wrong mark of the raw read before its range start".into(),
            changed(&refused, places.first, b"RX"),
        ),
        ("4: a wrong mark of the block before the range start".into(), changed(&refused, BLOCK, b"BX")),
        ("4: a wrong mark of the second raw read before its range start".into(), second),
        ("10: a wrong mark behind the range start".into(), changed(&refused, places.first_path, b"PX")),
    ]
}

/// Counts that do not fit what follows.
fn counts(places: &Places) -> Named {
    let mut two_paths = one_block(vec![path(1, 10, 0, false), path(2, 10, 0, false)], vec![]);
    two_paths.blocks[0].reads = vec![mutable(path(1, 10, 1, false))];
    let exchanged = changed(&two_paths.to_bytes(), ASSUMED_COUNT, &[1, 2]);
    let (read, path, end) = (places.first, places.first_path, places.first_path + 12);
    let job = &places.job;
    let path_first = [&job[..read], &job[path..end], &job[read..path], &job[end..]].concat();
    vec![
        ("4: raw count 0 before a raw read".into(), places.with(RAW_COUNT, &[0])),
        ("4: raw count 2 before one raw read".into(), places.with(RAW_COUNT, &[2])),
        ("4: raw count 1 before an assumed path".into(), path_first),
        ("4: assumed count and raw count exchanged".into(), exchanged),
    ]
}

/// Refusals that come before all fields, or after them.
fn later(places: &Places, jobs: &mut Vec<Fixed>) {
    let refused = places.refused(places.first);
    let mut long = refused.clone();
    long.resize(limits::JOB_BYTES + 1, 0);
    let mut many = one_block(full_registry(limits::NODES + 1), vec![]);
    many.blocks[0].reads = vec![mutable(path(1, 10, 1, false))];
    let many_nodes = many.to_bytes();
    many.blocks[0].reads[0].range_start = u32::MAX;
    // A block twice, an unknown scope block, 513 nodes, and a byte too many.
    let mut all = Job { scope: 9, ..many.clone() };
    all.blocks.push(all.blocks[0].clone());
    let named = [
        ("2: a job that is too long, with the range start", long),
        ("6: a byte too many", [&places.job[..], &[0]].concat()),
        ("10: a byte too many, with the range start", [&refused[..], &[0]].concat()),
        ("7: two blocks of one id", places.with(BLOCK_ID, &[2])),
        ("10: two blocks of one id, with the range start", changed(&refused, BLOCK_ID, &[2])),
        ("8: an unknown scope block", places.with(6, &[9])),
        ("10: an unknown scope block, with the range start", changed(&refused, 6, &[9])),
        ("9: 513 nodes and a dropped raw read", many_nodes),
        ("10: 513 nodes, with the range start", many.to_bytes()),
        ("10: 6, 7, 8 and 9, with the range start", [all.to_bytes(), vec![0]].concat()),
    ];
    jobs.extend(named.map(|(name, job)| fixed(name, job)));
    for out_len in [0, limits::OUT_BYTES - 1] {
        let name = format!("1: an out buffer of {out_len} bytes, with the range start");
        jobs.push(Fixed { name, out_len, job: refused.clone() });
    }
    for out_len in [limits::OUT_BYTES, limits::THIN_BYTES - 1] {
        let name = format!("a range start of 4294967295, out buffer of {out_len} bytes");
        jobs.push(Fixed { name, out_len, job: refused.clone() });
    }
}
