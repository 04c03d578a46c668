//! The number of nodes: by entering, by reduction, and in which round.

use super::{Fixed, fixed, one_block};
use crate::entering::entered;
use crate::generate::ladder;
use crate::job::{Job, limits};
use crate::worst::{block, entry, falling_chain, full_registry, path, reducible_chain};

/// 512 and 513 nodes, by entering and by reduction alone.
pub fn entered_or_made(jobs: &mut Vec<Fixed>) {
    for nodes in [511, 512, 513, 514, 600] {
        let job = one_block(full_registry(nodes), vec![path(100, 0, 3, false)]);
        jobs.push(fixed(format!("{nodes} nodes entered"), job.to_bytes()));
        // A root that is there makes each of a chain's entries anew.
        let mut paths = vec![path(1, 10, 0, false)];
        let mut left = nodes - 1;
        while left > 1 {
            let length = (left / 2).min(limits::ENTRIES);
            let mut chain = path(1, 100 * paths.len() as u64, length, false);
            chain.entries[0].optional = true;
            paths.push(chain);
            left -= 2 * length;
        }
        paths.extend((left == 1).then(|| path(1, 50_000, 1, false)));
        let job = one_block(paths.clone(), vec![path(1, 100, 3, true)]);
        jobs.push(fixed(format!("{nodes} nodes by reduction"), job.to_bytes()));
        // The root comes with the forward walk, or with the backward walk.
        for (way, from, to) in [("forward", 0, 1), ("backward", 1, 0)] {
            let mut blocks = falling_chain(2);
            blocks[from].assumed = paths[..1].to_vec();
            blocks[to].assumed = paths[1..].to_vec();
            let job = Job { scope: to as u32, blocks, candidates: vec![] };
            jobs.push(fixed(format!("{nodes} nodes by reduction {way}"), job.to_bytes()));
        }
    }
    for length in 0..=limits::ENTRIES {
        let job = one_block(reducible_chain(1, length), vec![path(1, 10, limits::ENTRIES, true)]);
        jobs.push(fixed(format!("reduction of {length} entries"), job.to_bytes()));
    }
}

/// A ladder that 1.10.11 climbs to an optional entry below it: there in round 98, in round 100,
/// which is the last, or not at all. Two nodes are made then, and others bring the number near 512.
pub fn made_late(jobs: &mut Vec<Fixed>) {
    for steps in [49, 50, 51] {
        let mut job = ladder::of(1, steps, 2);
        let mut chain = path(1, 10, 2, false);
        chain.entries.extend([entry(100, true), entry(101, false)]);
        job.blocks[0].assumed.push(chain);
        jobs.push(fixed(format!("nodes made late on {steps} steps"), job.to_bytes()));
        let few = entered(&job).len();
        for before in 508..=513 {
            let mut job = job.clone();
            job.blocks.push(block(1000, vec![], full_registry(before - few)));
            let name = format!("nodes made late on {steps} steps, {before} before the first round");
            jobs.push(fixed(name, job.to_bytes()));
        }
    }
}
