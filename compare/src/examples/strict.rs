//! What tells the strict propagation from the existing one, and from those that are nearly right.

use super::Named;
use crate::generate::ladder;
use crate::job::{Block, Job, limits};
use crate::notation::{block, job};
use crate::worst::{self, full_registry};

/// Where the two propagations differ, and where they do not though there is a loop.
pub fn differences() -> Named {
    let on_both_ways = vec![block(0, &[], ""), block(1, &[0, 1], "5"), block(2, &[0], "5")];
    let after_a_loop = vec![block(0, &[], "5"), block(1, &[1], "5"), block(2, &[0, 1], "")];
    let reduced = vec![block(0, &[], "1"), block(1, &[0, 1], "1?.10.11")];
    // 1 comes to block 1 under the existing propagation alone, and makes 1.10 of 1?.10 there.
    let other_paths =
        vec![block(0, &[], "1"), block(1, &[1, 0], "1?.10"), block(2, &[], "1?.10"), block(3, &[1, 2], "")];
    let reduced_alone = vec![block(0, &[0], "1, 1?.10"), block(1, &[], "2, 2?.10")];
    vec![
        ("own-predecessor", job(1, vec![block(0, &[], "1"), block(1, &[1, 0], "")], "1.10")),
        // Only propagation brings 5 to block 0, and to block 2 past a loop.
        ("kept-before-a-loop", job(0, on_both_ways, "5.10")),
        ("kept-after-a-loop", job(2, after_a_loop, "5.10")),
        ("reduced-in-a-loop", job(1, reduced, "1.10.12")),
        ("reduced-where-nothing-joins", job(0, reduced_alone, "1.10.11, 2.10.11")),
        ("more-nodes-strictly", job(1, more_strict(), "1.10.10")),
        ("fewer-nodes-strictly", job(2, more_existing(), "1.10.10")),
        ("longer-strictly", job(3, other_paths, "1?.10.11")),
    ]
}

/// Neighbours that are Active when a block joins.
pub fn traps() -> Named {
    let among_done = vec![block(0, &[], "5"), block(1, &[0, 2], ""), block(2, &[0, 1], "")];
    let with_the_path =
        vec![block(0, &[], "5"), block(1, &[0, 2], "5"), block(2, &[0, 1], ""), block(3, &[2], "")];
    let two_entries = vec![
        block(0, &[], "5"),
        block(1, &[0, 3], ""),
        block(2, &[0, 1], ""),
        block(3, &[2], ""),
        block(4, &[3], ""),
    ];
    let from_inside = vec![block(2, &[1], ""), block(1, &[0, 2], ""), block(0, &[], "5")];
    let unreachable =
        vec![block(0, &[], "5"), block(1, &[0, 3], ""), block(2, &[2, 3], "5"), block(3, &[2], "")];
    let no_start = vec![block(0, &[1, 2], ""), block(1, &[0, 1], "5"), block(2, &[1], "")];
    let no_end = vec![block(0, &[], ""), block(1, &[0, 2], "5"), block(2, &[1, 2], "")];
    let twice_round =
        vec![block(0, &[], "5"), block(1, &[0, 1], "6"), block(2, &[1], "7"), block(3, &[2], "")];
    vec![
        ("active-among-done", job(2, among_done, "5.10")),
        ("active-with-the-path", job(2, with_the_path, "5.10")),
        ("loop-of-two-entries", job(4, two_entries, "5.10")),
        ("walk-starts-in-a-loop", job(2, from_inside, "5.10")),
        ("unreachable-loop", job(1, unreachable, "5.10")),
        ("no-start", job(0, no_start, "5.10")),
        ("no-end", job(2, no_end, "5.10")),
        ("after-its-own-loop", job(3, twice_round, "5.10, 6.10, 7.10")),
    ]
}

/// Jobs near 512 nodes that 9 refuses under one propagation alone, and jobs of 100 rounds under the
/// existing one.
pub fn limits() -> Named {
    vec![
        ("refused-by-the-existing-alone", filled(more_existing(), 508)),
        ("refused-strictly-alone", filled(more_strict(), 507)),
        ("100-rounds-settled", climbed(33, 3)),
        ("100-rounds-not-settled", climbed(50, 2)),
    ]
}

/// 5 nodes under the existing propagation, 6 under the strict one.
fn more_strict() -> Vec<Block> {
    vec![block(0, &[], "1"), block(1, &[1, 0], "1?.10, 1?.10?.10")]
}

/// 5 nodes under the existing propagation, 3 under the strict one.
fn more_existing() -> Vec<Block> {
    vec![block(0, &[], ""), block(1, &[1], "1"), block(2, &[1, 0], "1?.10?.10")]
}

/// With a block of so many nodes beside.
fn filled(mut blocks: Vec<Block>, nodes: usize) -> Job {
    blocks.push(worst::block(8, vec![], full_registry(nodes)));
    job(1, blocks, "1.10.10")
}

/// A ladder with the scope at its top, and what is climbed as candidate.
pub fn climbed(steps: usize, climbs: usize) -> Job {
    let mut job = ladder::of(1, steps, climbs);
    job.scope = job.blocks[0].id;
    job.candidates = vec![worst::path(1, 10, limits::ENTRIES, false)];
    job
}
