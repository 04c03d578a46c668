//! Which nodes are there before the first round, and which reduction makes, in which round.

use super::Named;
use super::strict::climbed;
use crate::job::Job;
use crate::notation::{block, job, paths};
use crate::worst::{self, full_registry};

/// What reduction makes in the first round.
pub fn made() -> Named {
    let one_block = |assumed| job(7, vec![block(7, &[], assumed)], "1.10");
    let shared = vec![block(7, &[], "1.10.11, 1.10"), block(8, &[], "1.10.11, 1.10")];
    let backward = vec![block(0, &[], "1?.10"), block(1, &[], ""), block(2, &[0, 1], "1")];
    let strictly_alone = vec![block(0, &[], "1, 1.10, 1.10.10"), block(1, &[1, 0], "1?.10, 1?.10?.10")];
    // 1?.10?.10 comes to the root's block by the existing propagation alone.
    let fewer_strictly = vec![
        block(0, &[], ""),
        block(1, &[1], "1"),
        block(2, &[1, 0], "1?.10?.10"),
        block(3, &[], "2, 2?.10"),
    ];
    vec![
        ("no-nodes", one_block("")),
        ("paths-share-nodes", job(7, shared, "")),
        ("replaced-by-a-node-that-is-there", one_block("1, 1.10, 1?.10")),
        ("one-node-made", one_block("1?.10, 1?.10?.11")),
        ("several-nodes-made", one_block("1, 1?.10.11?.12")),
        // 1.10.11?.12 is made, and replaced in the next pass.
        ("made-on-the-way", one_block("1, 1.10, 1.10?.11?.12, 1?.10?.11")),
        ("made-in-the-backward-walk", job(0, backward, "1.10")),
        ("made-strictly-alone", job(1, strictly_alone, "1.10.10")),
        ("fewer-made-strictly", job(2, fewer_strictly, "1.10.10")),
    ]
}

/// What reduction makes in later rounds. No last round is known that changes nothing and makes a
/// node (tests/nodes.rs looks for one), so where the last makes one there are 100, not settled.
pub fn made_later() -> Named {
    // In the first round 1 comes back to block 0, and in the second 1.10 on to block 3.
    let two_rounds = |first| {
        let ends = [block(2, &[0, 1], "1"), block(3, &[0, 1], "1, 1.10?.11")];
        [block(0, &[], first), block(1, &[], "1.10")].into_iter().chain(ends).collect()
    };
    vec![
        ("made-in-the-second-round", job(3, two_rounds("1?.10"), "1.10.11.12")),
        ("made-in-two-rounds", job(3, two_rounds("1?.10, 1?.12"), "1.10.11.12")),
        ("made-before-the-last-round", made_at_the_top(climbed(33, 3), "1.10.11.12.13?.14")),
        ("made-in-the-last-round", in_the_last_round()),
    ]
}

/// Both sides of 512 nodes.
pub fn limits() -> Named {
    let one_made = || job(7, vec![block(7, &[], "1, 1?.10")], "1.10");
    vec![
        ("512-nodes-at-the-end", filled(one_made(), 509)),
        ("513-nodes-by-reduction", filled(one_made(), 510)),
        ("512-nodes-in-the-last-round", filled(in_the_last_round(), 505)),
        ("513-nodes-in-the-last-round", filled(in_the_last_round(), 506)),
    ]
}

/// In round 100, the last that is run, 1.10.11 climbs to the top.
fn in_the_last_round() -> Job {
    made_at_the_top(climbed(50, 2), "1.10.11?.12")
}

/// A ladder with a path at its top that is reduced where its base arrives.
fn made_at_the_top(mut ladder: Job, path: &str) -> Job {
    ladder.blocks[0].assumed.extend(paths(path));
    ladder
}

/// With so many nodes more, in a block that stands alone.
fn filled(mut job: Job, nodes: usize) -> Job {
    job.blocks.push(worst::block(1000, vec![], full_registry(nodes)));
    job
}
