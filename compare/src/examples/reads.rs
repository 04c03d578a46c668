//! Raw reads: which are kept and which are not, in which order they are entered, and what a thin
//! job makes of them.

use super::Named;
use crate::job::{Job, Path, RawRead, limits};
use crate::notation::{block, dropped, immutable, job, kept, read};
use crate::worst::{self, full_registry};

/// One block that reads these, with a candidate below what is read.
fn reading(reads: Vec<RawRead>) -> Job {
    job(7, vec![block(7, &[], "").reading(reads)], "1.10.11")
}

/// One read each of 1.10, at the edges of each condition.
pub fn conditions() -> Named {
    let one = |instruction, range, scope| reading(vec![read("1.10", instruction, range, scope)]);
    let in_scope = Some((4, 9));
    let last = |start| one(3, (start, u32::MAX), Some((0, 9)));
    vec![
        ("read-mutable", one(5, (1, 8), in_scope)),
        ("read-known-immutable", reading(vec![immutable(read("1.10", 5, (1, 8), in_scope))])),
        ("read-known-immutable-without-need", reading(vec![immutable(kept("1.10"))])),
        ("read-of-short-range", one(5, (1, 2), in_scope)),
        // The scope's range holds the instruction, but plays no part.
        ("read-without-scope", one(5, (1, 8), None)),
        ("read-outside-scope", one(12, (1, 8), in_scope)),
        ("read-before-scope", one(3, (1, 8), in_scope)),
        ("read-at-scope-start", one(4, (1, 8), in_scope)),
        ("read-before-scope-end", one(8, (1, 8), in_scope)),
        ("read-at-scope-end", one(9, (1, 8), in_scope)),
        ("read-in-empty-scope", one(4, (1, 8), Some((4, 4)))),
        ("read-in-scope-that-ends-before-its-start", one(4, (1, 8), Some((9, 4)))),
        ("range-that-ends-before-its-start", one(5, (7, 6), in_scope)),
        ("range-that-ends-at-its-start", one(5, (6, 6), in_scope)),
        ("range-that-ends-1-after-its-start", one(5, (6, 7), in_scope)),
        ("range-that-ends-2-after-its-start", one(5, (6, 8), in_scope)),
        ("range-from-0-to-1", one(3, (0, 1), Some((0, 9)))),
        ("range-from-0-to-2-at-0", one(0, (0, 2), Some((0, 9)))),
        ("range-from-0-to-2-at-3", one(3, (0, 2), Some((0, 9)))),
        ("range-from-0-to-2-at-9", one(9, (0, 2), Some((0, 9)))),
        ("range-far-from-the-instruction", one(5, (100, 102), in_scope)),
        ("range-across-the-sign", one(5, (i32::MAX as u32, i32::MAX as u32 + 2), in_scope)),
        ("scope-across-the-sign", one(i32::MAX as u32 + 1, (0, 2), Some((5, u32::MAX)))),
        ("read-at-the-largest-instruction", one(u32::MAX, (0, 2), Some((0, u32::MAX)))),
        ("range-start-4294967293", last(u32::MAX - 2)),
        ("range-start-4294967294", last(limits::RANGE_START)),
        ("range-start-4294967295", last(u32::MAX)),
    ]
}

/// Several reads: their order, their nodes, and what is entered first.
pub fn entered() -> Named {
    let mixed = vec![dropped("2.10"), kept("3.10"), dropped("1.10"), immutable(dropped("1.10"))];
    let two_blocks = |first: Vec<RawRead>, second: Vec<RawRead>| {
        vec![block(0, &[], "2").reading(first), block(1, &[0], "1?.10").reading(second)]
    };
    let makers = |first: RawRead| {
        let reads = vec![first, kept("1@6")];
        job(7, vec![block(7, &[], "reactive 1@8.10@9").reading(reads)], "1.10.11")
    };
    let in_a_loop = vec![block(0, &[], "").reading(vec![kept("1")]), block(1, &[1, 0], "")];
    vec![
        ("all-reads-dropped", reading(vec![dropped("1"), dropped("1.10"), dropped("2")])),
        ("some-reads-dropped", reading(mixed)),
        ("reads-before-assumed-paths", {
            job(7, vec![block(7, &[], "1, 2").reading(vec![kept("3"), kept("2.10")])], "")
        }),
        ("reads-in-two-blocks", job(1, two_blocks(vec![kept("4")], vec![kept("1"), kept("3")]), "1.10.11")),
        ("read-that-reduces", job(1, two_blocks(vec![], vec![kept("1")]), "1.10.11")),
        ("dropped-read-that-would-reduce", job(1, two_blocks(vec![], vec![dropped("1")]), "1.10.11")),
        (
            "read-that-propagates",
            job(1, vec![block(0, &[], "").reading(vec![kept("1")]), block(1, &[0], "")], "1.10"),
        ),
        ("read-in-a-loop", job(1, in_a_loop, "1.10")),
        ("first-maker-kept", makers(kept("reactive 1@5"))),
        ("first-maker-dropped", makers(dropped("reactive 1@5"))),
        ("read-of-no-entry", job(7, vec![block(7, &[], "").reading(vec![kept("1")])], "1.10.11")),
    ]
}

/// Raw reads and thin jobs: nothing of them is a repeat.
pub fn thinned() -> Named {
    let with = |reads, assumed| job(7, vec![block(7, &[], assumed).reading(reads)], "1.10, 1.10");
    let without_scope = || RawRead { scope_start: 7, scope_end: 3, ..read("1.10", 3, (0, 9), None) };
    vec![
        ("assumed-as-a-kept-read", with(vec![kept("1.10")], "1.10, 2, 1.10")),
        ("assumed-as-a-dropped-read", with(vec![dropped("1.10")], "1.10, 2, 1.10")),
        ("equal-reads", with(vec![kept("1.10"), kept("1.10"), kept("1.10@4")], "")),
        ("equal-dropped-reads", with(vec![dropped("1.10"), dropped("1.10")], "1.10")),
        ("reads-of-one-path-kept-and-dropped", with(vec![dropped("1.10"), kept("1.10")], "2, 2")),
        ("scopes-that-are-not-there", with(vec![without_scope(), without_scope()], "1, 1")),
    ]
}

/// The limits, and 9 and 10.
pub fn at_limits() -> Named {
    let long = || {
        let mut long = kept("1");
        long.path = worst::path(1, 10, limits::ENTRIES, false);
        long
    };
    let last_of = |start: u32| RawRead { range_start: start, ..kept("1.10") };
    let mut many = worst::one_block(full_registry(limits::NODES));
    many.blocks[0].reads = vec![kept("1")];
    let mut one_less = many.clone();
    one_less.blocks[0].reads = vec![dropped("1")];
    let mut only_by_reads = reading(vec![]);
    only_by_reads.blocks[0].reads = as_reads(full_registry(limits::NODES + 1), usize::MAX);
    let mut one_dropped = reading(vec![]);
    one_dropped.blocks[0].reads = as_reads(full_registry(limits::NODES + 1), 30);
    let mut refused = many.clone();
    refused.blocks[0].reads.push(last_of(u32::MAX));
    let later = vec![
        block(7, &[], "1").reading(vec![kept("1")]),
        block(8, &[7], "").reading(vec![last_of(u32::MAX)]),
    ];
    vec![
        ("read-of-16-entries", reading(vec![long()])),
        ("255-kept-reads", reading(vec![kept("1.10"); limits::READS])),
        ("255-dropped-reads", reading(vec![dropped("1.10"); limits::READS])),
        ("255-reads-of-6-entries", worst::most_reads()),
        ("refused-by-9-for-a-kept-read", many),
        ("accepted-with-a-dropped-read", one_less),
        ("refused-by-9-for-reads-alone", only_by_reads),
        ("accepted-with-one-of-them-dropped", one_dropped),
        ("10-in-a-later-block", job(7, later, "")),
        (
            "10-before-7",
            job(7, vec![block(7, &[], ""), block(7, &[], "").reading(vec![last_of(u32::MAX)])], ""),
        ),
        ("10-before-8", job(9, vec![block(7, &[6], "").reading(vec![last_of(u32::MAX)])], "")),
        ("10-before-9", refused),
    ]
}

/// The paths as kept reads, but for one that is not.
fn as_reads(paths: Vec<Path>, not_kept: usize) -> Vec<RawRead> {
    let read = |(place, path)| {
        let read = if place == not_kept { dropped("1") } else { kept("1") };
        RawRead { path, ..read }
    };
    paths.into_iter().enumerate().map(read).collect()
}
