//! Nodes before the first round, and nodes that reduction added: in sheets, in replays and in
//! explanations.

#[path = "../common/mod.rs"]
mod common;
mod explain;
mod replay;
mod sheet;

use scope_deps::Job;

/// As small as can be: reduction makes `1.10` of `1?.10`.
const SMALLEST: &str = "scope 7 block 7 assumes 1, 1?.10";

/// The same, but what reduction makes is there already.
const THERE_ALREADY: &str = "scope 7 block 7 assumes 1, 1.10, 1?.10 candidate 1.10";

/// On the way to `1.10?.11` there is `1.10`, which no block holds.
const ON_THE_WAY: &str = "scope 7 block 7 assumes 1, 1?.10?.11 candidate 1.10";

/// In round 1, block 3 has `1` and not yet `1.10`, which comes to block 1 in the backward walk.
const TWO_ROUNDS: &str = "scope 3 block 0 block 1 after 0 assumes 1?.10 block 2 after 0 assumes 1.10 \
                          block 3 after 1, 2 assumes 1, 1?.10?.11 block 4 after 2 block 5 after 1 assumes 1 \
                          candidate 1.10.11.12";

/// Block 0 has `1` from block 1 in the backward walk alone, since block 2 keeps `1?.10` from block
/// 1.
const BACKWARD: &str = "scope 1 block 0 assumes 1?.10 block 2 block 1 after 0, 2 assumes 1";

/// Block 1 is its own predecessor. By the strict propagation it does not take `1` over from block
/// 0, and makes `1?.10.10`, since it has `1?.10`.
const TOLD_APART: &str = "scope 1 block 0 assumes 1 block 1 after 1, 0 assumes 1?.10, 1?.10?.10";

fn job(text: &str) -> Job {
    text.parse().unwrap()
}
