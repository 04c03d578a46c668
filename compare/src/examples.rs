//! Jobs by name, each of which tells a definition from one that is nearly the same. They stand at
//! the end of the stored list; tests/examples.rs says what the Rust gives for each, tests/thin.rs
//! what the thin job is, tests/strict.rs what the strict propagation gives, tests/nodes.rs how many
//! nodes there are before the first round and at the end, and tests/reads.rs which raw reads are
//! kept. Those of walks and orders are, but for two, theorems of the same names in
//! crates/model/specs/Examples.antt; docs/DIFFERENCES.md tells of the keys.

mod nodes;
mod reads;
mod repeats;
mod strict;

use crate::job::{Job, limits};
use crate::notation::{block, job};

pub struct Example {
    pub name: &'static str,
    /// The length of the out buffer.
    pub out_len: usize,
    pub job: Job,
}

/// All examples, in the order of the stored list.
pub fn examples() -> Vec<Example> {
    let thin = [repeats::of_paths(), repeats::at_limits()];
    let strict = [strict::differences(), strict::traps(), strict::limits()];
    let named = [walks(), orders(), keys()].into_iter().chain(thin).chain(strict).flatten();
    let nodes = [nodes::made(), nodes::made_later(), nodes::limits()].into_iter().flatten();
    let reads = [reads::conditions(), reads::entered(), reads::thinned(), reads::at_limits()];
    let last = nodes.chain(reads.into_iter().flatten());
    named.map(long_enough).chain(buffers()).chain(last.map(long_enough)).collect()
}

fn long_enough((name, job): (&'static str, Job)) -> Example {
    Example { name, out_len: limits::THIN_BYTES, job }
}

/// Buffers on both sides of what an answer and a sheet need, and one that is too short for a thin
/// job alone. All other examples have the shortest that a thin job needs.
fn buffers() -> Vec<Example> {
    let lengths = [("buffer-24575", 24_575), ("buffer-24576", 24_576), ("buffer-32767", 32_767)];
    let repeating = || job(7, vec![block(7, &[], "1, 1")], "1.10, 1.10");
    lengths.into_iter().map(|(name, out_len)| Example { name, out_len, job: repeating() }).collect()
}

/// The example of this name.
pub fn example(name: &str) -> Job {
    let found = examples().into_iter().find(|example| example.name == name);
    found.unwrap_or_else(|| panic!("no example is called {name}")).job
}

type Named = Vec<(&'static str, Job)>;

/// In which order paths are entered, when a round has changed something, and in which order blocks
/// and their neighbours are visited.
fn walks() -> Named {
    let ascending = vec![block(2, &[0, 1], "5"), block(1, &[1, 2, 0], ""), block(0, &[0], "")];
    let not_in_reverse = vec![block(0, &[2, 1], ""), block(2, &[0, 1], "5"), block(1, &[], "")];
    let recorded = vec![block(3, &[2, 1], ""), block(1, &[1, 2, 3], ""), block(2, &[1], "5")];
    let not_descending = vec![block(0, &[1, 2], ""), block(1, &[2], "5"), block(2, &[1], "")];
    let forward_first =
        vec![block(1, &[], "5"), block(0, &[2, 0, 3], ""), block(2, &[1, 0], ""), block(3, &[], "")];
    let a_loop = vec![
        block(0, &[], ""),
        block(1, &[0, 3], ""),
        block(2, &[1], "5"),
        block(3, &[1, 2], ""),
        block(4, &[1], ""),
    ];
    vec![
        ("entered-in-job-order", job(1, vec![block(1, &[], "5"), block(0, &[1], "1")], "")),
        ("changed-by-set", job(7, vec![block(7, &[], "1, 1?.10")], "")),
        ("forward-in-job-order", job(0, vec![block(0, &[1], ""), block(1, &[0], "5")], "")),
        ("backward-in-reverse", job(0, vec![block(0, &[1], "5"), block(1, &[0], "")], "")),
        ("successors-ascend", job(0, ascending, "")),
        ("successors-not-in-reverse", job(0, not_in_reverse, "")),
        ("predecessors-as-recorded", job(2, recorded, "")),
        ("predecessors-not-descending", job(1, not_descending, "")),
        ("forward-first", job(1, forward_first, "")),
        // P3: block 3 holds 5, though 0, 1, 3, 1, 4 is a run of control that avoids block 2.
        ("avoided-in-a-loop", job(3, a_loop, "5.10")),
    ]
}

/// The order of hoistable paths.
fn orders() -> Named {
    let one_block = |assumed, candidates| job(7, vec![block(7, &[], assumed)], candidates);
    vec![
        ("optional-ahead", one_block("1.11, 1?.10", "1.12")),
        ("plain-order-kept", one_block("1.10, 1.10?.11", "1.10.12")),
        // In a whole job 1.10 makes 1.10?.11 plain; these two stay as they are.
        ("plain-order-kept-in-a-reduced-set", one_block("1.10.11, 1.10?.12", "1.10.13")),
        ("optional-order-kept", one_block("1?.10.11, 1?.10?.12", "1?.10.13")),
    ]
}

/// Keys that are one property in ECMA-262: +0 and −0, two NaNs, the name "5" (the host's number for
/// it is 5 here) and the number 5.
fn keys() -> Named {
    let one_block = |assumed, candidates| job(7, vec![block(7, &[], assumed)], candidates);
    vec![
        ("same-zero", one_block("1[0x0]", "1[0x0].11")),
        ("two-zeros", one_block("1[0x0]", "1[0x8000000000000000].11")),
        ("two-zeros-returned", one_block("1", "1[0x0], 1[0x8000000000000000]")),
        ("two-nans", one_block("1[0x7ff8000000000000]", "1[0x7ff8000000000001].11")),
        ("name-and-number", one_block("1.5", "1[0x4014000000000000].11")),
        ("number-and-name", one_block("1[0x4014000000000000]", "1.5.11")),
    ]
}

#[cfg(test)]
mod tests {
    use super::*;
    use std::collections::HashSet;

    #[test]
    fn names_are_unique() {
        let names: HashSet<&str> = examples().iter().map(|example| example.name).collect();
        assert_eq!(names.len(), examples().len());
    }
}
