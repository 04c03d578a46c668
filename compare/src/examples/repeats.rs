//! What is a repeat and what is none, for thin jobs.

use super::Named;
use crate::job::{Job, limits};
use crate::notation::{block, job, paths};
use crate::worst;

/// Each thing that makes a repeat, or none.
pub fn of_paths() -> Named {
    let one_block = |assumed, candidates| job(7, vec![block(7, &[], assumed)], candidates);
    let two_blocks = vec![block(7, &[8], "1, 2, 1"), block(8, &[], "1, 2, 2")];
    vec![
        // The job of `repeating_thinned` in crates/model/specs/ThinExamples.antt.
        ("repeats-in-block-and-candidates", one_block("reactive 1, 1@9", REPEATED_CANDIDATES)),
        ("repeat-of-other-span", one_block("1@3.10, 1@4.10, 1.10", "2@3, 2@4")),
        ("repeat-of-other-entry-span", one_block("1.10@3.11, 1.10@4.11@5", "1.10, 1.10@6")),
        ("repeat-of-other-reactive", one_block("1.10, reactive 1.10", "reactive 2, 2")),
        ("three-times", one_block("1.10, 1.10, 1.10", "2, 2, 2")),
        ("repeat-after-another", one_block("1.10, 1.11, 1.10, 1.11", "2, 3, 2")),
        ("repeat-of-a-nan", one_block("1[0x7ff8000000000000], 1[0x7ff8000000000000]", "")),
        ("other-identifier", one_block("1.10, 2.10", "1, 2")),
        ("other-name", one_block("1.10.11, 1.12.11, 1.10.12", "1.10, 1.11")),
        ("other-mark", one_block("1.10.11, 1?.10.11, 1.10?.11", "1.10, 1?.10")),
        ("other-zero", one_block("1[0x0], 1[0x8000000000000000]", "2[0x8000000000000000], 2[0x0]")),
        ("other-nan", one_block("1[0x7ff8000000000000], 1[0x7ff8000000000001]", "")),
        ("name-zero-and-number-zero", one_block("1.0, 1[0x0]", "2[0x0], 2.0")),
        ("other-length", one_block("1, 1.10, 1.10.10, 1.10", "2.10.10, 2.10, 2")),
        ("assumed-and-candidate", one_block("1, 1.10", "1.10, 1")),
        ("same-path-in-two-blocks", job(7, two_blocks, "1, 2, 1")),
    ]
}

const REPEATED_CANDIDATES: &str = "reactive 1@5.10@6, reactive 1@7.10@8";

/// The longest lists and jobs, and a job that 9 refuses.
pub fn at_limits() -> Named {
    let one_block = |assumed: &str, candidates: &str| job(7, vec![block(7, &[], assumed)], candidates);
    let equal = |path: &str, count| vec![path; count].join(", ");
    let mut refused = worst::one_block(worst::full_registry(limits::NODES + 1));
    refused.blocks[0].assumed.extend(paths("100, 101, 100"));
    vec![
        ("255-equal-paths", one_block(&equal("1.10", limits::ASSUMED), "1.10.11")),
        ("64-equal-candidates", one_block("1", &equal("1.10", limits::CANDIDATES))),
        ("255-paths-without-repeat", Job { candidates: vec![], ..worst::most_comparisons() }),
        ("repeats-refused-by-9", refused),
        ("32768-bytes-without-repeat", worst::longest_without_repeats()),
    ]
}
