//! Sheets: the count in their bytes, the nodes from there on, and how they are shown.

use crate::common::{hex, jobs};
use crate::{job, ON_THE_WAY, SMALLEST, THERE_ALREADY, TOLD_APART, TWO_ROUNDS};
use scope_deps::{raw, sheet, strict_sheet, Job, NodeId, Sheet};
use std::collections::BTreeSet;

/// The sheet of the smallest job, but for the 63 bytes at its end.
const BYTES: &str = "5348 0300 0100 02 01 0200
    4E4F FFFF 01000000 00 00 0000000000000000 00000000 00
    4E4F 0000 01000000 01 00 0A00000000000000 00000000 00
    4E4F 0000 01000000 00 00 0A00000000000000 00000000 00
    5345 07000000 05";

/// Where the count stands.
const COUNT: usize = 8;

/// The bytes with this count.
fn bytes(count: u16) -> Vec<u8> {
    let mut bytes = hex(BYTES);
    bytes.resize(bytes.len() + 63, 0);
    bytes[COUNT..COUNT + 2].copy_from_slice(&count.to_le_bytes());
    bytes
}

/// How many nodes there are before the first round and in the end, and the paths of those added.
fn counted(sheet: &Sheet) -> (usize, usize, Vec<String>) {
    let added = sheet.added_nodes().map(|(node, _)| format!("{:#}", sheet.path(node))).collect();
    (sheet.nodes_before_rounds(), sheet.nodes().len(), added)
}

#[test]
fn the_smallest_job_has_two_nodes_before_the_first_round_and_three_in_the_end() {
    let job = job(SMALLEST);
    for written in [raw::sheet(job.as_bytes()), raw::strict_sheet(job.as_bytes())] {
        assert_eq!(written.unwrap(), bytes(2));
    }
    assert_eq!(counted(&sheet(&job).unwrap()), (2, 3, vec!["1.10".to_string()]));
    assert_eq!(sheet(&job), strict_sheet(&job));
}

#[test]
fn a_count_from_none_to_all_is_read() {
    for count in 0..=3 {
        let sheet = Sheet::from_bytes(&bytes(count)).unwrap();
        assert_eq!(sheet.nodes_before_rounds(), usize::from(count));
        let added: Vec<NodeId> = sheet.added_nodes().map(|(node, _)| node).collect();
        assert_eq!(added, (count..3).map(NodeId).collect::<Vec<_>>());
        assert_eq!(sheet.added_nodes().len(), added.len());
        for node in (0..=3).chain([u16::MAX]).map(NodeId) {
            assert_eq!(sheet.is_added(node), added.contains(&node), "{node} from {count} on");
        }
    }
}

#[test]
fn a_larger_count_is_malformed_with_its_place() {
    for count in [4, 256, 512, u16::MAX] {
        let why = Sheet::from_bytes(&bytes(count)).unwrap_err();
        assert_eq!(why.byte(), COUNT);
        assert_eq!(
            why.to_string(),
            "the field at byte 8 is outside its range: how many nodes before the first round \
             (0 to the number of nodes)"
        );
    }
    for length in [COUNT, COUNT + 1] {
        let why = Sheet::from_bytes(&bytes(2)[..length]).unwrap_err().to_string();
        let ends = "the bytes end within the field at byte 8: how many nodes before the first round ";
        assert!(why.starts_with(ends), "{why}");
    }
}

/// The head of the sheet before it had the count.
#[test]
fn a_sheet_without_the_count_is_not_read() {
    let old = [&bytes(2)[..COUNT], &bytes(2)[COUNT + 2..]].concat();
    assert_eq!(Sheet::from_bytes(&old).unwrap_err().byte(), COUNT);
}

#[test]
fn nodes_that_are_there_already_are_not_added() {
    let of = |text| counted(&sheet(&job(text)).unwrap());
    assert_eq!(of(THERE_ALREADY), (3, 3, Vec::new()));
    assert_eq!(of(ON_THE_WAY), (3, 5, ["1.10", "1.10?.11"].map(String::from).to_vec()));
    assert_eq!(of(TWO_ROUNDS), (4, 6, ["1.10?.11", "1.10.11"].map(String::from).to_vec()));
    assert_eq!(of("scope 7 block 7 candidate 1.10"), (0, 0, Vec::new()));
}

/// Before the first round both have the same nodes; how many reduction adds depends on what blocks
/// take over.
#[test]
fn each_propagation_adds_its_own_nodes() {
    let (existing, strict) = (sheet(&job(TOLD_APART)).unwrap(), strict_sheet(&job(TOLD_APART)).unwrap());
    assert_eq!(counted(&existing), (3, 5, ["1.10", "1.10.10"].map(String::from).to_vec()));
    assert_eq!(counted(&strict), (3, 6, ["1?.10.10", "1.10", "1.10.10"].map(String::from).to_vec()));
}

/// The assumed paths and what they start with, in one form each.
fn entered(job: &Job) -> BTreeSet<String> {
    let assumed = job.blocks().iter().flat_map(|block| block.all_assumed());
    assumed
        .flat_map(|path| (0..=path.entries().len()).map(|length| format!("{:#}", path.prefix(length))))
        .collect()
}

#[test]
fn before_the_first_round_there_are_the_assumed_paths_and_what_they_start_with() {
    let mut added = [0, 0];
    for job in jobs(41, 4_000) {
        let entered = entered(&job);
        assert_eq!(job.nodes_before_rounds(), entered.len(), "{job}");
        for (count, sheet) in added.iter_mut().zip([sheet(&job), strict_sheet(&job)]) {
            let Ok(sheet) = sheet else { continue };
            assert_eq!(sheet.nodes_before_rounds(), entered.len(), "{job}");
            for (node, _) in sheet.nodes() {
                let path = format!("{:#}", sheet.path(node));
                assert_eq!(sheet.is_added(node), !entered.contains(&path), "{path} of {job}");
            }
            *count += sheet.added_nodes().len();
        }
    }
    assert!(added.iter().all(|&count| count > 1_000), "{added:?}");
}

#[test]
fn a_sheet_says_how_many_there_are_and_marks_those_that_were_added() {
    assert_eq!(
        sheet(&job(SMALLEST)).unwrap().to_string(),
        "\
rounds 2, settled
nodes 3: 2 before the first round, 1 added by reduction
node 0 1
node 1 1?.10
node 2 1.10, added by reduction
block 7 holds 1, 1.10
"
    );
    let named =
        job("name 1 athlete name .10 name scope 7 block 7 assumes reactive athlete@3, athlete?.name@4");
    let shown = sheet(&named).unwrap().with_names(named.names()).to_string();
    assert!(shown.contains("\nnode 2 reactive athlete@3.name@4, added by reduction\n"), "{shown}");
    let none = sheet(&job(THERE_ALREADY)).unwrap().to_string();
    assert!(none.contains("\nnodes 3: 3 before the first round, 0 added by reduction\n"), "{none}");
    assert!(!none.contains(", added"), "{none}");
}
