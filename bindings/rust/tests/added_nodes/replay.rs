//! Replays: the same count by a run of their own, and the place at which each node was added.

use crate::common::jobs;
use crate::{job, BACKWARD, ON_THE_WAY, SMALLEST, THERE_ALREADY, TOLD_APART, TWO_ROUNDS};
use scope_deps::replay::{Replay, Side};
use scope_deps::{raw, sheet, strict_sheet, Job, NodeId, Sheet};

/// Where nodes were added: round, side, the block's place in the job, and the nodes' paths.
type Place = (u8, Side, usize, Vec<String>);

fn places(replay: &Replay) -> Vec<Place> {
    let mut places = Vec::new();
    for visit in replay.visits() {
        for replaced in visit.replaced.iter().filter(|replaced| !replaced.added.is_empty()) {
            let paths = replaced.added.iter().map(|&node| format!("{:#}", replay.path(node))).collect();
            places.push((visit.round, visit.side, visit.block, paths));
        }
    }
    places
}

fn place(round: u8, side: Side, block: usize, paths: &[&str]) -> Place {
    (round, side, block, paths.iter().map(|path| path.to_string()).collect())
}

#[test]
fn nodes_are_added_at_their_round_walk_and_block() {
    let of = |text| places(&Replay::new(&job(text)).unwrap());
    let forward = |round, block, paths: &[&str]| place(round, Side::Predecessors, block, paths);
    assert_eq!(of(SMALLEST), [forward(1, 0, &["1.10"])]);
    assert_eq!(of(THERE_ALREADY), []);
    assert_eq!(of(ON_THE_WAY), [forward(1, 0, &["1.10", "1.10?.11"])]);
    assert_eq!(of(TWO_ROUNDS), [forward(1, 3, &["1.10?.11"]), forward(2, 3, &["1.10.11"])]);
    assert_eq!(of(BACKWARD), [place(1, Side::Successors, 0, &["1.10"])]);
    assert_eq!(of(TOLD_APART), [forward(1, 1, &["1.10"]), forward(1, 1, &["1.10.10"])]);
    let strict = places(&Replay::strict(&job(TOLD_APART)).unwrap());
    assert_ne!(strict, of(TOLD_APART));
    assert_eq!(strict.iter().map(|(.., paths)| paths.len()).sum::<usize>(), 3);
}

/// That the nodes from the count on are added one after the other, each for a path that it is on
/// the way to.
fn check_added(job: &Job, replay: &Replay) {
    let mut next = replay.nodes_before_rounds();
    for replaced in replay.visits().iter().flat_map(|visit| &visit.replaced) {
        let to = replay.path(replaced.to);
        for &node in &replaced.added {
            assert_eq!(usize::from(node.0), next, "{job}");
            let path = replay.path(node);
            assert!(to.prefix(path.entries().len()).same_entries(&path), "{job}");
            next += 1;
        }
        assert!(replaced.added.is_empty() || replaced.added.last() == Some(&replaced.to), "{job}");
    }
    assert_eq!(next, replay.nodes().len(), "{job}");
}

#[test]
fn the_replay_counts_as_the_library_does() {
    let mut added = 0;
    for job in jobs(42, 4_000) {
        for (replay, sheet) in [(Replay::new(&job), sheet(&job)), (Replay::strict(&job), strict_sheet(&job))]
        {
            let (Ok(replay), Ok(sheet)) = (replay, sheet) else { continue };
            assert_eq!(replay.nodes_before_rounds(), sheet.nodes_before_rounds(), "{job}");
            check_added(&job, &replay);
            added += sheet.added_nodes().len();
        }
    }
    assert!(added > 2_000, "{added}");
}

#[test]
fn a_sheet_with_another_count_is_not_agreed_with() {
    let job = job(SMALLEST);
    let (replay, bytes) = (Replay::new(&job).unwrap(), raw::sheet(job.as_bytes()).unwrap());
    for count in 0..=3 {
        let mut bytes = bytes.clone();
        bytes[8] = count;
        let sheet = Sheet::from_bytes(&bytes).unwrap();
        assert_eq!(replay.agrees_with(&job, &sheet), count == 2, "{count}");
    }
    assert!(format!("{replay:?}").contains("nodes_before_rounds: 2"), "{replay:?}");
    assert_eq!(replay.nodes().map(|node| node.0).collect::<Vec<_>>(), [0, 1, 2]);
    assert_eq!(replay.visits()[0].replaced[0].added, [NodeId(2)]);
}
