//! Where nodes come from: the examples of src/examples.rs by the Rust and strictly, what a sheet
//! must tell of it, and generated jobs.
#![cfg(reference)]

mod common;

use common::{block, hex, job, node_text, sheet, write};
use compare::comparison::Comparison;
use compare::comparison::nodes::Nodes;
use compare::comparison::run::{Generated, generated_jobs};
use compare::counts::Counts;
use compare::cover::node_features;
use compare::entering::entered;
use compare::examples::{example, examples};
use compare::generate::generate;
use compare::job::{Job, limits};
use compare::library::Stage;
use compare::operation::Operation;
use compare::oracle::{All, Both, Oracle};
use compare::output::{Sheet, Written, read_sheet};
use compare::propagation::Mistake::PassesActiveOver;
use compare::propagation::Propagation::{self, Existing, Own, Strict};
use compare::reader::read_job;
use std::collections::BTreeMap;

fn run(propagation: Propagation, job: &Job) -> Both {
    Oracle::open().unwrap().both(propagation, &job.to_bytes(), limits::OUT_BYTES)
}

/// One block assumes 1 and 1?.10; reduction makes 1.10.
#[test]
fn the_bytes_case() {
    let job = job(7, vec![block(7, &[], "1, 1?.10")], "");
    let mut due = hex("5348 0300 0100 02 01 0200
         4E4F FFFF 01000000 00 00 0000000000000000 00000000 00
         4E4F 0000 01000000 01 00 0A00000000000000 00000000 00
         4E4F 0000 01000000 00 00 0A00000000000000 00000000 00
         5345 07000000 05");
    due.extend([0; 63]);
    for propagation in [Existing, Strict, Own(None)] {
        let both = run(propagation, &job);
        assert_eq!(both.sheet, Ok(due.clone()));
        assert_eq!(both.answer, Ok(hex("414E 0000 02 01")));
    }
}

/// Nodes before the first round and at the end, by the existing propagation and by the strict one.
const NODES: [(&str, [usize; 2], [usize; 2]); 27] = [
    ("changed-by-set", [2, 3], [2, 3]),
    ("two-zeros-returned", [1, 1], [1, 1]),
    ("same-path-in-two-blocks", [2, 2], [2, 2]),
    ("255-paths-without-repeat", [263, 263], [263, 263]),
    ("32768-bytes-without-repeat", [512, 512], [512, 512]),
    ("repeats-refused-by-9", [513, 513], [513, 513]),
    ("more-nodes-strictly", [3, 5], [3, 6]),
    ("fewer-nodes-strictly", [3, 5], [3, 3]),
    ("refused-by-the-existing-alone", [511, 513], [511, 511]),
    ("refused-strictly-alone", [510, 512], [510, 513]),
    ("no-nodes", [0, 0], [0, 0]),
    ("paths-share-nodes", [3, 3], [3, 3]),
    ("replaced-by-a-node-that-is-there", [3, 3], [3, 3]),
    ("one-node-made", [3, 4], [3, 4]),
    ("several-nodes-made", [4, 7], [4, 7]),
    ("made-on-the-way", [6, 9], [6, 9]),
    ("made-in-the-backward-walk", [2, 3], [2, 3]),
    ("made-strictly-alone", [5, 5], [5, 6]),
    ("fewer-made-strictly", [5, 8], [5, 6]),
    ("made-in-the-second-round", [4, 5], [4, 5]),
    ("made-in-two-rounds", [5, 7], [5, 7]),
    ("made-before-the-last-round", [10, 11], [10, 10]),
    ("made-in-the-last-round", [6, 7], [6, 6]),
    ("512-nodes-at-the-end", [511, 512], [511, 512]),
    ("513-nodes-by-reduction", [512, 513], [512, 513]),
    ("512-nodes-in-the-last-round", [511, 512], [511, 511]),
    ("513-nodes-in-the-last-round", [512, 513], [512, 512]),
];

#[test]
fn named_examples() {
    for (name, existing, strict) in NODES {
        for (propagation, due) in [(Existing, existing), (Strict, strict), (Own(None), strict)] {
            let both = run(propagation, &example(name));
            let counts = both.counts.unwrap();
            assert_eq!([counts.nodes_before, counts.nodes], due, "{name}, {propagation:?}");
            assert_eq!(both.answer.err(), (due[1] > limits::NODES).then_some(9), "{name}");
            if let Ok(bytes) = both.sheet {
                let sheet = sheet(&bytes);
                assert_eq!([sheet.nodes_before, sheet.nodes.len()], due, "{name}, {propagation:?}");
            }
        }
    }
}

/// Every example that is about nodes has its counts above.
#[test]
fn all_examples_of_nodes_are_there() {
    let names: Vec<&str> = examples().iter().map(|example| example.name).collect();
    let first = names.iter().position(|name| *name == "no-nodes").unwrap();
    assert_eq!(names[first - 1], "buffer-32767");
    // Those of raw reads follow (tests/reads.rs).
    let end = names.iter().position(|name| *name == "read-mutable").unwrap();
    let told = NODES.iter().map(|(name, ..)| *name).skip_while(|name| *name != "no-nodes");
    assert!(told.eq(names[first..end].iter().copied()));
}

/// Nodes before the first round, after its forward walk, after it, before the last round, and at
/// the end; rounds, and whether the last one changed nothing.
type ByRound = ([usize; 5], u8, bool);

/// By the existing propagation.
const BY_ROUND: [(&str, ByRound); 9] = [
    ("no-nodes", ([0, 0, 0, 0, 0], 1, true)),
    ("replaced-by-a-node-that-is-there", ([3, 3, 3, 3, 3], 2, true)),
    ("one-node-made", ([3, 4, 4, 4, 4], 2, true)),
    ("made-in-the-backward-walk", ([2, 2, 3, 3, 3], 2, true)),
    ("made-in-the-second-round", ([4, 4, 4, 5, 5], 3, true)),
    ("made-in-two-rounds", ([5, 5, 6, 7, 7], 3, true)),
    ("made-before-the-last-round", ([10, 10, 10, 11, 11], 100, true)),
    ("made-in-the-last-round", ([6, 6, 6, 6, 7], 100, false)),
    ("513-nodes-in-the-last-round", ([512, 512, 512, 512, 513], 100, false)),
];

#[test]
fn nodes_are_made_in_these_rounds() {
    for (name, due) in BY_ROUND {
        // The Rust tells of rounds, and the same propagation in the harness's words of the walk.
        let [rust, own] = [Existing, Own(Some(PassesActiveOver))].map(|by| run(by, &example(name)).counts);
        let Counts { nodes_before, nodes_after_first, nodes_before_last, nodes, .. } = rust.unwrap();
        let forward = own.unwrap().nodes_after_forward.unwrap();
        assert_eq!(Counts { nodes_after_forward: None, ..own.unwrap() }, rust.unwrap(), "{name}");
        let by_round = [nodes_before, forward, nodes_after_first, nodes_before_last, nodes];
        assert_eq!((by_round, rust.unwrap().rounds, rust.unwrap().settled), due, "{name}");
    }
    let replaces = |name| run(Existing, &example(name)).counts.unwrap().replaces;
    assert!(replaces("replaced-by-a-node-that-is-there") && !replaces("paths-share-nodes"));
}

#[test]
fn made_nodes_stand_after_the_others() {
    let sheet = sheet(&run(Existing, &example("made-on-the-way")).sheet.unwrap());
    let nodes: Vec<String> = (0..sheet.nodes.len()).map(|node| node_text(&sheet, node)).collect();
    assert_eq!(nodes[..6], ["1", "1.10", "1.10?.11", "1.10?.11?.12", "1?.10", "1?.10?.11"]);
    assert_eq!(nodes[6..], ["1.10.11", "1.10.11?.12", "1.10.11.12"]);
    assert_eq!(common::set_text(&sheet, 7), "1, 1.10, 1.10.11, 1.10.11.12");
}

/// What is said of a sheet with the head's count changed, and with a span of the last node's.
fn read_changed(name: &str, before: u16, last_span: u8) -> Result<Written<Sheet>, String> {
    let mut bytes = run(Existing, &example(name)).sheet.unwrap();
    bytes[8..10].copy_from_slice(&before.to_le_bytes());
    let nodes = usize::from(u16::from_le_bytes([bytes[2], bytes[3]]));
    bytes[10 + 23 * nodes - 5] = last_span;
    read_sheet(&bytes)
}

#[test]
fn a_sheet_is_read_back_only_with_a_count_that_can_be() {
    let fails = |name, before, span, part: &str| {
        let why = read_changed(name, before, span).unwrap_err();
        assert!(why.contains(part), "{name}, {before}: {why}");
    };
    for (name, [before, _], _) in NODES.iter().filter(|(_, [_, end], _)| (1..=limits::NODES).contains(end)) {
        let span = sheet(&run(Existing, &example(name)).sheet.unwrap()).nodes.last().unwrap().span;
        assert!(read_changed(name, *before as u16, span as u8).is_ok(), "{name}");
    }
    fails("one-node-made", 5, 0, "it has 5 nodes before the first round, and 4 at the end");
    fails("one-node-made", 65_535, 0, "it has 65535 nodes before the first round, and 4 at the end");
    // 1?.10?.11, which no other node reduces to, and then the root.
    fails("one-node-made", 2, 0, "node 2 is no node that reduction could make");
    fails("one-node-made", 0, 0, "node 0 is a root, and reduction makes none");
    // Reduction keeps spans.
    fails("one-node-made", 3, 4, "node 3 is no node that reduction could make");
    // 1.11 after 1.10, and 2.10 after 1.10: reduction keeps names and the root.
    fails("repeat-after-another", 2, 0, "node 2 is no node that reduction could make");
    fails("other-identifier", 3, 0, "node 3 is no node that reduction could make");
    // 1?.10 after 1.10: reduction makes no entry optional.
    fails("replaced-by-a-node-that-is-there", 2, 0, "node 2 is no node that reduction could make");
}

/// No node is made a second time: node 6 is 1.10.11?.12, and node 5, before it, 1.10.11.
#[test]
fn a_sheet_with_a_node_twice_is_not_read_back() {
    let mut bytes = run(Existing, &example("several-nodes-made")).sheet.unwrap();
    assert_eq!(node_text(&sheet(&bytes), 6), "1.10.11?.12");
    bytes.copy_within(10 + 5 * 23..10 + 6 * 23, 10 + 6 * 23);
    assert_eq!(read_sheet(&bytes), Err("node 6 was there before".into()));
}

/// The comparison holds the Rust's count, and the one that the harness writes, to the paths.
#[test]
fn a_count_other_than_that_of_the_assumed_paths_is_seen() {
    let (mut oracle, job) = (Oracle::open().unwrap(), example("made-in-two-rounds"));
    let all = oracle.all(&job.to_bytes(), limits::THIN_BYTES);
    let nodes = Nodes::of(&job, &all).unwrap();
    assert_eq!([nodes.existing.nodes_before, nodes.strict.nodes_before], [5, 5]);
    let with_other_sheet = |both: &Both| {
        let mut sheet = both.sheet.clone().unwrap();
        sheet[8] += 1;
        Both { sheet: Ok(sheet), ..both.clone() }
    };
    let with_other_count = |both: &Both| {
        let counts = both.counts.map(|counts| Counts { nodes_before: 4, ..counts });
        Both { counts, ..both.clone() }
    };
    let wrong = [
        (All { existing: with_other_sheet(&all.existing), ..all.clone() }, "has 5 nodes", "writes 6,"),
        (All { strict: with_other_sheet(&all.strict), ..all.clone() }, "has 5 nodes", "writes 6,"),
        (All { existing: with_other_count(&all.existing), ..all.clone() }, "has 4 nodes", "writes 5,"),
        (All { strict: with_other_count(&all.strict), ..all.clone() }, "has 4 nodes", "writes 5,"),
    ];
    for (all, counted, written) in wrong {
        let why = Nodes::of(&job, &all).unwrap_err();
        assert!(why.contains(counted) && why.contains(written) && why.contains("have 5 distinct"), "{why}");
    }
}

/// Generated jobs, with what is said of them.
fn generated(class: Option<&'static str>, count: u64) -> impl Iterator<Item = (Job, All)> {
    let mut oracle = Oracle::open().unwrap();
    (0..count).filter_map(move |number| {
        let generated = generate(21, number, class);
        let job = read_job(&generated.job, generated.out_len).ok()?;
        Some((job, oracle.all(&generated.job, generated.out_len)))
    })
}

#[test]
fn the_assumed_paths_nodes_come_first_and_the_others_are_of_reduction() {
    for (class, count) in [(None, 4000), (Some("reduction"), 2000), (Some("nodes-late"), 200)] {
        for (job, all) in generated(class, count) {
            let due = entered(&job);
            for both in [all.existing, all.strict] {
                assert_eq!(both.counts.unwrap().nodes_before, due.len());
                let Ok(bytes) = both.sheet else { continue };
                let sheet = sheet(&bytes);
                assert_eq!(sheet.nodes[..sheet.nodes_before], due);
            }
        }
    }
}

/// It is seen, and not proved: a visit that leaves a set as it was seems to make no node.
#[test]
fn a_last_round_that_changes_nothing_makes_no_node() {
    let mut unsettled = 0;
    for (class, count) in [(None, 4000), (Some("many-loops"), 3000), (Some("nodes-late"), 400)] {
        for (_, all) in generated(class, count) {
            for counts in [all.existing, all.strict].map(|both| both.counts.unwrap()) {
                assert!(!counts.settled || counts.made_in_last() == 0);
                unsettled += usize::from(counts.made_in_last() > 0);
            }
        }
    }
    assert!(unsettled > 10);
}

#[test]
fn generated_jobs_have_each_feature() {
    let mut met: BTreeMap<String, usize> = BTreeMap::new();
    let classes =
        [(None, 5000), (Some("nodes-late"), 500), (Some("repeats"), 1000), (Some("many-loops"), 2000)];
    for (class, count) in classes {
        for (_, all) in generated(class, count) {
            node_features(&all).into_iter().for_each(|feature| *met.entry(feature).or_default() += 1);
        }
    }
    let few: Vec<_> = met.iter().filter(|(_, count)| **count < 3).collect();
    assert!(met.len() == 17 && few.is_empty(), "{met:?}");
}

#[test]
fn the_class_has_what_it_promises() {
    let mut met: BTreeMap<String, usize> = BTreeMap::new();
    for (_, all) in generated(Some("nodes-late"), 1000) {
        node_features(&all).into_iter().for_each(|feature| *met.entry(feature).or_default() += 1);
    }
    let at_least = |feature: &str, least| assert!(met[feature] >= least, "{feature}: {met:?}");
    at_least("nodes: made in later rounds alone", 500);
    at_least("nodes: made in the first round and in later ones", 20);
    at_least("nodes: made in the last round", 20);
    at_least("nodes: 512 at the end, some made in the last round", 3);
    at_least("nodes: more than 512 by the last round alone", 3);
}

#[test]
fn a_run_says_where_nodes_come_from() {
    struct Same(Oracle);
    impl Stage for Same {
        fn call(&mut self, operation: Operation, job: &[u8], out: &mut [u8]) -> i64 {
            write(&self.0.say(operation, job, out.len()), out)
        }
    }
    let mut same = Same(Oracle::open().unwrap());
    let mut comparison = Comparison::new(Oracle::open().unwrap(), &mut same);
    let asked = Generated { seed: 12, first: 0, count: 60, time: None, class: Some("nodes-late") };
    let tally = generated_jobs(&mut comparison, &asked).unwrap();
    let nodes = &tally.nodes;
    assert_eq!((nodes.jobs, nodes.jobs_by_made.iter().sum::<usize>()), (60, 60));
    assert_eq!(nodes.jobs_by_round.iter().sum::<usize>() + nodes.jobs_by_made[0], 60);
    let (mut before, mut made) = (0, 0);
    for number in 0..60 {
        let generated = generate(12, number, Some("nodes-late"));
        let both = Oracle::open().unwrap().both(Existing, &generated.job, generated.out_len);
        let counts = both.counts.unwrap();
        (before, made) = (before + counts.nodes_before, made + counts.nodes - counts.nodes_before);
    }
    let start = format!("nodes of 60 jobs: {before} before the first round, {made} made by reduction; ");
    assert!(tally.text().contains(&start), "{}", tally.text());
}
