//! The examples of the specification and those of src/examples.rs, through the oracle.
#![cfg(reference)]

mod common;

use common::{answer, block, hex, job, node_text, set_text, sets, sheet, texts};
use compare::examples::{example, examples};
use compare::job::{Block, Entry, Job, Path, Property, limits};
use compare::oracle::{Both, Oracle};
use compare::output::Sheet;
use compare::propagation::Propagation::Existing;

fn run(job: &Job) -> Both {
    Oracle::open().unwrap().both(Existing, &job.to_bytes(), limits::OUT_BYTES)
}

const EXAMPLE: &str = "4844 0100 0100 07000000 / 424C 07000000 00 01 00 / 5041 01000000 01 00000000 00 /
    4341 01000000 01 05000000 01 00 00 0A00000000000000 06000000";

#[test]
fn the_bytes_case() {
    let mut oracle = Oracle::open().unwrap();
    let job = hex(EXAMPLE);
    let answer = hex("414E 0100 01 01 / 4445 01000000 01 06000000 01 00 00 0A00000000000000 06000000");
    assert_eq!(oracle.answer(Existing, &job, limits::OUT_BYTES), Ok(answer.clone()));
    let mut sheet = hex("5348 0100 0100 01 01 0100 / 4E4F FFFF 01000000 00 00 0000000000000000 00000000 01");
    sheet.extend(hex("5345 07000000 01"));
    sheet.extend([0; 63]);
    assert_eq!(oracle.sheet(Existing, &job, limits::OUT_BYTES), Ok(sheet.clone()));
    let both = oracle.both(Existing, &job, limits::OUT_BYTES);
    assert_eq!((both.answer, both.sheet), (Ok(answer), Ok(sheet)));
}

/// Block 7 assumes 1 and 1?.n with n a number; reduction makes the node 1.n.
#[test]
fn a_sheet_with_a_made_node() {
    let entry = Entry { optional: true, property: Property::Number(0x8000_0000_0000_0000), span: 9 };
    let root = Path { identifier: 1, reactive: true, span: 3, entries: vec![] };
    let child = Path { identifier: 1, reactive: false, span: 4, entries: vec![entry] };
    let block = Block { id: 7, predecessors: vec![], reads: vec![], assumed: vec![root, child] };
    let both = run(&Job { scope: 7, blocks: vec![block], candidates: vec![] });
    let mut expected = hex("5348 0300 0100 02 01 0200
         4E4F FFFF 01000000 00 00 0000000000000000 03000000 01
         4E4F 0000 01000000 01 01 0000000000000080 09000000 01
         4E4F 0000 01000000 00 01 0000000000000080 09000000 01
         5345 07000000 05");
    expected.extend([0; 63]);
    assert_eq!(both.sheet, Ok(expected));
    assert_eq!(both.answer, Ok(hex("414E 0000 02 01")));
    let counts = both.counts.unwrap();
    assert_eq!((counts.nodes_before, counts.nodes), (2, 3));
}

fn returned(hoistable: &str, candidates: &str) -> String {
    let both = run(&job(7, vec![block(7, &[], hoistable)], candidates));
    texts(&answer(&both.answer.unwrap()).returned)
}

#[test]
fn t1_to_t8() {
    assert_eq!(returned("1", "1.10.11"), "1.10");
    assert_eq!(returned("1", "1?.10"), "1.10");
    assert_eq!(returned("", "1.10"), "1");
    assert_eq!(returned("", "1?.10.11"), "1?.10");
    assert_eq!(returned("1?.10", "1?.10.11"), "1?.10.11");
    assert_eq!(returned("1?.10", "1?.10, 1.10"), "1");
    assert_eq!(returned("1", "1.11, 1.10"), "1.11, 1.10");
    assert_eq!(returned("1.10", "1.10.11, 1.10"), "1.10");
}

#[test]
fn a_later_plain_path_does_not_make_an_optional_position_non_null() {
    assert_eq!(returned("1.11, 1?.10", "1.12"), "1");
    assert_eq!(returned("1.11", "1.12"), "1.12");
}

#[test]
fn minus_zero_and_names_are_other_properties_than_plus_zero() {
    let entry = |property| Entry { optional: false, property, span: 0 };
    let path = |entries: Vec<Entry>| Path { identifier: 1, reactive: false, span: 0, entries };
    let hoistable = path(vec![entry(Property::Number(0))]);
    let blocks = vec![Block { id: 7, predecessors: vec![], reads: vec![], assumed: vec![hoistable] }];
    let below = |property| path(vec![entry(property), entry(Property::Name(5))]);
    let kinds = [Property::Number(0), Property::Number(1 << 63), Property::Name(0)];
    let both = run(&Job { scope: 7, blocks, candidates: kinds.map(below).to_vec() });
    let lengths: Vec<usize> =
        answer(&both.answer.unwrap()).returned.iter().map(|path| path.entries.len()).collect();
    assert_eq!(lengths, [2, 1, 1]);
}

fn reduced(set: &str) -> String {
    let both = run(&job(7, vec![block(7, &[], set)], ""));
    set_text(&sheet(&both.sheet.unwrap()), 7)
}

#[test]
fn r1_and_r2() {
    assert_eq!(reduced("1, 1?.10?.11"), "1, 1.10?.11");
    assert_eq!(reduced("1, 1.10, 1?.10?.11"), "1, 1.10, 1.10.11");
}

fn propagated(blocks: Vec<Block>) -> Sheet {
    let scope = blocks[0].id;
    sheet(&run(&job(scope, blocks, "")).sheet.unwrap())
}

#[test]
fn p1_a_path_on_both_sides() {
    let sheet =
        propagated(vec![block(0, &[], ""), block(1, &[0], "5"), block(2, &[0], "5"), block(3, &[1, 2], "")]);
    assert_eq!(sets(&sheet), ["5", "5", "5", "5"]);
    assert_eq!((sheet.rounds, sheet.settled), (2, true));
}

#[test]
fn p2_a_path_on_one_side() {
    let sheet =
        propagated(vec![block(0, &[], ""), block(1, &[0], "5"), block(2, &[0], ""), block(3, &[1, 2], "")]);
    assert_eq!(sets(&sheet), ["", "5", "", ""]);
    assert_eq!((sheet.rounds, sheet.settled), (1, true));
}

#[test]
fn p3_a_loop() {
    let sheet = propagated(vec![
        block(0, &[], ""),
        block(1, &[0, 3], ""),
        block(2, &[1], "5"),
        block(3, &[1, 2], ""),
        block(4, &[1], ""),
    ]);
    assert_eq!(sets(&sheet), ["", "", "5", "5", ""]);
    assert_eq!((sheet.rounds, sheet.settled), (2, true));
}

/// The sets, rounds and returned paths of the example of this name; its last round changes nothing.
fn of_example(name: &str) -> (String, u8, String) {
    let both = run(&example(name));
    let sheet = sheet(&both.sheet.unwrap());
    assert!(sheet.settled, "{name}");
    (sets(&sheet).join("; "), sheet.rounds, texts(&answer(&both.answer.unwrap()).returned))
}

#[test]
fn named_examples() {
    const MINUS_ZERO: &str = "1[0x8000000000000000]";
    let expected = [
        ("entered-in-job-order", "5, 1; 5, 1", 2, ""),
        ("changed-by-set", "1, 1.10", 2, ""),
        ("forward-in-job-order", "5; 5", 2, ""),
        ("backward-in-reverse", "5; 5", 2, ""),
        ("successors-ascend", "5; 5; 5", 2, ""),
        ("successors-not-in-reverse", "5; 5; 5", 2, ""),
        ("predecessors-as-recorded", "; ; 5", 1, ""),
        ("predecessors-not-descending", "; 5; ", 1, ""),
        ("forward-first", "5; 5; 5; 5", 2, ""),
        ("avoided-in-a-loop", "; ; 5; 5; ", 2, "5.10"),
        ("optional-ahead", "1.11, 1?.10", 1, "1"),
        ("plain-order-kept", "1.10, 1.10.11", 2, "1.10.12"),
        ("plain-order-kept-in-a-reduced-set", "1.10.11, 1.10?.12", 1, "1.10.13"),
        ("optional-order-kept", "1?.10.11, 1?.10?.12", 1, "1?.10.13"),
        ("same-zero", "1[0x0]", 1, "1[0x0].11"),
        ("two-zeros", "1[0x0]", 1, MINUS_ZERO),
        ("two-zeros-returned", "1", 1, &format!("1[0x0], {MINUS_ZERO}")),
        ("two-nans", "1[0x7ff8000000000000]", 1, "1[0x7ff8000000000001]"),
        ("name-and-number", "1.5", 1, "1[0x4014000000000000]"),
        ("number-and-name", "1[0x4014000000000000]", 1, "1.5"),
    ];
    for (name, sets, rounds, returned) in expected {
        assert_eq!(of_example(name), (sets.to_string(), rounds, returned.to_string()), "{name}");
    }
    // Those that follow are for thin jobs (tests/thin.rs) and the strict propagation
    // (tests/strict.rs).
    let names: Vec<&str> = examples().iter().map(|example| example.name).collect();
    assert!(names.iter().take(expected.len()).eq(expected.iter().map(|(name, ..)| name)));
    assert_eq!(names[expected.len()], "repeats-in-block-and-candidates");
}

#[test]
fn nodes_are_numbered_as_made() {
    let sheet = propagated(vec![block(1, &[], "2.20, 1"), block(0, &[1], "1?.10, 2.20.21")]);
    let nodes: Vec<String> = (0..sheet.nodes.len()).map(|node| node_text(&sheet, node)).collect();
    assert_eq!(nodes, ["2", "2.20", "1", "1?.10", "2.20.21", "1.10"]);
}

#[test]
fn refusals_reach_both_operations() {
    let mut oracle = Oracle::open().unwrap();
    assert_eq!(oracle.answer(Existing, &hex(EXAMPLE), limits::OUT_BYTES - 1), Err(1));
    assert_eq!(oracle.sheet(Existing, &[], limits::OUT_BYTES), Err(3));
    // 128 paths of four entries and their root are 513 nodes, 127 and three entries 512.
    let wide = |last: &str| {
        let mut paths: Vec<String> = (0..127).map(|n| format!("1.{n}.1.1.1")).collect();
        paths.push(last.to_string());
        job(7, vec![block(7, &[], &paths.join(", "))], "")
    };
    assert_eq!(run(&wide("1.200.1.1.1")).answer, Err(9));
    assert_eq!(run(&wide("1.200.1.1.1")).sheet, Err(9));
    assert_eq!(sheet(&run(&wide("1.200.1.1")).sheet.unwrap()).nodes.len(), 512);
}

#[test]
fn every_bit_pattern_of_a_number_survives() {
    use compare::reference::FloatValue;
    let mut patterns: Vec<u64> = (0..64).flat_map(|bit| [1 << bit, !(1 << bit)]).collect();
    // Signalling and quiet NaNs of both signs, infinities and zeros, with neighbours.
    for high in [0x7ff0u64, 0xfff0, 0x7ff8, 0xfff8, 0x7ff4, 0, 0x8000] {
        patterns.extend((0..3).flat_map(|low| [(high << 48) + low, (high << 48).wrapping_sub(low)]));
    }
    let mut state = 1u64;
    patterns.extend((0..100_000).map(|_| {
        state = state.wrapping_mul(6_364_136_223_846_793_005).wrapping_add(1);
        state | if state & 4 == 0 { 0x7ff0 << 48 } else { 0 }
    }));
    for bits in patterns {
        let value = FloatValue::new(f64::from_bits(std::hint::black_box(bits)));
        assert_eq!(value.value().to_bits(), bits, "{bits:016x}");
    }
}
