//! What the tool says of the nodes before the first round, and of those that reduction added.

use crate::{message, text};

const JOB: &str = "name 1 athlete name .10 lastSession scope 1 block 0 assumes athlete
    block 1 after 0 assumes athlete?.lastSession candidate athlete.lastSession.11";

#[test]
fn a_sheet_counts_and_marks_them() {
    assert_eq!(
        text(&["sheet"], JOB),
        "\
rounds 2, settled
nodes 3: 2 before the first round, 1 added by reduction
node 0 athlete
node 1 athlete?.lastSession
node 2 athlete.lastSession, added by reduction
block 0 holds athlete, athlete.lastSession
block 1 holds athlete, athlete.lastSession
"
    );
    let last = *b"\x02\x00";
    let bytes = crate::written(&["sheet", "--bytes"], JOB);
    assert_eq!((&bytes[..4], &bytes[8..10]), (&b"SH\x03\x00"[..], &last[..]));
}

#[test]
fn an_explanation_ends_with_them() {
    let short = "\n\nnodes 3: 2 before the first round, 1 added by reduction: athlete.lastSession\n";
    assert!(text(&["explain"], JOB).ends_with(short));
    let full = "\n\nnodes 3: 2 before the first round, 1 added by reduction\n    \
                athlete.lastSession in round 1, forward walk: \
                block 1 made athlete?.lastSession, which it assumes, into athlete.lastSession, since it had \
                athlete\n";
    assert!(text(&["explain", "--all"], JOB).ends_with(full));
}

#[test]
fn so_it_does_where_none_was_added_and_by_the_strict_propagation() {
    let none = "\n\nnodes 1: 1 before the first round, 0 added by reduction\n";
    let job = "scope 1 block 0 assumes 1 block 1 after 1, 0 candidate 1.10";
    for words in [&["explain", "--strict"][..], &["explain", "--strict", "--all"]] {
        assert!(text(words, job).ends_with(none), "{words:?}");
    }
    // Without `--strict` there is a word on it after them.
    assert!(text(&["explain"], job).contains(&format!("{none}\n")));
    let job = "scope 1 block 0 assumes 1 block 1 after 1, 0 assumes 1?.10";
    let there = text(&["explain", "--strict", "--all"], job);
    let line = "\n    1.10 in round 1, backward walk: block 0 made 1?.10 into 1.10, since it had 1; \
                1?.10 comes from block 1, which assumes it\n";
    assert!(there.contains(line), "{there}");
    assert!(text(&["sheet", "--strict"], job).contains("\nnode 2 1.10, added by reduction\n"));
}

#[test]
fn a_picture_has_them_under_its_title() {
    for words in [&["draw"][..], &["draw", "--focus"], &["draw", "--strict"]] {
        let picture = text(words, JOB);
        assert!(
            picture
                .contains(">nodes 3: 2 before the first round, 1 added by reduction: athlete.lastSession<"),
            "{words:?}"
        );
        assert!(picture.contains("<tspan class=\"added\">+athlete.lastSession</tspan>"), "{words:?}");
    }
}

/// Paths for one block, with 360 nodes before the first round, to which reduction adds 240.
fn too_many() -> String {
    (0..120).map(|variable| format!(" assumes {variable}, {variable}?.10?.11")).collect()
}

#[test]
fn a_message_on_too_many_nodes_has_those_before_the_first_round() {
    let refusal = "refusal 9, ManyNodes: the registry has more than 512 nodes when propagation ends";
    let nodes = "360 of them before the first round, so that reduction added 153 or more";
    let [plain, other] = ["", " after 0"].map(|after| format!("scope 0 block 0{after}{}", too_many()));
    for command in ["answer", "sheet", "explain", "draw"] {
        let ends = |words: &[&str], job: &str, hint: &str| {
            let due = format!("scope-deps: standard input: {refusal}; {nodes}{hint}\n");
            assert_eq!(message(&[&[command], words].concat(), job, 1), due);
        };
        // Without loops both propagations are the same.
        ends(&[], &plain, "");
        ends(&["--strict"], &plain, "");
        ends(&[], &other, "; with `--strict` it is refused, too");
        ends(&["--strict"], &other, "; without `--strict` it is refused, too");
    }
    assert!(message(&["sheet", "--bytes"], &plain, 1).contains(nodes));
}

/// The blocks, and others that assume so many variables and stand alone.
fn filled(blocks: &str, variables: u32) -> String {
    let block = |first| {
        let paths =
            (first..variables.min(first + 200)).map(|variable| format!(" assumes {}", 100 + variable));
        format!(" block {}{}", 1000 + first, paths.collect::<String>())
    };
    format!("scope 1 {blocks}{}", (0..variables).step_by(200).map(block).collect::<String>())
}

/// In the first job reduction adds a node by the existing propagation alone, in the second two by
/// that and three by the strict one.
#[test]
fn a_message_on_too_many_nodes_says_whether_the_other_propagation_refuses_the_job() {
    let existing = "block 0 assumes 1 block 1 after 1, 0 assumes 1?.10 block 2 after 0";
    let strict = "block 0 assumes 1 block 1 after 1, 0 assumes 1?.10, 1?.10?.10";
    let [more, less] = [filled(existing, 510), filled(strict, 507)];
    let said = message(&["sheet"], &more, 1);
    let hint = "512 of them before the first round, so that reduction added 1 or more; with `--strict` it is not refused\n";
    assert!(said.ends_with(hint), "{said}");
    assert!(text(&["sheet", "--strict"], &more).contains("\nnodes 512: 512 before the first round, 0 added"));
    let said = message(&["sheet", "--strict"], &less, 1);
    let hint = "510 of them before the first round, so that reduction added 3 or more; without `--strict` it is not refused\n";
    assert!(said.ends_with(hint), "{said}");
    assert!(text(&["sheet"], &less).contains("\nnodes 512: 510 before the first round, 2 added"));
}

/// Repeated paths and spans make no nodes; optional marks and kinds of properties do. Before the
/// first round there are as many by either propagation, so there is no word on the other.
#[test]
fn the_nodes_before_the_first_round_may_be_too_many_themselves() {
    let path =
        |variable| format!(" assumes {variable}.10.11, {variable}@5.10@6, {variable}?.10, {variable}[10]");
    let [of_0, of_1] = [0..60, 60..120].map(|variables| variables.map(path).collect::<String>());
    let job = format!("scope 1 block 0{of_0} block 1 after 1, 0{of_1}");
    for words in [&["sheet"][..], &["sheet", "--strict"]] {
        let said = message(words, &job, 1);
        assert!(said.ends_with("when propagation ends; 600 already before the first round\n"), "{said}");
    }
}

#[test]
fn a_loop_of_several_blocks_is_a_loop_and_a_diamond_is_none() {
    let diamond = "block 1 after 0 block 2 after 0 block 3 after 1, 2";
    let around = "block 1 after 0, 3 block 2 after 1 block 3 after 2";
    for (blocks, has_loop) in [(diamond, false), (around, true)] {
        let said = message(&["answer"], format!("scope 0 block 0{} {blocks}", too_many()), 1);
        assert_eq!(said.contains("with `--strict` it is refused, too"), has_loop, "{said}");
    }
}
