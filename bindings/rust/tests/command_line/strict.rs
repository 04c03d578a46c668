//! `--strict`: the strict propagation, for the commands that propagate.

use crate::common::{jobs, repository};
use crate::{message, text, written};
use scope_deps::{draw, explain, raw, strict_answer, strict_sheet, Job};
use std::fs;

/// Where the propagations differ, and as small as can be.
const DIFFERENT: &str = "scope 1 block 0 assumes 1 block 1 after 1, 0 candidate 1.10";

#[test]
fn answers_and_sheets_are_those_of_the_strict_propagation() {
    assert_eq!(text(&["answer"], DIFFERENT), "rounds 2, settled\nreturned 1.10\n");
    assert_eq!(text(&["answer", "--strict"], DIFFERENT), "rounds 1, settled\nreturned 1\n");
    let holds = "rounds 1, settled\nnodes 1: 1 before the first round, 0 added by reduction\n\
                 node 0 1\nblock 0 holds 1\nblock 1 holds nothing\n";
    assert_eq!(text(&["sheet", "--strict"], DIFFERENT), holds);
    let job: Job = DIFFERENT.parse().unwrap();
    let (answer, sheet) = (raw::strict_answer(job.as_bytes()), raw::strict_sheet(job.as_bytes()));
    assert_eq!(written(&["answer", "--strict", "--bytes"], DIFFERENT), answer.unwrap());
    assert_eq!(written(&["sheet", "--bytes", "--strict"], job.as_bytes()), sheet.unwrap());
}

#[test]
fn explanations_and_pictures_are_those_of_the_strict_propagation() {
    let job: Job = fs::read_to_string(repository("examples/loop.job")).unwrap().parse().unwrap();
    let (sheet, answer) = (strict_sheet(&job).unwrap(), strict_answer(&job).unwrap());
    let explanation = explain::explain_strict(&job, &sheet, &answer).unwrap();
    let loop_job = job.to_string();
    assert_eq!(text(&["explain", "--strict"], &loop_job), explanation.to_string());
    assert_eq!(text(&["explain", "--strict", "--all"], &loop_job), explanation.in_full().to_string());
    let picture = draw::draw_strict(&job, &sheet, &answer).unwrap();
    assert_eq!(text(&["draw", "--strict"], &loop_job), picture);
    assert!(text(&["draw"], &loop_job) != picture);
}

#[test]
fn other_commands_take_no_strict() {
    for command in ["encode", "decode", "thin"] {
        let said = message(&[command, "--strict"], DIFFERENT, 2);
        assert!(said.contains("`--strict` is no option of this command"), "{command}: {said}");
    }
    assert!(message(&["answer", "--strict=1"], DIFFERENT, 2).contains("`--strict=1` is no option"));
}

/// The strict propagation has 600 nodes where the existing one has 500.
#[test]
fn refusal_9_is_that_of_the_propagation_that_was_asked_for() {
    let of_0: String = (0..100).map(|variable| format!(" assumes {variable}")).collect();
    let of_1 = (0..100).map(|variable| format!(" assumes {variable}?.10, {variable}?.10?.10"));
    let job = format!("scope 1 block 0{of_0} block 1 after 1, 0{}", of_1.collect::<String>());
    for command in ["answer", "sheet", "explain", "draw"] {
        assert!(!text(&[command], &job).is_empty());
        let said = message(&[command, "--strict"], &job, 1);
        assert!(said.contains("refusal 9, ManyNodes"), "{said}");
        let nodes = "; 300 of them before the first round, so that reduction added 213 or more";
        assert!(said.ends_with(&format!("{nodes}; without `--strict` it is not refused\n")), "{said}");
    }
}

/// What an explanation ends with where a returned path came past a block that was left out.
const LEFT_OUT: &str = "\n\nblocks on a loop were left out on the way of a path that a returned one rests on, so that a run of control \
                        may avoid those that assume it; with `--strict`, nothing is taken over where a block would be left out\n";

#[test]
fn an_explanation_with_a_block_left_out_ends_with_a_word_on_strict() {
    let [mut told, mut others] = [0; 2];
    let of_examples = ["loop", "diamond"].map(|name| repository(&format!("examples/{name}.job")));
    let of_examples = of_examples.map(|file| fs::read_to_string(file).unwrap().parse().unwrap());
    for job in of_examples.into_iter().chain(jobs(18, 150)) {
        if raw::answer(job.as_bytes()).is_err() {
            continue;
        }
        let (said, all) = (text(&["explain"], job.as_bytes()), text(&["explain", "--all"], job.as_bytes()));
        let lacks =
            said.lines().any(|line| line.contains(" left out block ") && line.contains("does not have"));
        let ends = said.ends_with(LEFT_OUT);
        assert!(ends || !lacks, "{said}");
        assert!(!ends || all.contains(" left out "), "{all}");
        assert_eq!(all.ends_with(LEFT_OUT), ends);
        if raw::strict_answer(job.as_bytes()).is_ok() {
            assert!(!text(&["explain", "--strict"], job.as_bytes()).contains("--strict"));
        }
        told += usize::from(ends);
        others += usize::from(!ends);
    }
    assert!(told > 2 && others > 50, "{told} {others}");
}

/// Block 2 takes 1 over backward from block 4, past block 3, which has it in the end by way of
/// block 2; so no line names a block that lacks it. The run 0, 2, 3, 1 avoids block 4.
#[test]
fn a_block_that_was_left_out_need_not_lack_the_path_in_the_end() {
    let job = "scope 0 block 0 block 1 after 3 block 2 after 0, 3 block 3 after 2 block 4 after 2 assumes 1
               candidate 1.10";
    let said = text(&["explain"], job);
    assert!(!said.contains("does not have") && said.ends_with(LEFT_OUT), "{said}");
    assert_eq!(text(&["answer", "--strict"], job), "rounds 1, settled\nreturned 1\n");
}
