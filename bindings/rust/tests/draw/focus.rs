//! The picture of the blocks that matter.

use crate::common::jobs;
use crate::read::{focused, focused_strict, whole, Picture};
use crate::{check_boxes, check_tags, titles};
use scope_deps::explain::{blocks_that_matter, explain, explain_strict, Explanation};
use scope_deps::{answer, sheet, strict_answer, strict_sheet, BlockId, Job};
use std::collections::BTreeSet;
use std::io::Write;
use std::process::{Command, Output, Stdio};

/// The ids of the blocks that are drawn.
fn drawn(picture: &Picture, job: &Job) -> BTreeSet<BlockId> {
    picture.groups().iter().map(|group| job.blocks()[group.block].id()).collect()
}

/// How many blocks the gaps stand for, gap by gap.
fn left_out(picture: &Picture) -> Vec<usize> {
    let marks = picture
        .lines()
        .filter(|line| line.starts_with("<text") && line.ends_with(" left out</tspan></text>"));
    let count = |line: &str| {
        line.rsplit_once('>')
            .unwrap()
            .0
            .rsplit_once("</tspan")
            .unwrap()
            .0
            .rsplit_once('>')
            .unwrap()
            .1
            .split(' ')
            .next()
            .unwrap()
            .parse()
            .unwrap()
    };
    marks.map(count).collect()
}

/// The blocks of a job that a text names after `block` or `blocks`.
fn named(text: &str, job: &Job) -> BTreeSet<BlockId> {
    let numbers = |words: &str| -> Vec<u32> {
        let words = words.split([',', ' ']).filter(|word| !word.is_empty() && *word != "and");
        let words: Vec<&str> = words.map(|word| word.trim_end_matches([':', ';', '.', '\n'])).collect();
        let ids: Vec<u32> = words.iter().map_while(|word| word.parse().ok()).collect();
        // In `blocks 1, 2 and 3 more` the last is a count.
        let counts = usize::from(words.get(ids.len()) == Some(&"more"));
        ids[..ids.len() - counts].to_vec()
    };
    let after = ["block ", "blocks "].into_iter().flat_map(|word| text.split(word).skip(1));
    after.flat_map(numbers).map(BlockId).filter(|&id| job.place_of(id).is_some()).collect()
}

/// That the blocks are drawn that the explanation names in short, but for reads that would not do,
/// and none that it does not name in full.
fn check_drawn(job: &Job, explanation: &Explanation, drawn: &BTreeSet<BlockId>) {
    let short = explanation.to_string();
    let of_read = |line: &str| line.contains(" counts as mutable there");
    let matters = |line: &&str| !of_read(line) || line.contains("; if it were kept, ");
    let in_short: BTreeSet<_> = named(&short.lines().filter(matters).collect::<Vec<_>>().join("\n"), job);
    assert!(in_short.is_subset(drawn), "{in_short:?} {drawn:?} {job}");
    let mut in_full = blocks_that_matter(explanation);
    in_full.insert(job.scope());
    assert!(drawn.is_subset(&in_full), "{drawn:?} {in_full:?} {job}");
}

/// Checks a picture of the blocks that matter, and says whether these are not all.
fn check_focused(job: &Job, explanation: &Explanation, picture: &Picture) -> bool {
    check_tags(&picture.0);
    check_boxes(&picture.0, &picture.rectangles());
    let drawn = drawn(picture, job);
    assert!(drawn.contains(&job.scope()));
    check_drawn(job, explanation, &drawn);
    assert_eq!(left_out(picture).iter().sum::<usize>() + drawn.len(), job.blocks().len(), "{job}");
    let arrows = picture.arrows();
    let (gaps, between): (Vec<_>, Vec<_>) = arrows.iter().partition(|arrow| arrow.class == "left-out");
    assert!(gaps.iter().all(|arrow| arrow.title.contains(" left out") && arrow.ends.len() == 1));
    let mut between: Vec<&str> = between.iter().map(|arrow| arrow.title).collect();
    between.sort();
    assert_eq!(between, titles(job, |id| drawn.contains(&id)), "{job}");
    drawn.len() < job.blocks().len()
}

#[test]
fn focus_draws_the_scope_block_and_those_that_are_named_and_counts_the_others() {
    let mut fewer = 0;
    for job in jobs(15, 800) {
        let Some(picture) = focused(&job) else { continue };
        let explanation = explain(&job, &sheet(&job).unwrap(), &answer(&job).unwrap()).unwrap();
        fewer += usize::from(check_focused(&job, &explanation, &picture));
    }
    assert!(fewer > 100);
}

#[test]
fn so_it_does_by_the_strict_propagation() {
    let mut fewer = 0;
    for job in jobs(15, 800) {
        let Some(picture) = focused_strict(&job) else { continue };
        let (sheet, answer) = (strict_sheet(&job).unwrap(), strict_answer(&job).unwrap());
        fewer += usize::from(check_focused(&job, &explain_strict(&job, &sheet, &answer).unwrap(), &picture));
    }
    assert!(fewer > 100);
}

#[test]
fn where_all_blocks_matter_focus_changes_nothing() {
    let job: Job = "scope 1 block 0 assumes 5 block 1 after 0 candidate 5.10".parse().unwrap();
    assert_eq!(focused(&job).unwrap().0, whole(&job).unwrap().0);
}

fn ids(ids: &[u32]) -> BTreeSet<BlockId> {
    ids.iter().map(|&id| BlockId(id)).collect()
}

#[test]
fn blocks_that_bring_a_path_or_stop_one_are_drawn_and_no_others() {
    // Blocks 0 and 1 lead to the fork and are followed by 7 and 8. Block 4 brings 5 by both its
    // predecessors, and stops 6, which comes from block 2 only.
    let job: Job = "scope 5
        block 0
        block 1 after 0
        block 2 after 1 assumes 5, 6
        block 3 after 1 assumes 5
        block 4 after 2, 3
        block 5 after 4
        block 7 after 5
        block 8 after 7
        candidate 5.10
        candidate 6.10.11"
        .parse()
        .unwrap();
    let picture = focused(&job).unwrap();
    assert_eq!(drawn(&picture, &job), ids(&[2, 3, 4, 5]));
    assert_eq!(left_out(&picture), [2, 2]);
    let arrows = picture.arrows();
    let gaps: BTreeSet<&str> =
        arrows.iter().filter(|arrow| arrow.class == "left-out").map(|arrow| arrow.title).collect();
    let expected = [
        "from 2 blocks left out to block 2",
        "from 2 blocks left out to block 3",
        "from scope block 5 to 2 blocks left out",
    ];
    assert_eq!(gaps, BTreeSet::from(expected));
    assert!(picture.0.contains("4 of 8 blocks, scope block 5"));
}

#[test]
fn a_block_that_brings_a_path_which_leaves_a_base_open_is_drawn() {
    let job: Job =
        "scope 2 block 0 block 1 after 0 assumes 1?.10 block 2 after 1 assumes 1.11 candidate 1.12"
            .parse()
            .unwrap();
    assert_eq!(drawn(&focused(&job).unwrap(), &job), ids(&[1, 2]));
}

#[test]
fn a_block_whose_only_predecessor_is_left_out_lists_its_paths() {
    let job: Job = "scope 1 block 0 assumes 7 block 1 after 0 candidate 6".parse().unwrap();
    let picture = focused(&job).unwrap();
    assert_eq!(drawn(&picture, &job), ids(&[1]));
    assert!(picture.0.contains("1 of 2 blocks") && !picture.0.contains("the same as"));
}

/// The tool with these words and this job on its input.
fn run(words: &[&str], job: &Job) -> Output {
    let mut tool = Command::new(env!("CARGO_BIN_EXE_scope-deps"));
    let tool = tool.args(words).stdin(Stdio::piped()).stdout(Stdio::piped()).stderr(Stdio::piped());
    let mut child = tool.spawn().unwrap();
    // A tool that stops before it reads closes its input; that is no fault here.
    let _ = child.stdin.take().unwrap().write_all(job.to_string().as_bytes());
    child.wait_with_output().unwrap()
}

#[test]
fn the_tool_draws_with_focus_and_no_other_command_takes_it() {
    let job: Job = "scope 1 block 0 assumes 7 block 1 after 0 candidate 6".parse().unwrap();
    assert_eq!(run(&["draw", "--focus"], &job).stdout, focused(&job).unwrap().0.into_bytes());
    assert_eq!(run(&["draw"], &job).stdout, whole(&job).unwrap().0.into_bytes());
    let strict = run(&["draw", "--focus", "--strict"], &job).stdout;
    assert_eq!(strict, focused_strict(&job).unwrap().0.into_bytes());
    let output = run(&["explain", "--focus"], &job);
    assert_eq!(output.status.code(), Some(2));
    assert!(String::from_utf8_lossy(&output.stderr).contains("`--focus` is no option of this command"));
}
