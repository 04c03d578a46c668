//! Explanations: what they say of jobs that show one thing each, and where nothing is explained.

mod common;

use common::{jobs, repository};
use scope_deps::explain::{
    blocks_that_matter, explain, explain_strict, Base, Elsewhere, End, Explanation, Mismatch,
};
use scope_deps::{answer, raw, sheet, strict_answer, strict_sheet, BlockId, Job, Sheet};
use std::collections::BTreeSet;
use std::process::Command;

fn explained(job: &Job) -> Option<Explanation> {
    let (sheet, answer) = (sheet(job).ok()?, answer(job).ok()?);
    Some(explain(job, &sheet, &answer).unwrap_or_else(|why| panic!("{why}:\n{job}")))
}

/// The same by the strict propagation.
fn strictly_explained(job: &Job) -> Option<Explanation> {
    let (sheet, answer) = (strict_sheet(job).ok()?, strict_answer(job).ok()?);
    Some(explain_strict(job, &sheet, &answer).unwrap_or_else(|why| panic!("{why}:\n{job}")))
}

fn explained_text(job: &str) -> Explanation {
    explained(&job.parse().unwrap()).unwrap()
}

/// What is said before the last part, which is on the nodes (`tests/added_nodes`).
fn before_nodes(said: &str) -> String {
    let (said, nodes) = said.rsplit_once("\nnodes ").unwrap_or_else(|| panic!("no nodes: {said}"));
    assert!(nodes.contains(" before the first round, ") && !nodes.contains("\n\n"), "{nodes}");
    said.to_string()
}

/// The explanation in short, but for the nodes.
fn short(job: &str) -> String {
    before_nodes(&explained_text(job).to_string())
}

/// The explanation in full, but for the nodes.
fn full(job: &str) -> String {
    before_nodes(&explained_text(job).in_full().to_string())
}

/// What is said of why the last entry of the last candidate is cut.
fn cut(job: &str) -> Vec<String> {
    cut_in(&short(job))
}

/// The same by the strict propagation.
fn strictly_cut(job: &str) -> Vec<String> {
    cut_in(&before_nodes(&strictly_explained(&job.parse().unwrap()).unwrap().to_string()))
}

fn cut_in(said: &str) -> Vec<String> {
    let lines = said.lines().skip_while(|line| !line.contains("  is cut: ")).skip(1);
    lines.map(|line| line.trim().to_string()).collect()
}

#[test]
fn the_page_of_an_athlete_without_a_last_session() {
    let job = std::fs::read_to_string(repository("examples/no-last-session.job")).unwrap();
    assert_eq!(
        short(&job),
        "\
candidate athlete.lastSession.beats
 returned athlete.lastSession
    .lastSession  stays plain: athlete is known to be there in block 2; it comes from block 0, which assumes it
    .beats        is cut: athlete.lastSession is not known to be there in block 2
                  block 1 assumes athlete.lastSession, but control can also come to block 2 from block 0, which does not have it
"
    );
    assert_eq!(
        full(&job),
        "\
candidate athlete.lastSession.beats
 returned athlete.lastSession
    .lastSession  stays plain: athlete is known to be there in block 2 [1]
    .beats        is cut: athlete.lastSession is not known to be there in block 2
                  athlete.lastSession is there in block 1 [2]
                  it stops at block 2: control comes there from block 1, which has it, but also from block 0, which does not
                  it stops at block 0: control goes on from there to block 1, which has it, but also to block 2, which does not

[1] how athlete came there
    block 0 assumes athlete
    block 1 took athlete over from block 0, the only block that control comes from
    block 2 took athlete over from blocks 0 and 1, all the blocks that control comes from

[2] how athlete.lastSession came there
    block 1 assumes athlete.lastSession
"
    );
}

#[test]
fn the_readme_shows_what_is_said() {
    let readme = std::fs::read_to_string(repository("README.md")).unwrap();
    let job = std::fs::read_to_string(repository("examples/no-last-session.job")).unwrap();
    let indented = |line: &str| if line.is_empty() { "\n".to_string() } else { format!("    {line}\n") };
    let shown: String = explained_text(&job).to_string().lines().map(indented).collect();
    let command = "    $ bin/scope-deps explain examples/no-last-session.job\n";
    assert!(readme.contains(&format!("{command}{shown}")), "{shown}");
}

#[test]
fn the_tool_shows_it_in_short_and_with_all_in_full() {
    let file = repository("examples/no-last-session.job");
    let said = explained_text(&std::fs::read_to_string(&file).unwrap());
    for (options, expected) in [(&[][..], said.to_string()), (&["--all"], said.in_full().to_string())] {
        let tool = env!("CARGO_BIN_EXE_scope-deps");
        let output = Command::new(tool).arg("explain").args(options).arg(&file).output().unwrap();
        assert!(output.status.success() && output.stderr.is_empty(), "{output:?}");
        assert_eq!(String::from_utf8(output.stdout).unwrap(), expected);
    }
}

#[test]
fn a_loop_is_told_as_it_was_walked() {
    let job =
        "scope 2 block 2 block 0 after 3, 1, 2 block 3 after 0, 1 block 1 after 0 assumes 2 candidate 2.10";
    let way = "
    block 1 assumes 2
    block 3 took 2 over from block 1, where control comes from, and left out block 0: on a loop with it, and not finished
    block 0 took 2 over from block 3, where control goes on, and left out block 1: on a loop with it, and not finished
    block 2 took 2 over from block 0, the only block that control goes on to\n";
    assert!(full(job).ends_with(way), "{}", full(job));
}

#[test]
fn a_block_that_was_left_out_and_does_not_have_the_path_is_told_in_short() {
    let job = std::fs::read_to_string(repository("examples/loop.job")).unwrap();
    let told = "
    .rate  stays plain: beat is known to be there in block 3; it comes from block 2, which assumes it
           block 3 left out block 1, which does not have beat: control comes from there too, but the two are on a loop\n";
    assert!(short(&job).ends_with(told), "{}", short(&job));
    // The same with all arrows turned.
    let turned = short(
        "scope 3 block 4 block 3 after 1 block 2 after 3 assumes 5 block 1 after 2, 3, 4 block 0 after 1
         candidate 5.10",
    );
    let told = "
         block 3 left out block 1, which does not have 5: control goes on there too, but the two are on a loop\n";
    assert!(turned.ends_with(told), "{turned}");
}

/// Block 1 lacks 5.6, by which the scope block knows 5, but assumes 5 itself.
#[test]
fn a_block_that_was_left_out_and_has_the_base_by_another_path_is_not_told_to_lack_it() {
    let said = short(
        "scope 3 block 0 block 1 after 0, 3 assumes 5 block 2 after 1 assumes 5.6 block 3 after 1, 2 \
         block 4 after 1 block 6 after 3 candidate 5.10",
    );
    assert!(said.contains("5 is known to be there in block 3, since 5.6 is"), "{said}");
    assert!(!said.contains("does not have"), "{said}");
}

#[test]
fn a_cut_on_the_way_after_the_scope_block_and_aside() {
    assert_eq!(
        cut("scope 4 block 0 block 1 after 0 assumes 5 block 2 after 0, 1 block 3 after 2 block 4 after 3 candidate 5.10"),
        ["block 1 assumes 5, but on the way to block 4 it stops at block 2: \
          control can also come there from block 0, which does not have it"]
    );
    assert_eq!(
        cut("scope 0 block 0 block 1 after 0 assumes 5 block 2 after 0 candidate 5.10"),
        ["block 1 assumes 5, but control can also go on from block 0 to block 2, which does not have it"]
    );
    assert_eq!(
        cut("scope 9 block 9 block 0 after 9 block 1 after 0 assumes 5 block 2 after 0 candidate 5.10"),
        ["block 1 assumes 5, but on the way to block 9 it stops at block 0: \
          control can also go on from there to block 2, which does not have it"]
    );
    assert_eq!(
        cut("scope 2 block 0 block 1 after 0 assumes 5 block 2 after 0 candidate 5.10"),
        ["block 1 assumes 5, but it stops at block 0: \
          control can also go on from there to block 2, which does not have it"]
    );
    assert_eq!(
        cut("scope 2 block 1 assumes 5 block 2 candidate 5.10"),
        ["block 1 assumes 5, but block 1 and block 2 are not connected"]
    );
}

#[test]
fn a_block_that_has_the_base_from_others() {
    assert_eq!(
        cut("scope 3 block 0 assumes 5.6 block 1 after 0 block 2 block 3 after 1, 2 candidate 5.10"),
        ["block 1 has 5.6 from block 0, which assumes it, and so has 5, \
          but control can also come to block 3 from block 2, which does not have it"]
    );
}

#[test]
fn all_blocks_that_have_the_base_are_told_and_in_full_how_each_came_to_have_it() {
    let job =
        "scope 5 block 0 block 1 after 0 assumes 7 block 2 after 0 assumes 7 block 3 after 0 assumes 7 \
               block 4 after 0 block 5 after 1, 2, 3, 4 candidate 7.1";
    let lacking = "control can also come to block 5 from block 4, which does not have it";
    assert_eq!(cut(job), [format!("blocks 1, 2 and 3 assume 7, but {lacking}")]);
    let section = "[1] how 7 came there
    block 1 assumes 7
    block 2 assumes 7
    block 3 assumes 7\n";
    assert!(full(job).ends_with(section), "{}", full(job));
    assert_eq!(
        cut("scope 4 block 0 assumes 5.6 block 1 after 0 block 2 after 0 block 3 block 4 after 1, 2, 3 candidate 5.10"),
        ["blocks 1 and 2 have 5.6 from block 0, which assumes it, and so have 5, \
          but control can also come to block 4 from block 3, which does not have it"]
    );
    assert_eq!(
        cut("scope 4 block 0 assumes 5 block 1 after 0 block 2 assumes 5 block 3 block 4 after 1, 2, 3 candidate 5.10"),
        ["block 2 assumes 5, and block 1 has it too, \
          but control can also come to block 4 from block 3, which does not have it"]
    );
    assert_eq!(
        cut("scope 2 block 1 assumes 5 block 2 block 3 assumes 5 candidate 5.10"),
        ["blocks 1 and 3 assume 5, but none of them is connected with block 2"]
    );
}

#[test]
fn different_paths_of_the_same_base() {
    assert_eq!(
        cut("scope 3 block 1 assumes 5.6 block 2 assumes 5.7 block 3 after 1, 2 candidate 5.10"),
        ["block 1 assumes 5.6, and so has 5, and block 2 has it too, \
          but control comes to block 3 from block 1, which has it by 5.6, and from block 2, \
          which has it by 5.7; only a path that is the same in all is passed on"]
    );
}

#[test]
fn a_loop_from_which_nothing_is_taken_over() {
    let said = cut("scope 2 block 1 after 2 assumes 5 block 2 after 1 block 3 after 2 candidate 5.10");
    assert_eq!(
        said,
        ["block 1 assumes 5, but all the blocks that control comes from are on a loop with block 2 \
          and not finished when it takes over"]
    );
}

#[test]
fn the_loop_by_the_strict_propagation() {
    let job: Job = std::fs::read_to_string(repository("examples/loop.job")).unwrap().parse().unwrap();
    let explanation = strictly_explained(&job).unwrap();
    assert_eq!(
        before_nodes(&explanation.in_full().to_string()),
        "\
strict propagation: a block takes paths over from the blocks before it, or after it, only where all of these are finished

candidate beat.rate
 returned beat
    .rate  is cut: beat is not known to be there in block 3
           beat is there in block 2 [1]
           it stops at block 3: block 3 takes nothing over from the blocks before it, since block 1 is on a loop with it and not finished
           it stops at block 1: block 1 takes nothing over from the blocks after it, since block 3 is on a loop with it and not finished

[1] how beat came there
    block 2 assumes beat
"
    );
}

#[test]
fn by_the_strict_propagation_one_block_that_is_not_finished_keeps_all_from_being_taken_over() {
    let loop_of_both =
        "scope 3 block 0 block 1 after 0, 3 assumes 5 block 2 after 1 assumes 5 block 3 after 1, 2 \
                        block 4 after 3 candidate 5.10";
    assert_eq!(
        strictly_cut(loop_of_both),
        ["blocks 1 and 2 assume 5, but block 3 takes nothing over from the blocks before it, \
          since block 1 is on a loop with it and not finished"]
    );
    assert!(cut(loop_of_both).is_empty(), "the existing one leaves block 1 out");
    let on_the_way =
        "scope 5 block 0 assumes 5 block 2 after 1 block 1 after 0, 1, 2 block 5 after 1 candidate 5.10";
    assert_eq!(
        strictly_cut(on_the_way),
        ["block 0 assumes 5, but on the way to block 5 it stops at block 1: block 1 takes nothing over from the \
          blocks before it, since blocks 1 and 2 are on a loop with it and not finished"]
    );
    let turned = "scope 0 block 0 block 1 after 0, 1 block 2 after 1 assumes 5 candidate 5.10";
    assert_eq!(
        strictly_cut(turned),
        ["block 2 assumes 5, but on the way to block 0 it stops at block 1: block 1 takes nothing over from the \
          blocks after it, since it is itself one of them and not finished"]
    );
    let all = "scope 2 block 1 after 2 assumes 5 block 2 after 1 block 3 after 2 candidate 5.10";
    assert_eq!(strictly_cut(all), cut(all));
}

/// Block 1 is on a loop, and block 2 takes over from it alone.
#[test]
fn by_the_strict_propagation_a_job_with_a_loop_keeps_what_finished_blocks_have() {
    let job = "scope 2 block 0 assumes 5 block 1 after 0, 1 assumes 6 block 2 after 1 candidate 5.10, 6.11";
    let explanation = strictly_explained(&job.parse().unwrap()).unwrap();
    let said = explanation.to_string();
    let known = "6 is known to be there in block 2; it comes from block 1, which assumes it\n";
    assert!(said.contains(known) && said.contains("5 is not known to be there in block 2\n"), "{said}");
    let way = "
    block 1 assumes 6
    block 2 took 6 over from block 1, the only block that control comes from\n";
    assert!(explanation.in_full().to_string().contains(way), "{}", explanation.in_full());
}

#[test]
fn by_the_strict_propagation_no_block_is_left_out() {
    let mut known = 0;
    for job in jobs(34, 1_500) {
        let Some(explanation) = strictly_explained(&job) else { continue };
        assert!(!explanation.in_full().to_string().contains("left out"), "{explanation}");
        let bases = explanation.reasons.iter().flat_map(|reason| &reason.bases);
        known += bases.filter(|base| matches!(base, Base::Known(_))).count();
    }
    assert!(known > 100, "{known}");
}

#[test]
fn a_sheet_and_an_answer_by_the_other_propagation_are_not_explained() {
    let job: Job = "scope 1 block 0 assumes 1 block 1 after 1, 0 candidate 1.10".parse().unwrap();
    let (existing, strict) = (sheet(&job).unwrap(), strict_sheet(&job).unwrap());
    let (answered, strictly) = (answer(&job).unwrap(), strict_answer(&job).unwrap());
    assert_eq!(explain(&job, &strict, &strictly), Err(Mismatch));
    assert_eq!(explain(&job, &existing, &strictly), Err(Mismatch));
    assert_eq!(explain_strict(&job, &existing, &answered), Err(Mismatch));
    assert_eq!(explain_strict(&job, &strict, &answered), Err(Mismatch));
    assert!(explain(&job, &existing, &answered).is_ok() && explain_strict(&job, &strict, &strictly).is_ok());
}

#[test]
fn a_base_that_no_block_assumes() {
    assert_eq!(cut("scope 7 block 7 assumes 1 candidate 1.10.11"), ["no block assumes 1.10"]);
    assert_eq!(
        cut("scope 7 block 4 assumes 1?.10 block 7 candidate 1.10"),
        ["no block assumes 1; block 4 assumes 1?.10, which does not make 1 known to the stage"]
    );
}

#[test]
fn the_example_of_raw_reads() {
    let job = std::fs::read_to_string(repository("examples/raw-reads.job")).unwrap();
    assert_eq!(
        full(&job),
        "\
candidate athlete.lastSession
 returned athlete.lastSession
    .lastSession  stays plain: athlete is known to be there in block 1 [1]

candidate week.goal.beats
 returned week
    .goal  is cut: week is not known to be there in block 1
           no block assumes week
           block 0 reads a property of week at instruction 2, but week counts as mutable there: its range 1 to 4 is \
           longer than one instruction, and instruction 2 is in its scope, 1 to 4; if it were kept, week would be \
           known in block 1

[1] how athlete came there
    block 0 reads a property of athlete at instruction 3 (kept: its range 0 to 1 is not longer than one instruction)
    block 1 took athlete over from block 0, the only block that control comes from
"
    );
    // The end of the comment: where the read would be kept.
    for (from, to) in [("week@3 at 2", "week@3 at 4"), ("scope 1 to 4", "scope 1 to 4 immutable")] {
        let kept = short(&job.replacen(from, to, 1));
        assert!(kept.contains("returned week.goal\n") && !kept.contains("counts as mutable"), "{kept}");
    }
}

#[test]
fn a_base_that_is_read_is_told_with_the_instruction() {
    let known = |job: &str| {
        let said = short(job);
        let line = said.lines().find(|line| line.contains("is known to be there")).unwrap().to_string();
        line.split_once("; ").unwrap().1.to_string()
    };
    let one = "range 0 to 1";
    assert_eq!(
        known(&format!("scope 7 block 7 reads 1 at 3 {one} candidate 1.10")),
        "block 7 reads a property of it at instruction 3"
    );
    assert_eq!(
        known(&format!("scope 1 block 0 reads 1 at 3 {one} assumes 1 block 1 after 0 candidate 1.10")),
        "it comes from block 0, which reads a property of it at instruction 3"
    );
    let three = |of_1: &str, of_2: &str, of_3: &str| {
        format!(
            "scope 4 block 0 block 1 after 0 {of_1} block 2 after 0 {of_2} block 3 after 0 {of_3} \
             block 4 after 1, 2, 3 candidate 1.10"
        )
    };
    let reads = |at: u32| format!("reads 1 at {at} {one}");
    assert_eq!(
        known(&three(&reads(9), &reads(5), &reads(7))),
        "it comes from blocks 1, 2 and 3, which read a property of it at instructions 9, 5 and 7"
    );
    assert_eq!(
        known(&three(&reads(9), "assumes 1", &reads(9))),
        "it comes from blocks 1 and 3, which read a property of it at instruction 9, and from block 2, \
         which assumes it"
    );
}

#[test]
fn a_base_that_is_read_elsewhere_and_stops() {
    let job = "scope 2 block 0 block 1 after 0 reads 5.6 at 3 range 0 to 1 block 2 after 0, 1 candidate 5.10";
    assert_eq!(
        cut(job),
        ["block 1 reads a property of 5.6 at instruction 3, and so has 5, \
          but control can also come to block 2 from block 0, which does not have it"]
    );
    assert_eq!(
        cut("scope 7 block 4 reads 1?.10 at 3 range 0 to 1 block 7 candidate 1.10"),
        ["no block assumes 1; block 4 reads a property of 1?.10 at instruction 3, which does not make 1 known to the \
          stage"]
    );
    assert_eq!(
        cut("scope 7 block 7 reads 1?.10 at 3 range 0 to 1 reads 1.11 at 4 range 0 to 1 candidate 1.10"),
        [
            "block 7 reads a property of 1?.10 at instruction 3; that does not make 1 known to the stage",
            "block 7 reads a property of 1.11 at instruction 4, too, but a path that has `?.` right after its variable decides \
             before others"
        ]
    );
}

/// That a read of variable 5 at this instruction is not kept, with this range and scope; and
/// whether it would do, for the scope block 3.
fn not_kept(block: u32, path: &str, at: u32, would_do: bool) -> String {
    let would = match would_do {
        true => "if it were kept, 5 would be known in block 3",
        false => "even if it were kept, 5 would not be known in block 3",
    };
    format!(
        "block {block} reads a property of {path} at instruction {at}, but 5 counts as mutable there: its range 0 to 2 \
         is longer than one instruction, and instruction {at} is in its scope, 0 to 9; {would}"
    )
}

#[test]
fn a_read_that_is_not_kept_is_told_where_the_base_is_missing() {
    let read = |path: &str, at: u32| format!("reads {path} at {at} range 0 to 2 scope 0 to 9");
    // The block that lacks the base comes before others, and the scope block before that.
    let (other, lacking, own) = (read("5", 1), read("5.6", 2), read("5", 3));
    let job = |own: &str| {
        format!(
            "scope 3 block 9 {other} block 0 {lacking} block 1 after 0 assumes 5 block 2 after 0 \
             block 3 after 0, 1 {own} candidate 5.10"
        )
    };
    let stops =
        "block 1 assumes 5, but control can also come to block 3 from block 0, which does not have it";
    let more = |count| match count {
        1 => " (and 1 more such read is not kept)".to_string(),
        _ => format!(" (and {count} more such reads are not kept)"),
    };
    assert_eq!(cut(&job("")), [stops.to_string(), not_kept(0, "5.6", 2, true) + &more(1)]);
    assert_eq!(cut(&job(&own)), [stops.to_string(), not_kept(3, "5", 3, true) + &more(2)]);
    // One that would do comes before a nearer one that would not.
    let two = format!(
        "scope 3 block 0 block 1 after 0 {other} block 2 after 0 {own} assumes 5.7 block 4 after 0 assumes 5 \
         block 3 after 2, 4 candidate 5.10"
    );
    assert_eq!(cut(&two)[1], not_kept(2, "5", 3, true) + &more(1), "{}", short(&two));
    let in_full = full(&job(&own));
    let told = in_full.lines().filter(|line| line.contains("counts as mutable there")).map(str::trim);
    assert!(
        told.eq([not_kept(3, "5", 3, true), not_kept(0, "5.6", 2, true), not_kept(9, "5", 1, false)]),
        "{in_full}"
    );
}

#[test]
fn a_read_that_is_not_kept_is_not_told_where_it_does_not_matter() {
    let read = "reads 5 at 3 range 0 to 2 scope 0 to 9";
    for job in [
        // The base is known.
        format!("scope 7 block 7 {read} assumes 5 candidate 5.10"),
        // The block has the base by another path, and it stopped elsewhere.
        format!("scope 2 block 0 block 1 after 0 {read} assumes 5 block 2 after 0, 1 candidate 5.10"),
        // It is of another variable, or too short, or would leave the base open.
        format!("scope 7 block 7 {read} candidate 6.10"),
        format!("scope 7 block 7 {read} assumes 5 candidate 5.10.11"),
        format!("scope 7 block 7 {} candidate 5.10", read.replace("reads 5", "reads 5?.10")),
        // The scope block has the base, but another path of it decides.
        format!("scope 7 block 0 {read} block 7 assumes 5.11, 5?.10 candidate 5.10"),
    ] {
        let (short, full) = (short(&job), full(&job));
        assert!(!short.contains("counts as mutable") && !full.contains("counts as mutable"), "{job}\n{full}");
    }
}

#[test]
fn a_path_of_the_scope_block_that_leaves_the_base_open() {
    assert_eq!(
        cut("scope 7 block 7 assumes 1?.10 candidate 1.10"),
        ["block 7 assumes 1?.10; that does not make 1 known to the stage", "no block assumes 1"]
    );
    assert_eq!(
        cut("scope 7 block 7 assumes 1.11, 1?.10 candidate 1.10"),
        [
            "block 7 assumes 1?.10; that does not make 1 known to the stage",
            "block 7 assumes 1.11, too, but a path that has `?.` right after its variable decides before others"
        ]
    );
    assert_eq!(
        cut("scope 7 block 7 assumes 1, 1.10?.11, 1.10.12 candidate 1.10.13"),
        [
            "block 7 assumes 1.10?.11; that does not make 1.10 known to the stage",
            "block 7 assumes 1.10.12, too, but of two such paths the one that the stage met first decides"
        ]
    );
}

#[test]
fn a_path_that_leaves_the_base_open_is_told_with_the_block_that_it_comes_from() {
    let job = "scope 2 block 1 assumes 1?.10 block 2 after 1 assumes 1.11 candidate 1.12";
    assert_eq!(
        cut(job),
        [
            "block 2 has 1?.10 from block 1, which assumes it; that does not make 1 known to the stage",
            "block 2 assumes 1.11, too, but a path that has `?.` right after its variable decides before others"
        ]
    );
    assert_eq!(
        full(job),
        "\
candidate 1.12
 returned 1
    .12  is cut: 1 is not known to be there in block 2
         block 2 has 1?.10 [1]; that does not make 1 known to the stage
         block 2 has 1.11 [2], too, but a path that has `?.` right after its variable decides before others

[1] how 1?.10 came there
    block 1 assumes 1?.10
    block 2 took 1?.10 over from block 1, the only block that control comes from

[2] how 1.11 came there
    block 2 assumes 1.11
"
    );
}

#[test]
fn a_mark_that_becomes_plain_one_that_stays_and_a_covered_candidate() {
    assert_eq!(
        short("scope 7 block 7 assumes 1, 2?.10 candidate 1?.10, 2?.10?.11, 2?.10?.11.12, 3"),
        "\
candidate 1?.10
 returned 1.10
    ?.10  becomes .10: 1 is known to be there in block 7; block 7 assumes it

candidate 2?.10?.11
 returned 2?.10.11
    ?.10  stays optional: 2 is not known to be there in block 7
          block 7 assumes 2?.10; that does not make 2 known to the stage
          no block assumes 2
    ?.11  becomes .11: 2?.10 is known to be there in block 7; block 7 assumes it

candidate 2?.10?.11.12
 returned 2?.10.11
    ?.10  stays optional: 2 is not known to be there in block 7
          block 7 assumes 2?.10; that does not make 2 known to the stage
          no block assumes 2
    ?.11  becomes .11: 2?.10 is known to be there in block 7; block 7 assumes it
    .12   is cut: 2?.10.11 is not known to be there in block 7
          no block assumes 2?.10.11

candidate 3
 returned 3
    the variable itself is returned
"
    );
    let covered = short("scope 7 block 7 assumes 1?.10 candidate 1?.10, 1.10");
    assert!(covered
        .contains("?.10  is not returned: candidate 1.10 is cut at 1, and depending on that is enough\n"));
}

#[test]
fn a_path_that_changed_its_form_on_the_way() {
    let said = full("scope 2 block 0 assumes 1, 1?.10 block 1 after 0 block 2 after 1 candidate 1.10.11");
    let way = "[2] how 1.10 came there
    block 0 assumes 1?.10
    block 0 made 1?.10 into 1.10, since it had 1
    block 1 took 1.10 over from block 0, the only block that control comes from
    block 2 took 1.10 over from block 1, the only block that control comes from\n";
    assert!(said.ends_with(way), "{said}");
    let said = short("scope 7 block 7 assumes 1, 1?.10 candidate 1.10.11");
    assert!(said.contains("1.10 is known to be there in block 7; block 7 assumes 1?.10\n"), "{said}");
    let said = short("scope 2 block 0 assumes 1, 1?.10 block 1 after 0 block 2 after 1 candidate 1.10.11");
    assert!(
        said.contains("1.10 is known to be there in block 2; it comes from block 0, which assumes 1?.10\n"),
        "{said}"
    );
}

#[test]
fn a_job_that_does_not_settle_says_so_at_each_cut() {
    let mut cuts = 0;
    for job in jobs(31, 3_000).filter(|job| sheet(job).is_ok_and(|sheet| !sheet.is_settled())) {
        let explanation = explained(&job).unwrap();
        let is_cut = |end: &End| matches!(end, End::Cut { .. });
        let expected = explanation.reasons.iter().filter(|reason| is_cut(&reason.end)).count();
        let said = explanation.to_string();
        let told = said.matches("the stage stopped after 100 rounds, before it had settled\n").count();
        assert!(told >= expected, "{said}");
        cuts += expected;
    }
    assert!(cuts > 5, "{cuts}");
    assert!(!short("scope 7 block 7 candidate 1.10").contains("settled"));
}

#[test]
fn a_job_without_candidates_is_explained_too() {
    assert_eq!(short("scope 7 block 7"), "the job has no candidate, so no path is returned\n");
    assert_eq!(full("scope 7 block 7"), "the job has no candidate, so no path is returned\n");
    let strict = before_nodes(&strictly_explained(&"scope 7 block 7".parse().unwrap()).unwrap().to_string());
    assert!(
        strict.starts_with("strict propagation: ") && strict.ends_with(&short("scope 7 block 7")),
        "{strict}"
    );
}

#[test]
fn no_sentence_on_candidates_has_inner_words_and_a_cut_has_few_lines() {
    let inner = ["set", "sets", "reaches", "node", "nodes", "joined", "Active", "Done", "reduction", "holds"];
    let all = jobs(32, 1_500).flat_map(|job| [explained(&job), strictly_explained(&job)]);
    for explanation in all.flatten() {
        let (short, full) = (explanation.to_string(), explanation.in_full().to_string());
        let (short, full) = (before_nodes(&short), before_nodes(&full));
        for text in [&short, &full] {
            let words: BTreeSet<&str> = text.split(|c: char| !c.is_alphabetic()).collect();
            assert!(inner.iter().all(|word| !words.contains(word)), "{text}");
        }
        let entries: usize = explanation.reasons.iter().map(|reason| reason.bases.len() + 1).sum();
        let most = 4 + usize::from(!explanation.settled);
        assert!(short.lines().count() <= 4 + 4 * explanation.reasons.len() + most * entries, "{short}");
    }
}

#[test]
fn the_blocks_that_matter_are_those_that_the_text_names_before_the_nodes() {
    let mut some_left_out = [0, 0];
    for job in jobs(33, 1_500) {
        for (count, explanation) in some_left_out.iter_mut().zip([explained(&job), strictly_explained(&job)])
        {
            let Some(explanation) = explanation else { continue };
            let named = blocks_named(&before_nodes(&explanation.in_full().to_string()));
            assert_eq!(blocks_that_matter(&explanation), named, "{job}");
            *count += usize::from(!named.is_empty() && named.len() < job.blocks().len());
        }
    }
    assert!(some_left_out.iter().all(|&count| count > 100), "{some_left_out:?}");
}

/// The numbers after `block`, and those of the list after `blocks`.
fn blocks_named(text: &str) -> BTreeSet<BlockId> {
    let mut named = BTreeSet::new();
    let words: Vec<&str> = text.split_whitespace().collect();
    for (place, _) in words.iter().enumerate().filter(|(_, word)| ["block", "blocks"].contains(word)) {
        let list = words[place + 1..].iter().map(|word| word.trim_end_matches([',', ';', ':', '.']));
        let ids = list.filter(|word| *word != "and").map_while(|word| word.parse().ok());
        named.extend(ids.take(if words[place] == "block" { 1 } else { usize::MAX }).map(BlockId));
    }
    named
}

#[test]
fn a_base_that_stopped_has_all_its_stops() {
    let explanation = explained_text(
        "scope 3 block 0 block 1 after 0 assumes 5 block 2 after 0 block 3 after 1, 2 block 4 after 3 assumes 5
         block 5 after 3 candidate 5.10",
    );
    let End::Cut { why, .. } = &explanation.reasons[0].end else { panic!("{explanation}") };
    let Elsewhere::Stopped { holders, stops } = &why.elsewhere else { panic!("{explanation}") };
    let blocks: Vec<BlockId> = holders.iter().map(|holder| holder.block).collect();
    assert_eq!(blocks, [BlockId(1), BlockId(4)]);
    let at: Vec<(u32, u32)> = stops.iter().map(|stop| (stop.at.0, stop.holder.block.0)).collect();
    assert_eq!(at, [(3, 1), (3, 4), (0, 1)]);
}

#[test]
fn sheet_and_answer_of_other_jobs_are_not_explained() {
    let job = |text: &str| text.parse::<Job>().unwrap();
    let one = job("scope 7 block 7 assumes 1 candidate 1.10");
    let other = job("scope 7 block 7 candidate 1.10");
    let elsewhere = job("scope 8 block 8 assumes 1 candidate 1.10");
    let told = |s: &Job, a: &Job| explain(&one, &sheet(s).unwrap(), &answer(a).unwrap()).err();
    assert_eq!(told(&one, &one), None);
    assert_eq!(told(&other, &one), Some(Mismatch));
    assert_eq!(told(&one, &other), Some(Mismatch));
    assert_eq!(told(&elsewhere, &one), Some(Mismatch));
}

#[test]
fn nothing_is_explained_where_the_library_s_sheet_is_not_the_replay_s() {
    let job: Job = "scope 1 block 0 assumes 1, 1?.10 block 1 after 0 candidate 1.10.11".parse().unwrap();
    let (bytes, answer) = (raw::sheet(&job.to_bytes()).unwrap(), answer(&job).unwrap());
    let sheet = Sheet::from_bytes(&bytes).unwrap();
    assert!(explain(&job, &sheet, &answer).is_ok());
    // The last record is the set of block 1. It holds nodes 0 and 2; a faulty library might leave
    // one out.
    let set = bytes.len() - 64;
    assert_eq!(bytes[set], 0b101);
    for faulty in [0b001, 0b100, 0b111, 0b000] {
        let mut bytes = bytes.clone();
        bytes[set] = faulty;
        let why = explain(&job, &Sheet::from_bytes(&bytes).unwrap(), &answer).unwrap_err();
        assert!(why.to_string().contains("does not end with this sheet"), "{why}");
        assert!(why.to_string().contains("nothing is explained"), "{why}");
    }
}
