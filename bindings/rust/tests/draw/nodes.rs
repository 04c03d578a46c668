//! Nodes that reduction added: how many there are, under the title; which ones, in the boxes; and
//! what their mark stands for, in the legend.

use crate::common::jobs;
use crate::read::{focused, number, of_text, shown, strict, title, whole, Picture};
use scope_deps::explain::{explain, explain_strict, Explanation};
use scope_deps::{answer, sheet, strict_answer, strict_sheet, Job, Sheet};

const LEGEND: &str = "adds +1.10: added there by reduction, where a ?. became plain";

/// The line under the title, and what it says under the pointer.
fn line(picture: &Picture) -> (String, &str) {
    let line = picture.lines().find(|line| shown(line).starts_with("nodes ")).unwrap();
    (shown(line), title(line))
}

fn has_legend(picture: &Picture) -> bool {
    picture.lines().any(|line| shown(line) == LEGEND)
}

/// The marked paths of a block's box, in the lines of this label: those that are shown, and those
/// under the pointer.
fn marked(picture: &Picture, block: usize, label: &str) -> (Vec<String>, Vec<String>) {
    let groups = picture.groups();
    let group = groups.iter().find(|group| group.block == block).unwrap();
    let mut found = (Vec::new(), Vec::new());
    let mut of_label = false;
    for line in &group.lines {
        let text = shown(line);
        match &text[..] {
            "reads" | "not kept" | "assumes" | "holds" | "adds" | "candidate" => of_label = text == label,
            _ if of_label => {
                found.0.extend(marks_of(&text));
                found.1.extend(marks_of(title(line)));
            }
            _ => {}
        }
    }
    found
}

/// The words with a mark, without it.
fn marks_of(text: &str) -> Vec<String> {
    let words = text.split(' ').filter_map(|word| word.strip_prefix('+'));
    words.map(|word| word.trim_end_matches(',').to_string()).collect()
}

#[test]
fn where_none_was_added_nothing_is_marked() {
    let picture = of_text("scope 7 block 7 assumes 1, 1.10, 1?.10 candidate 1.10");
    assert_eq!(line(&picture), ("nodes 3: 3 before the first round, 0 added by reduction".to_string(), ""));
    assert!(!has_legend(&picture) && !picture.0.contains("class=\"added\"") && !picture.0.contains('+'));
}

#[test]
fn one_that_was_added_is_marked_in_its_box_and_in_the_legend() {
    let picture = of_text("scope 7 block 7 assumes 1, 1?.10 candidate 1.10");
    assert_eq!(line(&picture).0, "nodes 3: 2 before the first round, 1 added by reduction: 1.10");
    let held = ">1, <tspan class=\"added\">+1.10</tspan></text>";
    assert!(picture.0.contains(held) && has_legend(&picture), "{}", picture.0);
    for label in ["holds", "adds"] {
        assert_eq!(marked(&picture, 0, label).0, ["1.10"]);
    }
    let legend = picture.lines().find(|line| shown(line) == LEGEND).unwrap();
    let none = of_text("scope 7 block 7 assumes 1, 2 candidate 1.10");
    let height = |picture: &Picture| number(&picture.0, "height");
    assert_eq!(height(&picture) - height(&none), 17.0 + 18.0, "the box's line, and the legend's: {legend}");
}

/// Block 1 holds what its only predecessor holds, and lists it under the pointer.
#[test]
fn it_is_marked_under_the_pointer_too() {
    let picture = of_text("scope 1 block 0 assumes 1, 1?.10 block 1 after 0");
    assert_eq!(marked(&picture, 0, "holds"), (vec!["1.10".to_string()], Vec::new()));
    assert_eq!(marked(&picture, 1, "holds"), (Vec::new(), vec!["1.10".to_string()]));
    assert_eq!(marked(&picture, 1, "adds"), (Vec::new(), Vec::new()));
}

/// `1.10` is on the way to `1.10?.11`, and no block holds it.
#[test]
fn one_that_no_block_holds_stands_under_the_title_and_where_it_was_added() {
    let picture = of_text("name 1 athlete scope 7 block 7 assumes 1, 1?.10?.11");
    let nodes = "nodes 5: 3 before the first round, 2 added by reduction: athlete.10 and athlete.10?.11";
    assert_eq!(line(&picture).0, nodes);
    assert_eq!(marked(&picture, 0, "holds").0, ["athlete.10?.11"]);
    assert_eq!(marked(&picture, 0, "adds").0, ["athlete.10", "athlete.10?.11"]);
    // Here `1.10?.11` becomes `1.10.11` in both blocks, which was there before; so none is held.
    let replaced = of_text("scope 1 block 0 assumes 1, 1?.10?.11 block 1 after 0 assumes 1.10, 1.10.11");
    assert_eq!(line(&replaced).0, "nodes 6: 5 before the first round, 1 added by reduction: 1.10?.11");
    assert_eq!(marked(&replaced, 0, "adds").0, ["1.10?.11"]);
    assert!((0..2).all(|block| marked(&replaced, block, "holds").0.is_empty()) && has_legend(&replaced));
}

#[test]
fn of_many_some_are_named_and_a_box_without_room_counts_them() {
    let assumed: String = (1..=120).map(|id| format!(" assumes {id}, {id}?.10")).collect();
    let picture = of_text(&format!("scope 7 block 7{assumed}"));
    let (said, under_pointer) = line(&picture);
    let nodes =
        "nodes 360: 240 before the first round, 120 added by reduction: 1.10, 2.10, 3.10 and 117 more";
    assert_eq!(said, nodes);
    assert_eq!(under_pointer.split(", ").count(), 120);
    let groups = picture.groups();
    let mut more = groups[0].lines.iter().filter(|line| shown(line).ends_with(" of them added"));
    let held = more.next().unwrap();
    assert!(
        shown(held).starts_with("and ") && shown(held).ends_with(" more,\u{a0}120 of them added"),
        "{held}"
    );
    assert!(held.contains("<tspan class=\"added\">120 of them added</tspan>"), "{held}");
    assert_eq!(title(held).matches('+').count(), 120);
    assert_eq!(more.count(), 0);
    let (shown, under_pointer) = marked(&picture, 0, "adds");
    assert_eq!((shown.len() + under_pointer.len(), &shown[0][..]), (120, "1.10"));
    assert!(shown.len() > 8);
}

#[test]
fn of_those_that_were_added_in_blocks_not_drawn_the_line_says_so() {
    let counted = |blocks: &str| {
        let job: Job = format!("scope 2 {blocks} candidate 1.10").parse().unwrap();
        [whole(&job), focused(&job)].map(|picture| line(&picture.unwrap()).0)
    };
    let apart = "block 0 assumes 1 block 1 after 0 assumes 2, 2?.20?.21 block 2 after 0";
    let [all, some] = counted(apart);
    assert_eq!(all, "nodes 6: 4 before the first round, 2 added by reduction: 2.20 and 2.20?.21");
    assert_eq!(some, format!("{all}; in blocks not drawn"));
    let [all, some] = counted(&format!("{apart} assumes 1, 1?.10"));
    assert_eq!(all, "nodes 8: 5 before the first round, 3 added by reduction: 2.20, 2.20?.21 and 1.10");
    assert_eq!(some, format!("{all}; 2 of these in blocks not drawn"));
}

#[test]
fn long_paths_are_named_as_far_as_there_is_room() {
    let long = ".18446744073709551615".repeat(3);
    let picture = of_text(&format!("scope 7 block 7 assumes 1, 1?.2{long}"));
    let (said, under_pointer) = line(&picture);
    assert_eq!(
        said,
        "nodes 9: 5 before the first round, 4 added by reduction: 1.2, 1.2.18446744073709551615 and 2 more"
    );
    assert_eq!(under_pointer.split(", ").count(), 4);
    let picture = of_text(&format!("scope 7 block 7 assumes 1{long}, 1{long}?.2"));
    let (said, under_pointer) = line(&picture);
    assert_eq!(said, "nodes 6: 5 before the first round, 1 added by reduction");
    assert_eq!(under_pointer, format!("1{long}.2"));
}

/// How many paths the boxes mark, that the counts are the sheet's, and that each node stands in the
/// box of the block that added it.
fn check(job: &Job, sheet: &Sheet, explanation: &Explanation, picture: &Picture) -> usize {
    let (all, before, added) = (sheet.nodes().len(), sheet.nodes_before_rounds(), sheet.added_nodes().len());
    let counts = format!("nodes {all}: {before} before the first round, {added} added by reduction");
    assert!(line(picture).0.starts_with(&counts), "{job}");
    let mut marks = 0;
    for group in picture.groups() {
        let id = job.blocks()[group.block].id();
        let held = sheet.set(id).unwrap().iter().filter(|&node| sheet.is_added(node));
        let here = explanation.added.iter().filter(|added| added.block == id);
        let added = here.flat_map(|added| &added.nodes).map(|(node, _)| *node);
        for (label, nodes) in [("holds", held.collect::<Vec<_>>()), ("adds", added.collect())] {
            let due: Vec<String> = nodes.iter().map(|&node| format!("{:#}", sheet.path(node))).collect();
            let (shown, under_pointer) = marked(picture, group.block, label);
            let told = [shown, under_pointer].concat();
            // A path that is broken is there in parts.
            let short = |path: &&String| path.chars().count() < 30;
            assert!(
                told.iter().filter(short).all(|path| due.iter().any(|due| due.starts_with(path))),
                "{job}"
            );
            assert!(due.iter().filter(short).all(|path| told.contains(path)), "{label} {id} {job}");
            assert_eq!(told.len(), due.len(), "{label} {id} {job}");
            marks += told.len();
        }
    }
    assert_eq!(has_legend(picture), marks > 0, "{job}");
    // Where a box has no room for them, it counts them.
    let is_told = ["class=\"added\">+", " of them added</tspan>"].iter().any(|mark| picture.0.contains(mark));
    assert_eq!(is_told, has_legend(picture), "{job}");
    marks
}

#[test]
fn every_picture_marks_what_was_added_and_says_what_the_mark_is() {
    let [mut marks, mut none] = [0; 2];
    for job in jobs(19, 500) {
        let (Ok(existing), Some(picture), Some(focused)) = (sheet(&job), whole(&job), focused(&job)) else {
            continue;
        };
        let explanation = explain(&job, &existing, &answer(&job).unwrap()).unwrap();
        let count = check(&job, &existing, &explanation, &picture);
        check(&job, &existing, &explanation, &focused);
        if let (Ok(sheet), Some(picture)) = (strict_sheet(&job), strict(&job)) {
            let explanation = explain_strict(&job, &sheet, &strict_answer(&job).unwrap()).unwrap();
            check(&job, &sheet, &explanation, &picture);
        }
        marks += count;
        none += usize::from(count == 0);
    }
    assert!(marks > 100 && none > 50, "{marks} {none}");
}
