//! A block under the pointer: its arrows are lit and the others dimmed, by the style sheet alone.

use crate::common::jobs;
use crate::read::{of_text, whole};
use std::collections::BTreeSet;

const POINTED: &str = ":is(:hover,:focus)";

#[test]
fn each_block_has_a_rule_that_lights_its_arrows() {
    for job in jobs(10, 150) {
        let Some(picture) = whole(&job) else { continue };
        let style = picture.style();
        for block in 0..job.blocks().len() {
            let rule = format!(".b{block}{POINTED}~.a{block}{{opacity:1;stroke-width:2}}");
            assert_eq!(style.matches(&rule).count(), 1, "{rule}");
        }
        let groups: Vec<usize> = picture.groups().iter().map(|group| group.block).collect();
        assert!(groups.into_iter().eq(0..job.blocks().len()), "each block has its class");
    }
}

#[test]
fn an_arrow_is_lit_by_the_blocks_at_its_ends() {
    for job in jobs(11, 150) {
        let Some(picture) = whole(&job) else { continue };
        let place = |words: &str| {
            let id = words.trim_start_matches("scope ").trim_start_matches("block ").parse().unwrap();
            job.blocks().iter().position(|block| block.id().0 == id).unwrap()
        };
        for arrow in picture.arrows() {
            let ends = match arrow.title.split_once(" to ") {
                Some((from, to)) => vec![place(from.trim_start_matches("from ")), place(to)],
                None => vec![place(arrow.title.trim_end_matches(" is its own predecessor"))],
            };
            assert_eq!(arrow.ends, ends, "{}", arrow.title);
        }
    }
}

#[test]
fn the_rule_that_dims_comes_first_and_reaches_all_arrows_and_no_legend() {
    let picture = of_text("scope 2 block 0 block 1 after 0 block 2 after 0, 1, 2");
    let dims = picture
        .style()
        .find(&format!(".block{POINTED}~path{{opacity:.2;stroke-width:.8}}"))
        .expect("a rule that dims");
    assert!(dims < picture.style().find(".b0:is").unwrap(), "of equal rules the last counts");
    let place = |start: &str| picture.lines().position(|line| line.starts_with(start)).unwrap();
    let last_group =
        picture.lines().enumerate().filter(|(_, line)| line.starts_with("<g class=\"block")).last();
    let first_arrow = place("<path class=\"arrow a");
    assert!(last_group.unwrap().0 < first_arrow, "the arrows come after the blocks that light them");
    let legend = place("<g>");
    let arrows: BTreeSet<bool> = picture
        .lines()
        .enumerate()
        .filter(|(_, line)| line.starts_with("<path class="))
        .map(|(at, line)| (at > legend) == line.contains("<title>"))
        .collect();
    assert_eq!(arrows, BTreeSet::from([false]), "the legend's arrows alone are in its group");
}
