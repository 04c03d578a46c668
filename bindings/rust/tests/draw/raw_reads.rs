//! Raw reads in the boxes: those that are kept, and those that are not; and what they stand for, in
//! the legend.

use crate::common::jobs;
use crate::read::{focused, number, of_text, shown, title, whole, Group, Picture};
use scope_deps::Job;

const LEGEND: [&str; 2] = [
    "reads 1 at 3: a property of 1 is read at 3, so 1 is given",
    "not kept\u{a0}1 at 3: a property of 1 read where 1 is mutable",
];

/// Which lines of the legend are there.
fn legend(picture: &Picture) -> [bool; 2] {
    LEGEND.map(|due| picture.lines().any(|line| shown(line) == due))
}

/// The lines of a box under this label.
fn under<'p>(group: &Group<'p>, label: &str) -> Vec<&'p str> {
    let labels = ["reads", "not kept", "assumes", "holds", "adds", "candidate"];
    let mut of_label = false;
    let mut found = Vec::new();
    for &line in &group.lines {
        let text = shown(line);
        if labels.contains(&&text[..]) {
            of_label = text == label;
        } else if of_label && line.starts_with("<text") && !text.is_empty() {
            found.push(line);
        }
    }
    found
}

fn texts(group: &Group, label: &str) -> Vec<String> {
    under(group, label).into_iter().map(shown).collect()
}

const BOTH: &str = "name 1 athlete name 2 week scope 7 block 7
    reads week.10 at 2 range 1 to 4 scope 1 to 4 reads athlete at 3 range 0 to 1 reads 5 at 4 range 0 to 1 assumes 6";

#[test]
fn reads_are_kept_or_struck_through_by_word_and_line() {
    let picture = of_text(BOTH);
    let groups = picture.groups();
    assert_eq!(texts(&groups[0], "reads"), ["athlete at 3, 5 at 4"]);
    assert_eq!(texts(&groups[0], "not kept"), ["week.10 at 2"]);
    assert_eq!(texts(&groups[0], "assumes"), ["6"]);
    assert_eq!(texts(&groups[0], "holds"), ["athlete, 5, 6"]);
    let struck = under(&groups[0], "not kept")[0];
    assert!(struck.contains("<tspan class=\"cut\">week.10 at 2</tspan>"), "{struck}");
    assert!(picture.style().contains(".cut{text-decoration:line-through}"));
    assert_eq!(
        title(struck),
        "a property of week.10 is read at instruction 2, but week counts as mutable there: its range 1 to 4 is longer \
         than one instruction, and instruction 2 is in its scope, 1 to 4"
    );
    assert_eq!(legend(&picture), [true, true]);
}

#[test]
fn the_legend_has_what_the_picture_has() {
    let [kept, dropped] = ["reads 1 at 3 range 0 to 1", "reads 1 at 3 range 0 to 2 scope 0 to 9"];
    let of = |reads: &str| of_text(&format!("scope 7 block 7 {reads}"));
    let both = of(&format!("{kept} {dropped}"));
    let pictures = [of(""), of(kept), of(dropped), both];
    let due = [[false, false], [true, false], [false, true], [true, true]];
    assert_eq!(pictures.each_ref().map(legend), due);
    let height = |picture: &Picture| number(&picture.0, "height");
    let [none, one, other, both] = pictures.each_ref().map(height);
    assert_eq!(
        [one - none, other - none, both - none],
        [35.0, 35.0, 70.0],
        "a line of the box, and one of the legend"
    );
}

/// The block of the read is not drawn, and so the legend does not speak of it.
#[test]
fn with_focus_the_blocks_that_are_drawn_decide() {
    let job: Job = "scope 1 block 0 reads 7 at 3 range 0 to 1 block 1 after 0 candidate 6".parse().unwrap();
    assert_eq!(legend(&focused(&job).unwrap()), [false, false]);
    assert_eq!(legend(&whole(&job).unwrap()), [true, false]);
    // A read that is not kept is the reason of the cut, and its block is drawn.
    let cut: Job = "scope 1 block 0 reads 6 at 3 range 0 to 2 scope 0 to 9 block 1 after 0 candidate 6.10"
        .parse()
        .unwrap();
    let picture = focused(&cut).unwrap();
    assert_eq!((legend(&picture), picture.groups().len()), ([false, true], 2));
}

#[test]
fn of_many_those_beyond_the_last_line_are_counted() {
    let reads: String =
        (0..40).map(|at| format!(" reads {at}.10 at {at} range 0 to 2 scope 0 to 99")).collect();
    let picture = of_text(&format!("scope 7 block 7{reads}"));
    let lines = texts(&picture.groups()[0], "not kept");
    assert_eq!((lines.len(), &lines[0][..], &lines[8][..]), (9, "0.10 at 0", "and 32 more"));
    let groups = picture.groups();
    let more = under(&groups[0], "not kept")[8];
    assert!(title(more).starts_with("8.10 at 8 (not kept: 8 counts as mutable there: its range 0 to 2 is "));
    assert_eq!(title(more).matches(" at ").count(), 32);
}

#[test]
fn every_picture_has_the_reads_of_its_blocks() {
    let [mut kept, mut dropped] = [0; 2];
    for job in jobs(20, 500) {
        let Some(picture) = whole(&job) else { continue };
        let mut has = [false; 2];
        for (block, group) in job.blocks().iter().zip(picture.groups()) {
            let reads =
                |is_kept: bool| block.raw_reads().iter().filter(move |read| read.is_kept() == is_kept);
            for (place, label) in ["reads", "not kept"].into_iter().enumerate() {
                let (due, lines) = (reads(place == 0).count(), under(&group, label));
                assert_eq!(lines.is_empty(), due == 0, "{job}");
                let told: usize = lines.iter().map(|line| shown(line).matches(" at ").count()).sum();
                let more = lines.iter().filter_map(|line| {
                    shown(line)
                        .strip_prefix("and ")
                        .and_then(|rest| rest.strip_suffix(" more")?.parse::<usize>().ok())
                });
                assert_eq!(told + more.sum::<usize>(), due, "{label} of block {} of {job}", block.id());
                let class = if place == 0 { "class=\"assumed\"" } else { "class=\"cut\"" };
                assert!(
                    lines.iter().all(|line| line.contains(class) || shown(line).ends_with(" more")),
                    "{job}"
                );
                has[place] |= due > 0;
            }
            kept += reads(true).count();
            dropped += reads(false).count();
        }
        assert_eq!(legend(&picture), has, "{job}");
    }
    assert!(kept > 100 && dropped > 100, "{kept} {dropped}");
}
