//! Pictures: one file that stands alone, with every block and arrow, and nothing over another.

mod arrows;
#[path = "../common/mod.rs"]
mod common;
mod focus;
mod nodes;
mod palette;
mod pointer;
mod raw_reads;
mod read;
mod strict;
mod text;

use common::jobs;
use read::{number, of_text, whole};
use scope_deps::draw::draw;
use scope_deps::explain::Mismatch;
use scope_deps::{answer, sheet, BlockId, Job};

fn overlap(one: &[f64; 4], other: &[f64; 4]) -> bool {
    let apart = |from: usize| one[from + 2] <= other[from] + 0.2 || other[from + 2] <= one[from] + 0.2;
    !apart(0) && !apart(1)
}

/// That every tag that is opened is closed, and that text is escaped.
fn check_tags(svg: &str) {
    let mut open = Vec::new();
    for part in svg.split('<').skip(1) {
        let (tag, _) = part.split_once('>').expect("a tag ends");
        let name = tag.split([' ', '/']).find(|name| !name.is_empty()).unwrap();
        if tag.starts_with('/') {
            assert_eq!(open.pop(), Some(name));
        } else if !tag.ends_with('/') {
            open.push(name);
        }
    }
    assert!(open.is_empty(), "{open:?}");
    let entities = ["&amp;", "&lt;", "&gt;"];
    assert!(svg.match_indices('&').all(|(at, _)| entities.iter().any(|e| svg[at..].starts_with(e))));
}

/// That boxes and panel lie within the picture, and none over another.
fn check_boxes(svg: &str, boxes: &[[f64; 4]]) {
    for (at, one) in boxes.iter().enumerate() {
        assert!(boxes[at + 1..].iter().all(|other| !overlap(one, other)), "{svg}");
        assert!(one[0] >= -0.1 && one[2] + 40.0 <= number(svg, "width"), "{svg}");
        assert!(one[1] >= -0.1 && one[3] + 80.0 <= number(svg, "height"), "{svg}");
    }
}

/// What the title of an arrow calls a block.
fn name(job: &Job, block: BlockId) -> String {
    let kind = if block == job.scope() { "scope block" } else { "block" };
    format!("{kind} {block}")
}

/// The titles that the arrows of a job have, sorted; of those between two blocks that are both
/// drawn.
fn titles(job: &Job, is_drawn: impl Fn(BlockId) -> bool) -> Vec<String> {
    let mut titles = Vec::new();
    for block in job.blocks().iter().filter(|block| is_drawn(block.id())) {
        let to = name(job, block.id());
        for &from in block.predecessors().iter().filter(|&&from| is_drawn(from)) {
            let own = from == block.id();
            titles.push(if own {
                format!("{to} is its own predecessor")
            } else {
                format!("from {} to {to}", name(job, from))
            });
        }
    }
    titles.sort();
    titles
}

#[test]
fn every_picture_has_its_blocks_and_arrows_apart_and_within() {
    let mut most_blocks = 0;
    for job in jobs(8, 1_500) {
        let Some(picture) = whole(&job) else { continue };
        check_tags(&picture.0);
        let boxes = picture.rectangles();
        assert_eq!(boxes.len(), job.blocks().len() + usize::from(!job.candidates().is_empty()));
        check_boxes(&picture.0, &boxes);
        let mut drawn: Vec<&str> = picture.arrows().iter().map(|arrow| arrow.title).collect();
        drawn.sort();
        assert_eq!(drawn, titles(&job, |_| true), "each arrow of the job once");
        most_blocks = most_blocks.max(job.blocks().len());
    }
    assert_eq!(most_blocks, 128);
}

#[test]
fn a_picture_shows_the_cut_the_loop_and_the_scope() {
    let picture = of_text(
        "scope 1 block 0 block 1 after 0, 1, 2 assumes 1 block 2 after 1 candidate 1.10.11, 1.10.11?.12, 2",
    );
    assert!(picture.0.contains("<tspan class=\"head\">scope block 1</tspan>"));
    assert!(picture.0.contains("1.10<tspan class=\"knife\">|</tspan><tspan class=\"cut\">.11</tspan>"));
    assert!(picture.0.contains("<tspan class=\"cut\">.11?.12</tspan>"));
    let arrows = picture.arrows();
    let loops: Vec<&str> =
        arrows.iter().filter(|arrow| arrow.class == "loop").map(|arrow| arrow.title).collect();
    assert_eq!(loops, ["from block 2 to scope block 1", "scope block 1 is its own predecessor"]);
}

#[test]
fn the_same_job_gives_the_same_bytes() {
    for job in jobs(9, 60) {
        let (Some(one), Some(other)) = (whole(&job), whole(&job)) else { continue };
        assert!(one.0 == other.0, "{job}");
    }
}

#[test]
fn a_picture_refers_to_nothing_outside() {
    let picture = of_text("scope 7 block 7");
    assert!(picture.0.starts_with("<svg xmlns=\"http://www.w3.org/2000/svg\""));
    assert_eq!(picture.0.matches("http").count(), 1);
    assert!(!picture.0.contains("href") && !picture.0.contains("<script") && !picture.0.contains("@import"));
    assert!(picture.0.contains("1 block, scope block 7; 1 round, settled"));
}

#[test]
fn the_parts_of_different_jobs_make_no_picture() {
    let (one, other): (Job, Job) = ("scope 7 block 7".parse().unwrap(), "scope 8 block 8".parse().unwrap());
    assert_eq!(draw(&one, &sheet(&other).unwrap(), &answer(&one).unwrap()), Err(Mismatch));
}
