//! Arrows: each in one piece from block to block, also where it goes along a line that it shares.

use crate::common::jobs;
use crate::read::{attribute, number_of, of_text, sides, title, whole, Picture};

/// A line of the picture that is an arrow, or a stretch that arrows share, which has no title.
struct Line<'p> {
    class: &'p str,
    ends: Vec<&'p str>,
    start: [f64; 2],
    end: [f64; 2],
    title: &'p str,
}

/// The numbers in a text, with blanks between them.
fn numbers(text: &str) -> Vec<f64> {
    text.split(' ').map(number_of).collect()
}

/// Where a line ends that starts there: after steps down (`v`) and curves (`c`).
fn end([x, y]: [f64; 2], steps: &str) -> [f64; 2] {
    let Some((kind, rest)) = steps.split_at_checked(1).filter(|(kind, _)| !kind.is_empty()) else {
        return [x, y];
    };
    let (step, rest) = rest.split_at(rest.find(['v', 'c']).unwrap_or(rest.len()));
    match (kind, &numbers(step)[..]) {
        ("v", [down]) => end([x, y + down], rest),
        ("c", [.., across, down]) => end([x + across, y + down], rest),
        _ => panic!("{steps}"),
    }
}

fn line(tag: &str) -> Line<'_> {
    let mut classes = attribute(tag, "class").split(' ');
    let steps = attribute(tag, "d").trim_start_matches('M');
    let (first, rest) = steps.split_at(steps.find(['v', 'c']).unwrap());
    let start = numbers(first).try_into().unwrap();
    Line {
        class: classes.next().unwrap(),
        ends: classes.collect(),
        start,
        end: end(start, rest),
        title: title(tag),
    }
}

/// All lines but those of the legend.
fn lines(picture: &Picture) -> Vec<Line<'_>> {
    let drawn = picture.lines().take_while(|line| *line != "<g>");
    drawn.filter(|line| line.starts_with("<path class=")).map(line).collect()
}

fn same([x, y]: [f64; 2], [other_x, other_y]: [f64; 2]) -> bool {
    (x - other_x).abs() < 0.15 && (y - other_y).abs() < 0.15
}

/// Where the whole of an arrow starts: where its own line does, or a stretch does that leads there.
fn whole_start(arrow: &Line, lines: &[Line]) -> [f64; 2] {
    let leads = |start: [f64; 2]| {
        let mut stretches = lines.iter().filter(|line| line.title.is_empty() && line.class == arrow.class);
        stretches.find(|line| same(line.end, start) && arrow.ends.iter().all(|end| line.ends.contains(end)))
    };
    let starts = std::iter::successors(Some(arrow.start), |&start| leads(start).map(|line| line.start));
    starts.last().unwrap()
}

#[test]
fn every_arrow_is_in_one_piece_from_block_to_block() {
    let mut shared = 0;
    for job in jobs(16, 300) {
        let Some(picture) = whole(&job) else { continue };
        let groups = picture.groups();
        let box_of = |end: &str| sides(groups[end[1..].parse::<usize>().unwrap()].lines[0]);
        let lines = lines(&picture);
        for arrow in lines.iter().filter(|line| line.ends.len() == 2 && !line.title.is_empty()) {
            let ends = if arrow.class == "loop" { [1, 0] } else { [0, 1] };
            let [upper, lower] = ends.map(|end| box_of(arrow.ends[end]));
            let [x, y] = whole_start(arrow, &lines);
            assert!(x > upper[0] && x < upper[2] && (y - upper[3]).abs() < 0.15, "{} of {job}", arrow.title);
            let [x, y] = arrow.end;
            assert!(x > lower[0] && x < lower[2] && (y - lower[1]).abs() < 0.15, "{} of {job}", arrow.title);
            shared += usize::from(!same(arrow.start, whole_start(arrow, &lines)));
        }
    }
    assert!(shared > 1_000, "{shared}");
}

#[test]
fn no_stretch_of_an_arrow_is_without_length() {
    let picture = of_text(
        "scope 3 block 0 block 1 after 0, 3 block 2 after 1 assumes 5, 6 block 3 after 1, 2
        block 4 after 1 block 7 after 4",
    );
    let arrows = picture.arrows();
    let down = arrows.iter().flat_map(|arrow| arrow.line.split('v').skip(1));
    let upright: Vec<f64> = down.map(|rest| number_of(rest.split('c').next().unwrap())).collect();
    assert!(!upright.is_empty() && upright.iter().all(|&length| length > 0.0), "{upright:?}");
    assert!(arrows.iter().all(|arrow| !arrow.line.contains("c0 0 ")));
}
