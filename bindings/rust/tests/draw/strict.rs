//! Pictures by the strict propagation: its sheet and its answer, and a title that says so.

use crate::common::{jobs, repository};
use crate::read::{focused, focused_strict, shown, strict, whole, Picture};
use crate::{check_boxes, check_tags};
use scope_deps::draw::{draw, draw_focused_strict, draw_strict};
use scope_deps::explain::Mismatch;
use scope_deps::{answer, sheet, strict_answer, strict_sheet, Job};

/// What the lines of each block's group show.
fn texts(picture: &Picture) -> Vec<Vec<String>> {
    let of_group = |lines: &[&str]| {
        let texts = lines.iter().filter(|line| line.starts_with("<text")).map(|line| shown(line));
        texts.filter(|text| !text.is_empty()).collect()
    };
    picture.groups().iter().map(|group| of_group(&group.lines)).collect()
}

#[test]
fn the_title_says_which_propagation_where_it_is_the_strict_one() {
    let mut differ = 0;
    for job in jobs(17, 400) {
        let (Some(existing), Some(strict)) = (whole(&job), strict(&job)) else { continue };
        let sheet = strict_sheet(&job).unwrap();
        let plural = if sheet.rounds() == 1 { "" } else { "s" };
        let rounds = format!("; strict propagation, {} round{plural}, ", sheet.rounds());
        assert!(strict.title().contains(&rounds), "{}", strict.title());
        assert!(!existing.0.contains("strict"), "{job}");
        assert!(focused_strict(&job).unwrap().title().contains(&rounds));
        assert!(!focused(&job).unwrap().0.contains("strict"));
        check_tags(&strict.0);
        check_boxes(&strict.0, &strict.rectangles());
        differ += usize::from(texts(&strict) != texts(&existing));
    }
    assert!(differ > 20, "{differ}");
}

#[test]
fn the_loop_by_both_propagations() {
    let text = std::fs::read_to_string(repository("examples/loop.job")).unwrap();
    let job: Job = text.parse().unwrap();
    let (existing, strict) = (texts(&whole(&job).unwrap()), texts(&strict(&job).unwrap()));
    assert_eq!(existing[2], strict[2]);
    assert_eq!(existing[3][..3], ["scope block 3", "holds", "beat"]);
    assert_eq!(strict[3][..3], ["scope block 3", "holds", "nothing"]);
    assert!(
        existing[3].contains(&"beat.rate".to_string()) && !existing[3].contains(&"beat|.rate".to_string())
    );
    assert!(strict[3].contains(&"beat|.rate".to_string()) && !strict[3].contains(&"beat.rate".to_string()));
}

#[test]
fn focus_draws_the_block_that_is_not_finished() {
    let job: Job = "scope 3 block 0 block 1 after 0, 3 block 2 assumes 5 block 3 after 1, 2 block 4 after 3 candidate 5.10"
        .parse()
        .unwrap();
    let drawn: Vec<usize> = focused_strict(&job).unwrap().groups().iter().map(|group| group.block).collect();
    assert_eq!(drawn, [1, 2, 3]);
}

#[test]
fn sheet_and_answer_by_the_other_propagation_make_no_picture() {
    let job: Job = "scope 1 block 0 assumes 1 block 1 after 1, 0 candidate 1.10".parse().unwrap();
    let (existing, strict) = (sheet(&job).unwrap(), strict_sheet(&job).unwrap());
    assert_eq!(draw(&job, &strict, &strict_answer(&job).unwrap()), Err(Mismatch));
    assert_eq!(draw_strict(&job, &existing, &answer(&job).unwrap()), Err(Mismatch));
    assert_eq!(draw_focused_strict(&job, &existing, &answer(&job).unwrap()), Err(Mismatch));
}
