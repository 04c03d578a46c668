//! `thin`: jobs without repeats, as text and in bytes.

use crate::{scratch, text, written};
use std::fs;

/// With comments, names, and three repeats.
const REPEATING: &str = "
    # of the page
    name 1 athlete
    name .10 lastSession
    scope 7
    block 7 assumes reactive athlete@3, athlete.lastSession, athlete   # once more
    block 8 after 7 assumes athlete
    candidate athlete.lastSession@5, athlete?.lastSession, athlete.lastSession@6, athlete@9.lastSession";

const THIN: &str = "name 1 athlete\nname .10 lastSession\nscope 7\nblock 7\n  assumes reactive athlete@3\n  \
    assumes athlete.lastSession\nblock 8 after 7\n  assumes athlete\ncandidate athlete.lastSession@5\n\
    candidate athlete?.lastSession\n";

#[test]
fn a_thin_job_is_text_with_names_under_a_comment() {
    assert_eq!(text(&["thin"], REPEATING), format!("# 3 repeated paths dropped\n{THIN}"));
    let one = "scope 7 block 7 candidate 1, 1";
    assert_eq!(text(&["thin"], one), "# 1 repeated path dropped\nscope 7\nblock 7\ncandidate 1\n");
}

#[test]
fn a_thin_job_stays_as_it_is() {
    assert_eq!(text(&["thin"], THIN), THIN);
    assert_eq!(text(&["thin"], text(&["thin"], REPEATING)), THIN);
}

#[test]
fn bytes_files_and_names_are_as_for_the_other_commands() {
    let (thin, whole) = (written(&["encode"], THIN), written(&["encode"], REPEATING));
    assert_eq!(written(&["thin", "--bytes"], REPEATING), thin);
    assert_eq!(written(&["thin", "--bytes"], &whole), thin);
    assert_eq!(written(&["thin", "--bytes"], &thin), thin);
    let (output, names) = (scratch("thin.job"), scratch("thin.names"));
    fs::write(&names, "name 1 athlete\nname .10 lastSession\n").unwrap();
    let words = ["thin", "--names", names.to_str().unwrap(), "-o", output.to_str().unwrap()];
    assert_eq!(text(&words, &whole), "");
    assert_eq!(fs::read_to_string(output).unwrap(), text(&["thin"], REPEATING));
}

#[test]
fn answer_and_sheet_of_the_thin_job_are_those_of_the_job() {
    for words in [&["answer"][..], &["sheet"], &["answer", "--strict"], &["sheet", "--strict"]] {
        assert_eq!(text(words, text(&["thin"], REPEATING)), text(words, REPEATING), "{words:?}");
    }
}

#[test]
fn a_job_with_too_many_nodes_has_a_thin_job() {
    let assumed: String = (0..200).map(|name| format!(" assumes 1.{name}.0.1")).collect();
    let job = format!("scope 7 block 7{assumed} assumes 1.7.0.1");
    assert!(crate::message(&["answer"], &job, 1).contains("refusal 9, ManyNodes"));
    assert!(text(&["thin"], &job).starts_with("# 1 repeated path dropped\nscope 7\nblock 7\n"));
}
