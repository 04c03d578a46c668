//! The refusals have one set of names: that of the stage's own code, which the document lists.

mod common;

use common::repository;
use scope_deps::Refusal;
use std::fs;

fn read(file: &str) -> String {
    fs::read_to_string(repository(file)).unwrap()
}

fn refusals() -> impl Iterator<Item = Refusal> {
    (1..=10).map(|number| Refusal::from_number(number).unwrap())
}

#[test]
fn the_crate_has_the_stages_names() {
    let code = read("crates/entries/src/lib.rt");
    let (_, cases) = code.split_once("pub enum Refusal {").unwrap();
    let cases = cases.split_once('}').unwrap().0.split(',').map(str::trim).filter(|case| !case.is_empty());
    assert!(cases.eq(refusals().map(|refusal| refusal.name())));
}

#[test]
fn the_document_lists_number_name_and_meaning() {
    let document = read("docs/FORMAT.md");
    let (_, part) = document.split_once("\n## Refusals\n").unwrap();
    let rows = part.lines().filter(|line| line.starts_with("| ") && !line.starts_with("| number"));
    let rows: Vec<&str> = rows.take(10).collect();
    for (refusal, row) in refusals().zip(rows) {
        let start = format!("| {} | `{}` | {}", refusal.number(), refusal.name(), refusal.meaning());
        assert!(row.starts_with(&start), "{row}\nbut:\n{start}");
    }
}

#[test]
fn the_c_header_has_the_same_words() {
    let header = read("interface/scope_deps.h");
    let (_, cases) = header.split_once("enum scope_deps_refusal {").unwrap();
    let comments = cases.split_once("};").unwrap().0.lines().filter_map(|line| line.split_once("/* "));
    let words = comments.filter_map(|(_, comment)| comment.strip_suffix(" */"));
    assert!(words.eq(refusals().map(|refusal| refusal.meaning())));
}

#[test]
fn a_refusal_is_shown_with_number_name_and_meaning() {
    for refusal in refusals() {
        let (number, name, meaning) = (refusal.number(), refusal.name(), refusal.meaning());
        assert_eq!(refusal.to_string(), format!("refusal {number}, {name}: {meaning}"));
        assert!(format!("{refusal:?}").starts_with(name));
    }
}
