//! The examples: their answers, the pictures of them, and the jobs in the documents.

mod common;

use common::repository;
use scope_deps::draw::{draw, draw_strict};
use scope_deps::explain::explain;
use scope_deps::{answer, sheet, strict_answer, strict_sheet, Job, RawRead};
use std::fs;
use std::path::PathBuf;

fn read(file: PathBuf) -> String {
    fs::read_to_string(&file).unwrap_or_else(|why| panic!("{}: {why}", file.display()))
}

/// The names of the examples.
fn names() -> Vec<String> {
    let files = fs::read_dir(repository("examples")).unwrap().map(|file| file.unwrap().path());
    let jobs = files.filter(|file| file.extension().is_some_and(|extension| extension == "job"));
    let mut names: Vec<String> =
        jobs.map(|file| file.file_stem().unwrap().to_str().unwrap().into()).collect();
    names.sort();
    names
}

fn job(name: &str) -> Job {
    let text = read(repository(&format!("examples/{name}.job")));
    text.parse().unwrap_or_else(|why| panic!("{name}: {why}"))
}

#[test]
fn each_example_has_the_answer_beside_it() {
    let names = names();
    let all = ["added-nodes", "diamond", "loop", "no-last-session", "optional-chain", "raw-reads", "repeats"];
    assert_eq!(names, all);
    for name in names {
        let expected = read(repository(&format!("examples/{name}.answer")));
        let job = job(&name);
        assert_eq!(answer(&job).unwrap().with_names(job.names()).to_string(), expected, "{name}");
    }
}

#[test]
fn the_loop_has_its_strict_answer_beside_it_too_and_the_others_have_no_other() {
    let expected = read(repository("examples/loop.strict-answer"));
    for name in names() {
        let job = job(&name);
        let (answer, strict) = (answer(&job).unwrap(), strict_answer(&job).unwrap());
        let shown = strict.with_names(job.names()).to_string();
        assert!(if name == "loop" { shown == expected } else { strict == answer }, "{name}: {shown}");
    }
    assert_ne!(read(repository("examples/loop.answer")), expected);
}

#[test]
fn each_example_says_what_it_shows_and_the_readme_lists_it() {
    let readme = read(repository("README.md"));
    for name in names() {
        assert!(read(repository(&format!("examples/{name}.job"))).starts_with("# "));
        assert!(readme.contains(&format!("examples/{name}.job")), "{name}");
    }
}

#[test]
fn the_pictures_in_the_readme_are_those_that_are_drawn() {
    let readme = read(repository("README.md"));
    let check = |file: &str, svg: String| {
        assert!(svg == read(repository(file)), "{file}: draw it again by `scope-deps draw`");
        assert!(readme.contains(file), "{file}");
    };
    for name in ["no-last-session", "loop", "added-nodes", "raw-reads"] {
        let job = job(name);
        let svg = draw(&job, &sheet(&job).unwrap(), &answer(&job).unwrap()).unwrap();
        check(&format!("docs/pictures/{name}.svg"), svg);
    }
    let job = job("loop");
    let strict = draw_strict(&job, &strict_sheet(&job).unwrap(), &strict_answer(&job).unwrap()).unwrap();
    check("docs/pictures/loop-strict.svg", strict);
}

/// What the comment of the example says, and what the README shows of it beside the sheet.
#[test]
fn reduction_adds_two_nodes_for_the_chain_and_none_for_the_plain_path() {
    let text = read(repository("examples/added-nodes.job"));
    let chain: Job = text.parse().unwrap();
    let (chained, plain) =
        ("assumes reactive athlete?.lastSession@3?.zones@4", "athlete.lastSession@3.zones@4");
    assert!(text.contains(chained));
    let plain: Job = text.replace(chained, &format!("assumes reactive {plain}")).parse().unwrap();
    let counts = |job: &Job| sheet(job).map(|sheet| (sheet.nodes_before_rounds(), sheet.nodes().len()));
    assert_eq!((counts(&chain), counts(&plain)), (Ok((4, 6)), Ok((3, 3))));
    assert_eq!(answer(&chain), answer(&plain));
    let (readme, made_plain) = (read(repository("README.md")), sheet(&plain).unwrap().to_string());
    let command = "examples/added-nodes.job | bin/scope-deps sheet | sed -n 2p\n    ";
    assert!(readme.contains(&format!("{command}{}\n", made_plain.lines().nth(1).unwrap())));
    let explanation = explain(&chain, &sheet(&chain).unwrap(), &answer(&chain).unwrap()).unwrap();
    let blocks: Vec<u32> = explanation.added.iter().map(|added| added.block.0).collect();
    assert_eq!(blocks, [1, 2]);
    let all = explanation.in_full().to_string();
    let end: Vec<&str> = all.lines().rev().take(3).collect();
    let shown: String = end.iter().rev().map(|line| format!("    {line}\n")).collect();
    let command = "    $ bin/scope-deps explain --all examples/added-nodes.job | tail -n 3\n";
    assert!(readme.contains(&format!("{command}{shown}")), "{shown}");
}

/// The block of the document that has raw reads, with one before it.
#[test]
fn the_raw_reads_in_the_document_are_kept_or_not_as_it_says() {
    let notation = read(repository("docs/NOTATION.md"));
    let (_, part) = notation.split_once("\n## Raw reads\n").unwrap();
    let (_, block) = part.split_once("\n\n    block 1").unwrap();
    let (block, rest) = block.split_once("\n\n").unwrap();
    assert!(rest.contains("A path is left out, as the first above"));
    let job: Job = format!("scope 1 block 0 block 1{block}").parse().unwrap();
    let kept: Vec<bool> = job.blocks()[1].raw_reads().iter().map(RawRead::is_kept).collect();
    assert_eq!(kept, [false, true, true]);
}

/// The indented parts of a document that start a job.
fn jobs_of(document: &str) -> Vec<String> {
    let lines: Vec<&str> = document.lines().collect();
    let parts = lines.split(|line| !line.starts_with("    ") && !line.is_empty());
    let is_job = |line: &&&str| !line.trim_start().starts_with('$');
    let texts = parts.map(|part| part.iter().take_while(is_job).copied().collect::<Vec<_>>().join("\n"));
    let starts_job = |text: &str| text.starts_with("scope ") || text.starts_with("name ");
    texts.filter(|text| starts_job(text.trim_start())).collect()
}

#[test]
fn the_jobs_in_the_documents_are_jobs() {
    let notation = jobs_of(&read(repository("docs/NOTATION.md")));
    let readme = jobs_of(&read(repository("README.md")));
    assert_eq!((notation.len(), readme.len()), (2, 1));
    let jobs = notation.into_iter().chain(readme);
    for text in jobs {
        let job: Job = text.parse().unwrap_or_else(|why| panic!("{why}\n{text}"));
        assert!(answer(&job).is_ok());
    }
}
