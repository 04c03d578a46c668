//! The command-line tool: what it writes, its messages and its exit status.

#[path = "../common/mod.rs"]
mod common;
mod dumps;
mod help;
mod messages;
mod nodes;
mod options;
mod raw_reads;
mod strict;
mod thin;

use common::{hex, repository};
use scope_deps::Job;
use std::fs;
use std::io::Write;
use std::path::PathBuf;
use std::process::{Command, Output, Stdio};

const TEXT: &str = "scope 7 block 7 assumes reactive 1 candidate reactive 1@5.10@6";
const BYTES: &str = "4844 0100 0100 07000000 / 424C 07000000 00 01 00 / 5041 01000000 01 00000000 00 /
    4341 01000000 01 05000000 01 00 00 0A00000000000000 06000000";

fn run(words: &[&str], input: impl AsRef<[u8]>) -> Output {
    let mut child = Command::new(env!("CARGO_BIN_EXE_scope-deps"))
        .args(words)
        .stdin(Stdio::piped())
        .stdout(Stdio::piped())
        .stderr(Stdio::piped())
        .spawn()
        .unwrap();
    // A program that stops before it reads closes its input; that is no fault here.
    let _ = child.stdin.take().unwrap().write_all(input.as_ref());
    child.wait_with_output().unwrap()
}

/// What is written where all goes well.
fn written(words: &[&str], input: impl AsRef<[u8]>) -> Vec<u8> {
    let output = run(words, input);
    assert!(output.status.success() && output.stderr.is_empty(), "{words:?}: {output:?}");
    output.stdout
}

fn text(words: &[&str], input: impl AsRef<[u8]>) -> String {
    String::from_utf8(written(words, input)).unwrap()
}

/// The message where something goes wrong: nothing is written, and this is the exit status.
fn message(words: &[&str], input: impl AsRef<[u8]>, status: i32) -> String {
    let output = run(words, input);
    assert_eq!(output.status.code(), Some(status), "{words:?}: {output:?}");
    assert!(output.stdout.is_empty());
    String::from_utf8(output.stderr).unwrap()
}

/// A file in a folder of the test's own.
fn scratch(name: &str) -> PathBuf {
    let folder = PathBuf::from(env!("CARGO_TARGET_TMPDIR"));
    fs::create_dir_all(&folder).unwrap();
    folder.join(name)
}

#[test]
fn a_job_goes_from_text_to_bytes_and_back() {
    assert_eq!(written(&["encode"], TEXT), hex(BYTES));
    let back = text(&["decode"], hex(BYTES));
    assert_eq!(back.parse::<Job>(), TEXT.parse::<Job>());
    assert_eq!(text(&["decode", "--from", "hex"], BYTES), back);
    assert_eq!(text(&["decode", "--from", "text"], TEXT), back);
}

#[test]
fn answer_sheet_and_the_others_take_text_and_bytes() {
    assert_eq!(text(&["answer"], TEXT), "rounds 1, settled\nreturned reactive 1@6.10@6\n");
    let sheet = "rounds 1, settled\nnodes 1: 1 before the first round, 0 added by reduction\n\
                 node 0 reactive 1\nblock 7 holds 1\n";
    assert_eq!(text(&["sheet"], TEXT), sheet);
    for command in ["answer", "sheet", "thin", "explain", "draw"] {
        assert_eq!(text(&[command], TEXT), text(&[command, "-"], hex(BYTES)), "{command}");
        assert_eq!(text(&[command], TEXT), text(&[command, "--from", "hex"], BYTES), "{command}");
    }
    let answer = hex("414E 0100 01 01 / 4445 01000000 01 06000000 01 00 00 0A00000000000000 06000000");
    assert_eq!(written(&["answer", "--bytes"], TEXT), answer);
    assert_eq!(written(&["sheet", "--bytes"], TEXT).len(), 103);
}

#[test]
fn files_are_read_and_written() {
    let (job, svg) = (scratch("job.txt"), scratch("job.svg"));
    fs::write(&job, TEXT).unwrap();
    let (job, svg) = (job.to_str().unwrap(), svg.to_str().unwrap());
    assert_eq!(text(&["answer", job], ""), text(&["answer"], TEXT));
    assert_eq!(text(&["draw", "-o", svg, job], ""), "");
    assert_eq!(fs::read_to_string(svg).unwrap(), text(&["draw"], TEXT));
    assert!(message(&["answer", "no/such/file"], "", 1).contains("no/such/file cannot be read: "));
    assert!(
        message(&["encode", "-o", "no/such/file", job], "", 1).contains("no/such/file cannot be written: ")
    );
}

#[test]
fn names_of_a_file_are_used_for_bytes() {
    let names = scratch("names.txt");
    fs::write(&names, "# of the page\nname 1 athlete\nname .10 lastSession\n").unwrap();
    let names = names.to_str().unwrap();
    let named = "name 1 athlete\nname .10 lastSession\nscope 7\nblock 7\n  assumes reactive athlete\n\
                 candidate reactive athlete@5.lastSession@6\n";
    assert_eq!(text(&["decode", "--names", names], hex(BYTES)), named);
    assert_eq!(text(&["decode", "--from", "text"], named), named);
    assert_eq!(written(&["encode"], named), hex(BYTES));
    let answer = "rounds 1, settled\nreturned reactive athlete@6.lastSession@6\n";
    for (words, input) in
        [(vec!["answer"], named.as_bytes().to_vec()), (vec!["answer", "--names", names], hex(BYTES))]
    {
        assert_eq!(text(&words, input), answer);
    }
    let sheet = text(&["sheet", &format!("--names={names}")], hex(BYTES));
    assert!(sheet.ends_with("\nnode 0 reactive athlete\nblock 7 holds athlete\n"), "{sheet}");
    for command in ["explain", "draw"] {
        let shown = text(&[command, "--names", names], hex(BYTES));
        assert_eq!(shown, text(&[command], named), "{command}");
        assert!(shown.contains("athlete") && shown.contains(".lastSession"), "{command}: {shown}");
        assert!(!shown.contains("1.10"), "{command}: {shown}");
    }
    let short = "scope 7 block 7 candidate athlete.lastSession";
    assert_eq!(
        written(&["encode", "--names", names], short),
        written(&["encode"], "scope 7 block 7 candidate 1.10")
    );
    fs::write(scratch("clash.txt"), "name 1 a\nname 1 b").unwrap();
    let said = message(&["answer", "--names", scratch("clash.txt").to_str().unwrap()], hex(BYTES), 1);
    assert!(said.contains("clash.txt:2:6: variable 1 has the name `a` already"), "{said}");
}

#[test]
fn the_script_builds_and_runs_the_tool_from_any_directory() {
    let output = Command::new(repository("bin/scope-deps").canonicalize().unwrap())
        .args(["answer", "-"])
        .current_dir(env!("CARGO_TARGET_TMPDIR"))
        .stdin(fs::File::open(repository("examples/diamond.job")).unwrap())
        .output()
        .unwrap();
    assert!(output.status.success(), "{output:?}");
    assert_eq!(output.stdout, fs::read(repository("examples/diamond.answer")).unwrap());
}

#[test]
fn the_version_is_the_packages() {
    let version = format!("scope-deps {}\n", env!("CARGO_PKG_VERSION"));
    assert_eq!(text(&["--version"], ""), version);
    assert_eq!(text(&["-V"], ""), version);
}

#[test]
fn examples_are_listed_and_each_can_be_answered() {
    let list = text(&["examples"], "");
    let files = fs::read_dir(repository("examples")).unwrap();
    let files = files.filter(|file| file.as_ref().unwrap().path().extension().unwrap() == "job").count();
    assert_eq!(list.lines().count(), files);
    for line in list.lines() {
        let name = line.split(' ').next().unwrap();
        let job = text(&["examples", name], "");
        assert_eq!(job, fs::read_to_string(repository(&format!("examples/{name}.job"))).unwrap());
        let answer = fs::read_to_string(repository(&format!("examples/{name}.answer"))).unwrap();
        assert_eq!(text(&["answer"], &job), answer);
    }
}
