//! What is said of a job that cannot be used.

use crate::common::hex;
use crate::{message, scratch, text, written, BYTES, TEXT};
use scope_deps::limits;
use std::fs;
use std::io::Write;
use std::process::{Command, Stdio};

#[test]
fn a_bad_text_is_shown_with_line_column_and_excerpt() {
    assert_eq!(
        message(&["encode"], "scope 7\nblock 7 after 9\n", 1),
        "scope-deps: standard input:2:15: predecessor 9 of block 7 is no block of the job\n\
         2 | block 7 after 9\n  |               ^\n"
    );
    let job = scratch("bad.txt");
    fs::write(&job, "scope 7\n\tblock 7 assumes 1?10\n").unwrap();
    let said = message(&["explain", job.to_str().unwrap()], "", 1);
    assert!(said.contains("bad.txt:2:19: after `?` there is a `.`"), "{said}");
    assert!(said.ends_with("2 | \tblock 7 assumes 1?10\n  | \t                 ^\n"), "{said}");
}

#[test]
fn what_is_no_text_is_named() {
    let latin = b"scope 7\n# caf\xe9\nblock 7";
    for words in [&["encode"][..], &["answer"], &["draw", "--from", "text"]] {
        let said = message(words, latin, 1);
        assert_eq!(said, "scope-deps: standard input: this is not UTF-8: byte 13, in line 2, is 0xe9\n");
    }
    let utf_16: Vec<u8> = "\u{feff}scope 7".encode_utf16().flat_map(u16::to_le_bytes).collect();
    assert!(message(&["answer"], utf_16, 1).contains("not UTF-8, but UTF-16, as its byte-order mark says"));
    let marked = message(&["answer"], format!("\u{feff}{TEXT}"), 1);
    assert!(marked.contains("standard input:1:1: ") && marked.contains("not a byte-order mark"), "{marked}");
    for command in ["encode", "decode", "answer", "sheet", "thin", "explain", "draw"] {
        let said = message(&[command], "", 1);
        assert_eq!(said, "scope-deps: standard input: this is empty, and holds no job\n");
    }
    assert!(message(&["decode", "--from", "hex"], "", 1).contains("this is empty"));
}

#[test]
fn an_excerpt_of_a_long_line_is_short() {
    let text = format!("scope 7 block 7 {}oops {}", "assumes 1 ".repeat(10), "# ".repeat(1 << 20));
    let said = message(&["answer"], &text, 1);
    assert!(said.len() < 400 && said.contains("oops"), "{said}");
    let long = vec![b' '; (16 << 20) + 1];
    assert!(message(&["answer"], long, 1).contains("more than 16777216 bytes, the most that are read"));
}

#[test]
fn a_refused_job_says_its_number_and_place() {
    let damaged = &hex(BYTES)[..42];
    for command in ["decode", "answer", "sheet", "thin", "explain", "draw"] {
        let said = message(&[command], damaged, 1);
        assert!(said.contains("refusal 3, MissingByte: ") && said.contains("in CA record 1: "), "{said}");
    }
    let unknown = [&b"XX"[..], &hex(BYTES)[2..]].concat();
    assert!(message(&["answer"], unknown, 1).contains("refusal 4, WrongMark"));
    assert!(message(&["decode"], vec![0; limits::JOB_BYTES + 1], 1).contains("refusal 2, LongJob"));
    assert!(message(&["decode"], b"HD\x01\x00\x41\x00", 1).contains("how many candidates (0 to 64)"));
}

#[test]
fn the_wrong_one_of_encode_and_decode_is_told() {
    assert!(message(&["encode"], hex(BYTES), 1).contains("`decode` takes"));
    assert!(message(&["decode"], TEXT, 1).contains("this is text"));
    assert!(message(&["decode"], BYTES, 1).contains("`--from hex`"));
}

#[test]
fn a_job_with_too_many_nodes_is_refused_and_still_decoded() {
    let assumed: String = (0..255).map(|name| format!(" assumes 1.{name}.0.1")).collect();
    let job = format!("scope 7 block 7{assumed}");
    assert!(message(&["answer"], &job, 1).contains("refusal 9, ManyNodes"));
    assert!(message(&["draw"], &job, 1).contains("refusal 9, ManyNodes"));
    assert!(text(&["decode"], written(&["encode"], &job)).starts_with("scope 7\nblock 7\n"));
}

#[test]
fn a_reader_that_closes_the_pipe_gets_no_message() {
    let many: String = (0..120).map(|id| format!("block {id} assumes {id}.1.2.3\n")).collect();
    let job = format!("scope 0\n{many}");
    let mut child = Command::new(env!("CARGO_BIN_EXE_scope-deps"))
        .arg("draw")
        .stdin(Stdio::piped())
        .stdout(Stdio::piped())
        .stderr(Stdio::piped())
        .spawn()
        .unwrap();
    drop(child.stdout.take());
    child.stdin.take().unwrap().write_all(job.as_bytes()).unwrap();
    let output = child.wait_with_output().unwrap();
    assert!(output.stderr.is_empty() && !output.status.success(), "{output:?}");
}
