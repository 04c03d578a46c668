//! The command line itself: options, files, and what makes no sense.

use crate::common::hex;
use crate::{message, scratch, text, BYTES, TEXT};
use std::fs;
use std::process::Command;

#[test]
fn options_are_taken_as_other_tools_take_them() {
    let (job, bytes) = (scratch("options.txt"), scratch("options.bin"));
    fs::write(&job, TEXT).unwrap();
    let (job, output) = (job.to_str().unwrap(), bytes.to_str().unwrap());
    let forms =
        [vec![format!("-o{output}")], vec![format!("--output={output}")], vec!["-o".into(), output.into()]];
    for words in forms {
        let _ = fs::remove_file(&bytes);
        let words: Vec<&str> = words.iter().map(String::as_str).collect();
        assert_eq!(text(&[&["encode"], &words[..], &["--", job]].concat(), ""), "");
        assert_eq!(fs::read(&bytes).unwrap(), hex(BYTES), "{words:?}");
    }
    assert_eq!(text(&["answer", "--from=hex", "--", "-"], BYTES), text(&["answer"], TEXT));
    let folder = scratch("folder");
    fs::create_dir_all(&folder).unwrap();
    fs::write(folder.join("--help"), TEXT).unwrap();
    let answer = Command::new(env!("CARGO_BIN_EXE_scope-deps"))
        .args(["answer", "--", "--help"])
        .current_dir(&folder)
        .output()
        .unwrap();
    assert_eq!(String::from_utf8(answer.stdout).unwrap(), text(&["answer"], TEXT));
}

#[test]
fn a_file_that_is_read_is_not_written() {
    let job = scratch("read.txt");
    fs::write(&job, TEXT).unwrap();
    // The toolchain refuses links below the repository.
    let place = std::env::temp_dir().join(format!("scope-deps-{}-read.link", std::process::id()));
    let _ = fs::remove_file(&place);
    std::os::unix::fs::symlink(&job, &place).unwrap();
    let (file, link) = (job.to_str().unwrap(), place.to_str().unwrap());
    for words in [
        &["encode", "-o", file, file][..],
        &["encode", "-o", link, file],
        &["encode", "-o", file, link],
        &["answer", "--names", file, "-o", file],
    ] {
        assert!(message(words, TEXT, 2).contains("is read, and would be written over"), "{words:?}");
    }
    let from_input = Command::new(env!("CARGO_BIN_EXE_scope-deps"))
        .args(["encode", "-o", file])
        .stdin(fs::File::open(&job).unwrap())
        .output()
        .unwrap();
    assert_eq!(from_input.status.code(), Some(2));
    assert_eq!(fs::read_to_string(&job).unwrap(), TEXT);
    assert_eq!(text(&["encode", "-o", "/dev/null"], TEXT), "");
    fs::remove_file(&place).unwrap();
}

#[test]
fn a_wrong_command_line_is_told_from_a_wrong_job() {
    for (words, part) in [
        (&[][..], "a command is missing"),
        (&["bogus"], "`bogus` is no command"),
        (&["answer", "--bogus"], "`--bogus` is no option"),
        (&["encode", "--bytes"], "`--bytes` is no option"),
        (&["answer", "--all"], "`--all` is no option"),
        (&["thin", "--focus"], "`--focus` is no option"),
        (&["answer", "-o"], "a value is missing after `-o`"),
        (&["answer", "--output="], "a value is missing after `--output`"),
        (&["answer", "--bytes=1"], "`--bytes=1` is no option"),
        (&["answer", "--", "one", "-two"], "`-two` follows another"),
        (&["answer", "--from", "jpeg"], "`jpeg` is no form"),
        (&["answer", "one", "two"], "`two` follows another"),
        (&["help", "bogus"], "there is no help on `bogus`"),
    ] {
        let said = message(words, "", 2);
        assert!(said.contains(part) && said.contains("--help"), "{words:?}: {said}");
    }
}
