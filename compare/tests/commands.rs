//! The command line: exit codes and messages.

mod common;

use compare::job::limits;
use compare::list::{Record, read_list};
use compare::operation::Operation;
use compare::reader::read_job;
use std::collections::BTreeSet;
use std::fs::{self, Permissions};
use std::io::Write;
use std::os::unix::fs::PermissionsExt;
use std::path::PathBuf;
use std::process::{Command, Output, Stdio};

fn run(words: &[&str], input: &[u8]) -> Output {
    let mut child = Command::new(env!("CARGO_BIN_EXE_compare"))
        .args(words)
        .stdin(Stdio::piped())
        .stdout(Stdio::piped())
        .stderr(Stdio::piped())
        .spawn()
        .unwrap();
    // A program that stops before it reads closes its input; that is no fault here.
    let _ = child.stdin.take().unwrap().write_all(input);
    child.wait_with_output().unwrap()
}

fn misused(words: &[&str], part: &str) {
    let output = run(words, b"");
    let message = String::from_utf8(output.stderr).unwrap();
    assert_eq!(output.status.code(), Some(2), "{words:?}");
    assert!(message.contains(part) && message.contains("--help"), "{words:?}: {message}");
    assert!(output.stdout.is_empty());
}

#[test]
fn bad_words_get_a_message_and_a_hint() {
    misused(&[], "a command is missing");
    misused(&["bogus"], "`bogus` is no command");
    misused(&["answer", "more"], "`more` follows");
    misused(&["thin", "more"], "`more` follows");
    misused(&["strict_answer", "more"], "`more` follows");
    misused(&["nodes", "more"], "`more` follows");
    misused(&["help", "bogus"], "no help on `bogus`");
    misused(&["bogus", "--help"], "no help on `bogus`");
    misused(&["help", "answer", "more"], "`more` follows");
    misused(&["generate", "--seed"], "a value is missing");
    misused(&["generate", "--seed", "x", "--count", "1"], "`x` after --seed");
    misused(&["generate", "--seed", "1", "--count", "-1"], "`-1` after --count");
    misused(&["generate", "--seed", "1", "--count", "1", "--class", "none"], "`none` is no class");
    misused(&["generate", "--bogus", "1"], "`--bogus` is no option");
    misused(&["generate", "--job", "1", "--count", "1"], "`--job` is for one job");
    misused(&["compare", "--job", "1"], "`--job` is no option of `compare`");
    misused(&["programs", "--bin"], "a value is missing");
    misused(&["compare", "--seed", "1", "--count", "1", "--class", "none"], "`none` is no class");
    misused(&["compare", "--out", "x"], "`--out` is no option of `compare`");
    misused(&["memory", "more"], "`more` follows");
    misused(&["bench", "--count", "1"], "`--count` is no option of `bench`");
    misused(&["bench", "--repeat", "some"], "`some` after --repeat");
}

/// Standard output where all goes well.
fn written(words: &[&str]) -> Vec<u8> {
    let output = run(words, b"");
    assert!(output.status.success(), "{words:?}: {}", String::from_utf8_lossy(&output.stderr));
    output.stdout
}

fn text(words: &[&str]) -> String {
    String::from_utf8(written(words)).unwrap()
}

/// The commands that the help lists.
fn listed_commands(help: &str) -> Vec<&str> {
    let lines = help.lines().filter_map(|line| line.strip_prefix("  ")?.split_once("  "));
    lines.map(|(name, _)| name).collect()
}

#[test]
fn the_readme_has_each_command() {
    let readme = fs::read_to_string(PathBuf::from(env!("CARGO_MANIFEST_DIR")).join("README.md")).unwrap();
    let rows = readme.lines().filter_map(|line| line.strip_prefix("| `compare/oracle "));
    let named: BTreeSet<&str> = rows.filter_map(|row| row.split([' ', '`']).next()).collect();
    assert_eq!(named, BTreeSet::from_iter(listed_commands(&text(&["help"]))));
}

#[test]
fn help_is_there_for_every_command() {
    let all = text(&["--help"]);
    assert_eq!(all, text(&["help"]));
    assert_eq!(all, text(&["-h"]));
    let commands = listed_commands(&all);
    assert_eq!(
        commands,
        [
            "answer",
            "sheet",
            "thin",
            "strict_answer",
            "strict_sheet",
            "nodes",
            "check",
            "compare",
            "programs",
            "memory",
            "bench",
            "generate",
            "store",
            "help"
        ]
    );
    for command in commands.into_iter().filter(|command| *command != "help") {
        let own = text(&[command, "--help"]);
        assert!(own.starts_with(&format!("usage: compare/oracle {command}")), "{own}");
        assert_eq!(own, text(&["help", command]));
    }
    assert!(text(&["compare", "--count", "5", "-h"]).contains("Classes: no-loops, "));
}

#[test]
fn a_reader_that_closes_the_pipe_gets_no_message() {
    for words in
        [&["help", "compare"][..], &["check"], &["compare", "--count", "10"], &["generate", "--job", "1"]]
    {
        let (reader, writer) = std::io::pipe().unwrap();
        drop(reader);
        let output = Command::new(env!("CARGO_BIN_EXE_compare")).args(words).stdout(writer).output().unwrap();
        assert!(output.stderr.is_empty(), "{words:?}: {output:?}");
        assert_eq!(output.status.code(), Some(1), "{words:?}");
    }
}

#[test]
fn one_job_is_written_by_its_number() {
    let due = |seed, class| compare::generate::generate(seed, 17, class).job;
    assert_eq!(written(&["generate", "--job", "17"]), due(20_261_115, None));
    assert_eq!(written(&["generate", "--job", "17", "--seed", "3", "--class", "tree"]), due(3, Some("tree")));
    let file = scratch("17.job");
    assert!(written(&["generate", "--job", "17", "--out", file.to_str().unwrap()]).is_empty());
    assert_eq!(fs::read(file).unwrap(), due(20_261_115, None));
}

/// A file in a folder of the test's own.
fn scratch(name: &str) -> PathBuf {
    let folder = PathBuf::from(env!("CARGO_TARGET_TMPDIR"));
    fs::create_dir_all(&folder).unwrap();
    folder.join(name)
}

#[test]
fn programs_that_write_something_else_are_named() {
    let folder = scratch("programs");
    fs::create_dir_all(&folder).unwrap();
    let refuses = |number: u8| format!("#!/bin/sh\ncat >/dev/null\nprintf 'RF\\00{number}'\n");
    let said = |text_of: &dyn Fn(&str) -> String| {
        for name in Operation::ALL.map(Operation::name) {
            fs::write(folder.join(name), text_of(name)).unwrap();
            fs::set_permissions(folder.join(name), Permissions::from_mode(0o755)).unwrap();
        }
        let output = run(&["programs", "--bin", folder.to_str().unwrap()], b"");
        assert_eq!(output.status.code(), Some(1));
        String::from_utf8(output.stderr).unwrap()
    };
    // The first stored job is refused by 3.
    let first = "stored job 0: wrote 3 bytes, Some(04) at byte 2, due are 3 bytes, Some(03) at byte 2";
    for wrong in Operation::ALL.map(Operation::name) {
        let message = said(&|name| refuses(if name == wrong { 4 } else { 3 }));
        assert!(message.contains(&format!("program {wrong}, {first}")), "{message}");
    }
    let stored = fs::read(PathBuf::from(env!("CARGO_MANIFEST_DIR")).join("stored/jobs.bin")).unwrap();
    let is_refused = |record: &Record| read_job(&record.job, limits::OUT_BYTES) == Err(3);
    let next = read_list(&stored).unwrap().iter().position(|record| !is_refused(record)).unwrap();
    assert!(said(&|_| refuses(3)).contains(&format!("program answer, stored job {next}: ")));
    assert!(said(&|_| "#!/bin/sh\nexit 7\n".into()).contains("ended with exit status: 7"));
}

#[test]
fn a_thin_job_comes_as_bytes_with_or_without_the_rust() {
    let job = common::hex(
        "4844 0100 0000 00000000 / 424C 00000000 00 02 00 / 5041 01000000 01 00000000 00 /
        5041 01000000 00 09000000 00",
    );
    let thin = common::hex("4844 0100 0000 00000000 / 424C 00000000 00 01 00 / 5041 01000000 01 00000000 00");
    for job in [&job, &thin] {
        assert_eq!(run(&["thin"], job).stdout, thin);
    }
    assert_eq!(run(&["thin"], b"").stdout, b"RF\x03");
    assert_eq!(run(&["thin"], &[0; 100_000]).stdout, b"RF\x02");
}

#[test]
fn the_stored_list_is_replayed() {
    let output = run(&["check"], b"");
    let message = String::from_utf8(output.stdout).unwrap();
    assert!(output.status.success(), "{}", String::from_utf8_lossy(&output.stderr));
    assert!(message.starts_with("stored jobs: "), "{message}");
}

#[test]
fn the_library_is_compared_or_one_line_says_why_not() {
    let output = run(&["compare", "--seed", "1", "--count", "200"], b"");
    let message = String::from_utf8(output.stdout).unwrap();
    assert!(output.status.success(), "{}", String::from_utf8_lossy(&output.stderr));
    if cfg!(all(library, reference)) {
        assert!(message.contains("200 generated jobs of seed 1 agree with the Rust"), "{message}");
        assert!(message.contains(" made by reduction; none made in "), "{message}");
        assert!(message.contains("\nraw reads in "), "{message}");
    } else {
        assert!(message.contains("did not run") && message.lines().count() == 1, "{message}");
    }
}

#[test]
fn the_librarys_memory_is_measured_or_one_line_says_why_not() {
    let output = run(&["memory"], b"");
    let message = String::from_utf8(output.stdout).unwrap();
    assert!(output.status.success(), "{}", String::from_utf8_lossy(&output.stderr));
    if cfg!(library) {
        assert!(message.contains("the most of all"), "{message}");
    } else {
        assert!(message.contains("not measured") && message.lines().count() == 1, "{message}");
    }
}

#[cfg(not(all(library, reference)))]
#[test]
fn without_the_library_or_the_rust_nothing_is_timed() {
    let output = run(&["bench"], b"");
    let message = String::from_utf8(output.stdout).unwrap();
    assert!(output.status.success());
    assert!(message.contains("nothing was timed") && message.lines().count() == 1, "{message}");
}

#[cfg(not(reference))]
#[test]
fn without_the_rust_one_line_says_so() {
    for words in [
        &["answer"][..],
        &["sheet"],
        &["strict_answer"],
        &["strict_sheet"],
        &["nodes"],
        &["store"],
        &["generate"],
    ] {
        let output = run(words, b"");
        let message = String::from_utf8(output.stderr).unwrap();
        assert_eq!(output.status.code(), Some(3), "{words:?}");
        assert!(message.contains("did not run") && message.lines().count() == 1, "{message}");
    }
}

#[cfg(reference)]
mod with_the_rust {
    use super::common::hex;
    use super::run;
    use compare::examples::example;
    use compare::list::read_list;

    #[test]
    fn answers_and_refusals_come_as_bytes() {
        let job = hex("4844 0100 0000 00000000 / 424C 00000000 00 00 00");
        assert_eq!(run(&["answer"], &job).stdout, hex("414E 0000 01 01"));
        assert_eq!(run(&["sheet"], &job).stdout.len(), 10 + 70);
        assert_eq!(run(&["answer"], b"").stdout, b"RF\x03");
        assert_eq!(run(&["sheet"], b"xx").stdout, b"RF\x04");
        assert_eq!(run(&["answer"], &[0; 100_000]).stdout, b"RF\x02");
        assert_eq!(run(&["strict_answer"], &job).stdout, hex("414E 0000 01 01"));
        assert_eq!(run(&["strict_sheet"], &job).stdout, run(&["sheet"], &job).stdout);
        assert_eq!(run(&["strict_sheet"], b"").stdout, b"RF\x03");
    }

    /// What `nodes` prints of an example.
    fn nodes_of(name: &str) -> String {
        let output = run(&["nodes"], &example(name).to_bytes());
        assert!(output.status.success() && output.stderr.is_empty(), "{name}");
        String::from_utf8(output.stdout).unwrap()
    }

    #[test]
    fn nodes_before_the_first_round_and_at_the_end_are_printed() {
        let both = |existing: &str, strict: &str| {
            format!(
                "existing propagation: nodes.len() is {existing}\nstrict propagation: nodes.len() is {strict}\n"
            )
        };
        let one = "2 before the first round and 3 at the end; reduction made 1, 1 of them in the first round";
        assert_eq!(nodes_of("changed-by-set"), both(one, one));
        let two = "5 before the first round and 7 at the end; reduction made 2, 1 of them in the first round";
        assert_eq!(nodes_of("made-in-two-rounds"), both(two, two));
        let refused = "512 before the first round and 513 at the end; reduction made 1, 0 of them in the first \
                       round; refused by 9";
        let none = "512 before the first round and 512 at the end; reduction made 0";
        assert_eq!(nodes_of("513-nodes-in-the-last-round"), both(refused, none));
    }

    #[test]
    fn a_job_whose_nodes_cannot_be_counted_gets_a_message() {
        let largest = example("range-start-4294967295").to_bytes();
        for (job, number) in [(&b""[..], 3), (b"scope 0 block 0", 4), (&[0; 100_000], 2), (&largest[..], 10)]
        {
            let output = run(&["nodes"], job);
            assert_eq!((output.status.code(), output.stdout.is_empty()), (Some(1), true));
            let message = String::from_utf8(output.stderr).unwrap();
            assert!(message.contains(&format!("refused by {number}, ")), "{message}");
            assert!(message.contains("`bin/scope-deps encode`"), "{message}");
        }
    }

    #[test]
    fn generated_lists_can_be_read() {
        let words = ["generate", "--seed", "9", "--count", "50", "--max-bytes", "400"];
        let records = read_list(&run(&words, b"").stdout).unwrap();
        assert_eq!(records.len(), 50);
        assert!(records.iter().all(|record| record.job.len() <= 400));
        let words = [&words[..], &["--class", "nodes-entered"]].concat();
        let output = run(&words, b"");
        assert_eq!(output.status.code(), Some(1));
        assert!(String::from_utf8(output.stderr).unwrap().contains("longer than --max-bytes"));
    }

    #[test]
    fn a_list_starts_at_the_job_asked_for() {
        let list = |words: &[&str]| read_list(&run(words, b"").stdout).unwrap();
        assert_eq!(list(&["generate"]).len(), 100);
        let four = list(&["generate", "--seed", "5", "--count", "4"]);
        assert_eq!(list(&["generate", "--seed", "5", "--count", "2", "--first", "2"]), four[2..]);
        assert_eq!(super::written(&["generate", "--job", "3", "--seed", "5"]), four[3].job);
    }

    #[test]
    fn a_file_that_cannot_be_written_is_named() {
        let output =
            run(&["generate", "--seed", "1", "--count", "1", "--out", "no-such-place/list.bin"], b"");
        assert_eq!(output.status.code(), Some(1));
        assert!(
            String::from_utf8(output.stderr).unwrap().contains("no-such-place/list.bin cannot be written")
        );
    }
}
