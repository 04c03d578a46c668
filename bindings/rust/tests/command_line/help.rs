//! Help, and what it and the README show.

use crate::common::repository;
use crate::text;
use scope_deps::RawRead;
use std::path::PathBuf;
use std::process::Command;
use std::{env, fs};

/// Which commands have an option of their own, and which have not, by their help.
#[test]
fn each_option_is_in_the_help_of_the_commands_that_take_it() {
    let commands = ["encode", "decode", "answer", "sheet", "thin", "explain", "draw"];
    let with = |option: &str| -> Vec<&str> {
        let usage = |command: &&str| text(&["help", command], "").lines().next().unwrap().contains(option);
        commands.into_iter().filter(usage).collect()
    };
    assert_eq!(with("[--strict]"), ["answer", "sheet", "explain", "draw"]);
    assert_eq!(with("[--bytes]"), ["answer", "sheet", "thin"]);
    assert_eq!((with("[--all]"), with("[--focus]")), (vec!["explain"], vec!["draw"]));
    let all = text(&["help"], "");
    for option in ["--strict", "--bytes", "--all", "--focus"] {
        let line = all.lines().find(|line| line.trim().starts_with(option)).unwrap();
        for command in commands {
            let named = line.contains(&format!("`{command}`"));
            assert_eq!(named, with(&format!("[{option}]")).contains(&command), "{option} {command}");
        }
    }
}

#[test]
fn help_is_there_for_every_command() {
    let all = text(&["--help"], "");
    assert_eq!(all, text(&["help"], ""));
    for command in ["encode", "decode", "answer", "sheet", "thin", "explain", "draw"] {
        assert!(all.contains(&format!("\n  {command} ")));
        let own = text(&[command, "--help"], "");
        assert_eq!(own, text(&["help", command], ""));
        assert!(own.starts_with(&format!("usage: scope-deps {command} ")));
    }
    assert!(text(&["help", "notation"], "").contains("candidate"));
}

/// The raw reads that help shows, each with what is said of it.
#[test]
fn the_raw_reads_in_the_help_are_assumed_or_not_as_it_says() {
    let help = text(&["help", "notation"], "");
    let lines = help.lines().filter_map(|line| line.strip_prefix("  reads "));
    let reads: Vec<(RawRead, bool)> = lines
        .map(|line| {
            let (read, said) = line.split_once("  ").unwrap();
            (read.parse().unwrap(), said.trim_start().starts_with("assumed"))
        })
        .collect();
    assert_eq!(reads.iter().filter(|(_, assumed)| !assumed).count(), 1);
    assert!(reads.len() == 6 && reads.iter().all(|(read, assumed)| read.is_kept() == *assumed), "{reads:?}");
}

/// A command of a text, and what the text shows of its output.
struct Shown<'a> {
    command: &'a str,
    output: Vec<&'a str>,
}

/// The commands of the lines that start with `$`, with the lines of the same margin behind each, up
/// to a list of options.
fn shown_in(text: &str) -> Vec<Shown<'_>> {
    let mut found: Vec<Shown> = Vec::new();
    let mut margin = None;
    for line in text.lines() {
        let start = line.len() - line.trim_start().len();
        if let Some(command) = line.trim_start().strip_prefix("$ ") {
            margin = Some(start);
            found.push(Shown { command, output: Vec::new() });
        } else if line.trim_start().starts_with("--") {
            margin = None;
        } else if margin.is_some_and(|margin| start >= margin) || line.is_empty() {
            let output = margin.into_iter().zip(found.last_mut());
            output.for_each(|(margin, shown)| shown.output.push(line.get(margin..).unwrap_or_default()));
        } else {
            margin = None;
        }
    }
    for Shown { output, .. } in &mut found {
        output.truncate(output.iter().rposition(|line| !line.is_empty()).map_or(0, |last| last + 1));
    }
    found.retain(|shown| !shown.output.is_empty());
    found
}

/// What a shell writes for a command, from the repository's root, with this tool.
fn by_shell(command: &str) -> String {
    let tool = PathBuf::from(env!("CARGO_BIN_EXE_scope-deps"));
    let path = format!("{}:{}", tool.parent().unwrap().display(), env::var("PATH").unwrap());
    let command = command.replace("bin/scope-deps", "scope-deps");
    let mut shell = Command::new("sh");
    let output = shell.args(["-c", &command]).env("PATH", path).current_dir(repository("")).output().unwrap();
    assert!(output.status.success() && output.stderr.is_empty(), "{command}: {output:?}");
    String::from_utf8(output.stdout).unwrap()
}

#[test]
fn what_the_help_and_the_readme_show_is_what_happens() {
    let readme = fs::read_to_string(repository("README.md")).unwrap();
    let topics = ["answer", "sheet", "thin", "explain"].map(|topic| vec!["help", topic]);
    let help = [vec!["help"]].into_iter().chain(topics);
    let texts = help.map(|words| text(&words, "")).chain([readme]);
    for text in texts {
        let commands = shown_in(&text);
        assert!(!commands.is_empty(), "{text}");
        for Shown { command, output } in commands {
            assert_eq!(by_shell(command).lines().collect::<Vec<_>>(), output, "{command}");
        }
    }
}
