//! The commands.

mod bench;
mod compare;
pub mod failure;
mod generate;
mod help;
mod memory;
mod nodes;
mod one_job;
mod options;
mod output;
mod programs;
mod stored;

use ::compare::operation::Operation;
use ::compare::oracle::Oracle;
use failure::{Failure, misused};
use std::path::PathBuf;

pub fn run(words: &[&str]) -> Result<(), Failure> {
    let is_help = |word: &&str| matches!(*word, "--help" | "-h");
    match *words {
        [] => Err(misused("a command is missing")),
        ["help" | "--help" | "-h"] => help::show(None),
        ["help", topic] => help::show(Some(topic)),
        [command, ref rest @ ..] if rest.iter().any(is_help) => help::show(Some(command)),
        ["generate", ref options @ ..] => generate::run(options),
        ["compare", ref options @ ..] => compare::run(options),
        ["bench", ref options @ ..] => bench::run(options),
        ["programs", ref options @ ..] => programs::run(options),
        ["check"] => stored::check(),
        ["store"] => stored::store(),
        ["memory"] => memory::run(),
        ["nodes"] => nodes::run(),
        [command, ref rest @ ..] => operation(command, rest),
    }
}

/// An operation on one job, or why the words are none.
fn operation(command: &str, rest: &[&str]) -> Result<(), Failure> {
    let takes_nothing = ["check", "store", "memory", "nodes", "help"].contains(&command);
    match (Operation::named(command), rest.last()) {
        (Some(operation), None) => one_job::run(operation),
        (found, Some(extra)) if found.is_some() || takes_nothing => {
            Err(misused(format!("`{command}` takes nothing more, but `{extra}` follows")))
        }
        _ => Err(misused(format!("`{command}` is no command"))),
    }
}

/// The Rust, for a command that cannot do without it.
fn open(what: &str) -> Result<Oracle, Failure> {
    Oracle::open().map_err(|why| Failure::NoRust(format!("{what} did not run: {why}")))
}

/// A file of the repository, of the one that the script names: a built one may have been moved.
fn repository(file: &str) -> PathBuf {
    let root = std::env::var_os("SCOPE_DEPS_ROOT").map(PathBuf::from);
    root.unwrap_or_else(|| PathBuf::from(env!("CARGO_MANIFEST_DIR")).join("..")).join(file)
}
