//! The refusals have one set of names: that of the stage's own code.

use compare::reader;
use std::fs;
use std::path::PathBuf;

macro_rules! constants {
    ($($name:ident)*) => { [$((stringify!($name).to_string(), reader::$name)),*] };
}

fn text(file: &str) -> String {
    fs::read_to_string(PathBuf::from(env!("CARGO_MANIFEST_DIR")).join("..").join(file)).unwrap()
}

/// What stands between the braces after `start`.
fn body<'t>(text: &'t str, start: &str) -> &'t str {
    let (_, after) = text.split_once(start).unwrap();
    after.split_once('}').unwrap().0
}

/// `ShortBuffer` as `SHORT_BUFFER`.
fn constant_name(case: &str) -> String {
    let mut name = String::new();
    for letter in case.chars() {
        if letter.is_uppercase() && !name.is_empty() {
            name.push('_');
        }
        name.push(letter.to_ascii_uppercase());
    }
    name
}

/// The names of the stage's refusals, with their numbers, in order.
fn stage_names() -> Vec<(String, u8)> {
    let text = text("crates/entries/src/lib.rt");
    let cases = body(&text, "pub enum Refusal {").split(',').map(str::trim).filter(|case| !case.is_empty());
    cases.map(constant_name).zip(1..).collect()
}

#[test]
fn the_harness_has_the_stages_names() {
    let own = constants! {
        SHORT_BUFFER LONG_JOB MISSING_BYTE WRONG_MARK OUT_OF_RANGE EXTRA_BYTE REPEATED_ID UNKNOWN_BLOCK MANY_NODES
        LARGEST_START
    };
    assert_eq!(stage_names(), own);
}

#[test]
fn the_c_header_has_the_stages_names() {
    let header = text("interface/scope_deps.h");
    let lines = body(&header, "enum scope_deps_refusal {").lines();
    let cases = lines.filter_map(|line| line.trim().strip_prefix("SCOPE_DEPS_")?.split_once(" = "));
    let number = |text: &str| text.split(|c: char| !c.is_ascii_digit()).next().unwrap().parse().unwrap();
    let own: Vec<(String, u8)> = cases.map(|(name, rest)| (name.to_string(), number(rest))).collect();
    assert_eq!(stage_names(), own);
}
