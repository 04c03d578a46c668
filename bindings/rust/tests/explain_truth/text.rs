//! A whole explanation as text, sentence by sentence.

use crate::bases::{
    check_known, check_left_out, check_unknown, without_more, without_would, NOT_KEPT, TRIED,
};
use crate::nodes::check_nodes;
use crate::parse::{holes, path};
use crate::steps::{check_section, told_by, Told};
use crate::world::{is_kept, show, World};
use scope_deps::replay::Propagation;
use scope_deps::Path;
use std::collections::BTreeMap;

/// How many sentences of each kind were checked.
pub type Kinds = BTreeMap<&'static str, usize>;

/// A section: the path, and its sentences.
pub type Section<'t> = (Path, Vec<&'t str>);

/// What the sections of these numbers (`1, 3`) tell.
pub fn told_in(sections: &[Section], numbers: &str) -> Vec<Told> {
    let numbers = numbers.split(", ").map(|number| number.parse::<usize>().unwrap());
    numbers.flat_map(|number| sections[number - 1].1.iter().map(|line| told_by(line))).collect()
}

/// What comes after the sentence on the strict propagation, where it is that one. The sentence
/// stands there then, and only then.
fn after_head<'t>(world: &World, text: &'t str) -> &'t str {
    let head = "strict propagation: a block takes paths over from the blocks before it, or after it, \
                only where all of these are finished\n\n";
    match (text.strip_prefix(head), world.replay.propagation()) {
        (Some(rest), Propagation::Strict) => {
            assert!(world.takes_over_from_finished_only(), "{text}");
            rest
        }
        (None, Propagation::Existing) => text,
        _ => panic!("not of this propagation: {text}"),
    }
}

/// Checks every sentence of an explanation.
pub fn check_text(world: &World, text: &str, in_full: bool, kinds: &mut Kinds) {
    let text = after_head(world, text);
    let mut parts: Vec<Vec<&str>> = text.split("\n\n").map(|part| part.lines().collect()).collect();
    let nodes = parts.pop().unwrap_or_default();
    for kind in check_nodes(world, &nodes, in_full) {
        *kinds.entry(kind).or_default() += 1;
    }
    let sections: Vec<Section> = parts
        .iter()
        .skip(world.job.candidates().len().max(1))
        .enumerate()
        .map(|(number, lines)| section(number + 1, lines))
        .collect();
    parts.truncate(parts.len() - sections.len());
    check_sections(world, &sections, kinds);
    if world.job.candidates().is_empty() {
        return check_no_candidate(world, &parts);
    }
    assert_eq!(parts.len(), world.job.candidates().len());
    for (candidate, lines) in world.job.candidates().iter().zip(&parts) {
        check_candidate(world, candidate, lines, &sections, kinds);
    }
}

/// That there is no candidate, and how many raw reads do not count.
fn check_no_candidate(world: &World, parts: &[Vec<&str>]) {
    let first = "the job has no candidate, so no path is returned".to_string();
    let reads = world.job.blocks().iter().flat_map(|block| block.raw_reads());
    let count = reads.filter(|read| !is_kept(read)).count();
    let not_kept = match count {
        0 => None,
        1 => Some("1 raw read is not kept".to_string()),
        _ => Some(format!("{count} raw reads are not kept")),
    };
    assert_eq!(parts, [std::iter::once(first).chain(not_kept).collect::<Vec<_>>()]);
}

fn section<'t>(number: usize, lines: &[&'t str]) -> Section<'t> {
    let found = holes(&format!("[{number}] how {{}} came there"), lines[0]);
    let heading = path(found.unwrap_or_else(|| panic!("no heading: {}", lines[0]))[0]);
    let sentence =
        |line: &&'t str| line.strip_prefix("    ").unwrap_or_else(|| panic!("no sentence: {line}"));
    (heading, lines[1..].iter().map(sentence).collect())
}

fn check_sections(world: &World, sections: &[Section], kinds: &mut Kinds) {
    let told: Vec<Told> =
        sections.iter().flat_map(|(_, lines)| lines.iter().map(|line| told_by(line))).collect();
    for (heading, lines) in sections {
        for kind in check_section(world, heading, lines, &told) {
            *kinds.entry(kind).or_default() += 1;
        }
    }
}

/// What an explanation says of one candidate.
fn check_candidate(world: &World, candidate: &Path, lines: &[&str], sections: &[Section], kinds: &mut Kinds) {
    let mut fitting = world.answer.iter().filter(|path| path.names_start(candidate));
    let returned = fitting.next().unwrap();
    assert_eq!(lines[0], format!("candidate {}", show(candidate)));
    assert_eq!(lines[1], format!(" returned {}", show(returned)));
    let (kept, whole) = (returned.entries().len(), candidate.entries().len());
    if whole == 0 {
        assert_eq!(lines[2..], ["    the variable itself is returned"]);
        return;
    }
    let width =
        candidate.entries()[..whole.min(kept + 1)].iter().map(|entry| format!("{entry:#}").len()).max();
    let of_entries = by_entry(&lines[2..], width.unwrap());
    assert_eq!(of_entries.len(), whole.min(kept + 1));
    for (level, (entry, said)) in of_entries.iter().enumerate() {
        assert_eq!(*entry, format!("{:#}", candidate.entries()[level]));
        check_entry(world, (candidate, returned, level), said, sections, kinds);
    }
}

/// The lines of each entry, which stands before the first of them.
fn by_entry<'t>(lines: &[&'t str], width: usize) -> Vec<(&'t str, Vec<&'t str>)> {
    let mut found: Vec<(&str, Vec<&str>)> = Vec::new();
    for line in lines {
        let line = line.strip_prefix("    ").unwrap();
        let (entry, said) = (line[..width].trim_end(), line[width..].strip_prefix("  ").unwrap());
        if entry.is_empty() {
            found.last_mut().unwrap().1.push(said);
        } else {
            found.push((entry, vec![said]));
        }
    }
    found
}

/// What is said of one entry of a candidate: what became of it, and why.
fn check_entry(
    world: &World,
    (candidate, returned, level): (&Path, &Path, usize),
    said: &[&str],
    sections: &[Section],
    kinds: &mut Kinds,
) {
    let base = returned.prefix(level);
    let (what, why) = said[0].split_once(": ").unwrap_or_else(|| panic!("no reason: {}", said[0]));
    let own = candidate.entries()[level];
    let plain = |path: &Path| !path.entries()[level].optional;
    let mut count = |kind| *kinds.entry(kind).or_default() += 1;
    match returned.entries().get(level) {
        None if what == "is not returned" => {
            check_covered(world, returned, why);
            assert_eq!(said.len(), 1);
            return count("covered");
        }
        None => assert!(what == "is cut" && !own.optional, "{what}"),
        Some(entry) if plain(returned) && own.optional => assert_eq!(what, format!("becomes {entry:#}")),
        Some(_) if plain(returned) => assert_eq!(what, "stays plain"),
        Some(_) => assert_eq!(what, "stays optional"),
    }
    if returned.entries().len() > level && plain(returned) {
        let held = check_known(world, &base, why, sections);
        said[1..].iter().for_each(|said| check_left_out(world, &base, &held, said));
        count("known");
        return said[1..].iter().for_each(|_| count("one left out that lacks it"));
    }
    assert_eq!(why, format!("{} is not known to be there in block {}", show(&base), world.job.scope()));
    assert!(!world.is_known(&base) && said.len() > 1, "{said:?}");
    for sentence in &said[1..] {
        count(check_unknown(world, &base, sentence, sections));
    }
    check_complete(world, &base, said);
}

/// That a reason which is there is given: a path that leaves the base open, a raw read that does
/// not count, in short the first and in full all, and that the job did not settle.
fn check_complete(world: &World, base: &Path, said: &[&str]) {
    let scope = world.job.scope();
    let starts = ["has", "assumes", "reads"].map(|verb| format!("block {scope} {verb} "));
    let is_own = |line: &str| starts.iter().any(|start| line.starts_with(start));
    let own = |line: &&&str| is_own(line) && line.contains("; that does not make");
    let is_open = world.deciding().iter().any(|path| base.names_start(path));
    assert_eq!(said.iter().filter(own).count(), usize::from(is_open), "{said:?}");
    let unsettled = said.iter().filter(|line| line.contains("before it had settled")).count();
    assert_eq!(unsettled, usize::from(!world.sheet.is_settled()));
    let here = said.iter().filter(|line| line.contains(", too, but ")).count();
    assert_eq!(here, usize::from(world.has(scope, base)), "{said:?}");
    let nowhere = said.iter().filter(|line| line.starts_with("no block assumes ")).count();
    assert_eq!(nowhere, usize::from(world.having(base).is_empty()), "{said:?}");
    check_reads(world, base, said);
}

/// That of the reads that do not count all are told, or one, with how many more there are; and one
/// that would do, where there is one.
fn check_reads(world: &World, base: &Path, said: &[&str]) {
    let told = said.iter().filter_map(|line| {
        let (alone, more) = without_more(line);
        let (reason, would) = without_would(world, base, alone);
        holes(NOT_KEPT, reason).map(|_| (would, more))
    });
    let told: Vec<(Option<bool>, usize)> = told.collect();
    if world.count_dropped(base) > TRIED {
        return;
    }
    let due: Vec<Option<bool>> =
        world.ids().flat_map(|id| world.not_kept(id, base)).map(|(_, would)| would).collect();
    let more: usize = told.iter().map(|(_, more)| more).sum();
    assert_eq!(told.len() + more, due.len(), "{said:?}");
    assert!(more == 0 || told.len() == 1, "{said:?}");
    let would_do = |would: &Option<bool>| *would == Some(true);
    assert_eq!(told.iter().any(|(would, _)| would_do(would)), due.iter().any(would_do), "{said:?}");
}

/// `candidate 1.10 is cut at 1, and depending on that is enough`.
fn check_covered(world: &World, returned: &Path, why: &str) {
    let found = holes("candidate {} ends at {}, and depending on that is enough", why);
    let (found, ends) = match found {
        Some(found) => (found, true),
        None => (holes("candidate {} is cut at {}, and depending on that is enough", why).unwrap(), false),
    };
    let other = path(found[0]);
    assert!(world.job.candidates().iter().any(|candidate| candidate.same_entries(&other)), "{why}");
    assert!(found[1] == show(returned) && returned.names_start(&other), "{why}");
    match other.entries().get(returned.entries().len()) {
        None => assert!(ends, "{why}"),
        Some(entry) => assert!(!ends && !entry.optional && !world.is_known(returned), "{why}"),
    }
}
