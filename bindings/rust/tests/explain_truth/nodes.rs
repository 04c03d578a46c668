//! Sentences on the nodes: how many, which ones were added, and where.

use crate::parse::{assuming, block, blocks, check_instructions, holes, instruction, path, paths};
use crate::world::{show, World};
use scope_deps::replay::Side;
use scope_deps::Path;

/// Checks the last part of an explanation, and names the kind of each of its sentences.
pub fn check_nodes(world: &World, lines: &[&str], in_full: bool) -> Vec<&'static str> {
    let added: Vec<Path> = world.sheet.added_nodes().map(|(node, _)| world.sheet.path(node)).collect();
    let (all, before) = (world.sheet.nodes().len(), world.sheet.nodes_before_rounds());
    let counts = format!("nodes {all}: {before} before the first round, {} added by reduction", added.len());
    if in_full {
        assert_eq!(lines[0], counts);
        let each = lines[1..].iter().flat_map(|line| check_added(world, line));
        assert!(each.map(|path| show(&path)).eq(added.iter().map(show)), "{lines:?}");
        return [vec!["nodes"], vec!["added"; lines.len() - 1]].concat();
    }
    assert_eq!(lines.len(), 1);
    match lines[0].strip_prefix(&counts) {
        Some("") => assert!(added.is_empty(), "{lines:?}"),
        named => check_some(named.and_then(|named| named.strip_prefix(": ")).unwrap(), &added),
    }
    vec!["nodes"]
}

/// `1.10, 1.11, 1.12 and 2 more`, or all where there are few.
fn check_some(named: &str, added: &[Path]) {
    let (some, more) = match holes("{} and {} more", named) {
        Some(found) => (paths(found[0]), found[1].parse().unwrap()),
        None => (paths(named), 0),
    };
    assert_eq!(some.len() + more, added.len(), "{named}");
    assert!(some.len() <= 4 && (more == 0 || more > 1), "{named}");
    assert!(some.iter().zip(added).all(|(named, added)| named.same_entries(added)), "{named}");
}

/// The paths that a sentence says were added, by a replacement that there was.
fn check_added(world: &World, line: &str) -> Vec<Path> {
    let (line, origins) = match line.split_once("; ") {
        Some((line, origins)) => (line.to_string(), Err(origins)),
        None => without_own(line),
    };
    let pattern = "    {} in round {}, {} walk: {} made {} into {}, since it had {}";
    let found = holes(pattern, &line).unwrap_or_else(|| panic!("not on nodes: {line}"));
    let (added, round, at) = (paths(found[0]), found[1].parse::<u8>().unwrap(), block(found[3]));
    let side = match found[2] {
        "forward" => Side::Predecessors,
        "backward" => Side::Successors,
        other => panic!("no walk: {other}"),
    };
    let (from, to, bases) = (path(found[4]), path(found[5]), paths(found[6]));
    let visits = world.replay.visits().iter();
    let mut visits =
        visits.filter(|visit| (visit.round, visit.side, visit.block) == (round, side, world.place(at)));
    let visit = visits.next().unwrap_or_else(|| panic!("no visit: {line}"));
    let same = |nodes: &[_], paths: &[Path]| {
        nodes.len() == paths.len()
            && nodes.iter().zip(paths).all(|(node, path)| world.path(*node).same_entries(path))
    };
    let is_told = visit.replaced.iter().any(|replaced| {
        same(&[replaced.from, replaced.to], &[from.clone(), to.clone()])
            && same(&replaced.bases, &bases)
            && same(&replaced.added, &added)
    });
    assert!(is_told, "{line}");
    match origins {
        Err(origins) => check_origins(world, &from, origins),
        Ok(read_at) => assert_eq!(world.own(at, &from), Some(read_at), "{line}"),
    }
    added
}

/// A sentence without what it says of the path that was replaced: `, which it assumes,` or `, of
/// which it reads a property at instruction 3,`. The instruction, if there is one.
fn without_own(line: &str) -> (String, Result<Option<u32>, &str>) {
    if let Some(found) = holes("{}, which it assumes, into {}", line) {
        return (format!("{} into {}", found[0], found[1]), Ok(None));
    }
    let found = holes("{}, of which it reads a property at {}, into {}", line);
    let found = found.unwrap_or_else(|| panic!("no origin: {line}"));
    (format!("{} into {}", found[0], found[2]), Ok(Some(instruction(found[1]))))
}

/// `1?.10 comes from block 0, which assumes it, and blocks 1 and 2, which read 1?.10?.11 at
/// instructions 3 and 4`: blocks assume such paths, and these have the names of the first and are
/// optional wherever it is.
fn check_origins(world: &World, from: &Path, said: &str) {
    let found = holes("{} comes from {}", said).unwrap_or_else(|| panic!("no origin: {said}"));
    assert!(path(found[0]).same_entries(from), "{said}");
    for origin in found[1].split(", and ") {
        let told = holes("{}, which {}", origin).unwrap_or_else(|| panic!("no origin: {origin}"));
        let blocks = blocks(told[0]);
        let own = assuming(told[1], blocks.len() == 1);
        let (form, read_at) = own.unwrap_or_else(|| panic!("no origin: {origin}"));
        let assumed = if form == "it" { from.clone() } else { path(form) };
        assert_eq!(form == "it", assumed.same_entries(from), "{said}");
        let own: Vec<Option<u32>> =
            blocks.iter().map(|&block| world.own(block, &assumed).expect("it assumes the path")).collect();
        assert!(own.iter().all(|own| own.is_some() == read_at.is_some()), "{said}");
        let due: Vec<u32> = own.into_iter().flatten().collect();
        read_at.into_iter().for_each(|read_at| check_instructions(read_at, &due));
        let mut entries = assumed.entries().iter().zip(from.entries());
        assert!(assumed.same_names(from) && entries.all(|(was, is)| was.optional || !is.optional), "{said}");
    }
}
