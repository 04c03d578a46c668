//! Sentences on the block at which a base stopped.

use crate::parse::{block, blocks, holes, path, some_blocks};
use crate::sources::check_holders;
use crate::text::{told_in, Section};
use crate::world::{shows, World};
use scope_deps::replay::{Propagation, Side};
use scope_deps::{BlockId, NodeId, Path};
use std::collections::BTreeSet;

const SIDES: [Side; 2] = [Side::Predecessors, Side::Successors];

/// `HOLDERS, but on the way to block 5 it stops at block 3: REASON`, and the shorter forms of it.
pub fn check_stopped(world: &World, base: &Path, said: &str) -> &'static str {
    let scope = world.job.scope();
    let (holders, rest) = said.split_once(", but ").unwrap_or_else(|| panic!("no sentence: {said}"));
    let (holders, others) = others_said(holders);
    let holders = check_holders(world, Some(base), holders);
    let are_beside = |at: BlockId, side: Side| {
        let near = world.neighbours(at, side);
        let having: Vec<BlockId> = near.iter().copied().filter(|&near| world.has(near, base)).collect();
        let are_others = |other: &BlockId| having.contains(other) && !holders.named.contains(other);
        let all = holders.count() + others.0.len() + others.1 == having.len();
        all && others.0.iter().all(are_others) && holders.are_among(world, &near)
    };
    let apart = match holders.named[..] {
        [holder] => format!("block {holder} and block {scope} are not connected"),
        _ => format!("none of them is connected with block {scope}"),
    };
    if rest == apart {
        assert!(others.0.is_empty(), "{said}");
        let apart = world.ids().filter(|&id| id != scope && !world.connected(id, scope));
        assert!(holders.are_among(world, &apart.collect::<Vec<_>>()), "{said}");
        return "not connected";
    }
    if let Some(found) = holes("on the way to {} it stops at {}: {}", rest) {
        let at = block(found[1]);
        assert_eq!(block(found[0]), scope, "{said}");
        assert_ne!(at, scope, "{said}");
        let (side, kind) = check_reason(world, base, at, "there", "from there", found[2]);
        let (first, then) = if side == Side::Predecessors { (at, scope) } else { (scope, at) };
        assert!(world.leads(first, then), "{said}");
        assert!(are_beside(at, side), "{said}");
        return kind;
    }
    let (at, there, from, reason) = match holes("it stops at {}: {}", rest) {
        Some(found) => (block(found[0]), "there".into(), "from there".into(), found[1]),
        None => (scope, format!("to block {scope}"), format!("from block {scope}"), rest),
    };
    let (side, kind) = check_reason(world, base, at, &there, &from, reason);
    assert!(are_beside(at, side), "{said}");
    assert!(at == scope || world.connected(at, scope), "{said}");
    kind
}

/// The blocks that have the base too (`, and block 2 has it too`), how many more, and what stands
/// before.
fn others_said(said: &str) -> (&str, (Vec<BlockId>, usize)) {
    let Some((before, others)) =
        said.strip_suffix(" it too").and_then(|said| said.rsplit_once(", and block"))
    else {
        return (said, (Vec::new(), 0));
    };
    let (others, have) = others.rsplit_once(' ').unwrap();
    let (named, more) = some_blocks(&format!("block{others}"));
    assert_eq!(have, if named.len() == 1 { "has" } else { "have" }, "{said}");
    (before, (named, more))
}

/// `it stops at block 3: REASON`, in full. The sections follow where different paths are spoken of.
pub fn check_stopped_in_full(world: &World, base: &Path, said: &str, sections: &[Section]) -> &'static str {
    let found = holes("it stops at {}: {}", said).unwrap_or_else(|| panic!("no stop: {said}"));
    let (at, reason) = (block(found[0]), found[1]);
    let scope = world.job.scope();
    assert!(at == scope || world.connected(at, scope), "{said}");
    let patterns = [
        (Side::Predecessors, "control comes there from {}, which {} it, but also from {}, which {}"),
        (Side::Successors, "control goes on from there to {}, which {} it, but also to {}, which {}"),
    ];
    for (side, pattern) in patterns {
        if let Some(found) = holes(pattern, reason) {
            check_beside(world, base, at, side, &found);
            return "all that lack it";
        }
    }
    let (reason, told) = match holes("{}; only a path that is the same in all is passed on [{}]", reason) {
        Some(found) => (reason.rsplit_once(" [").unwrap().0, told_in(sections, found[1])),
        None => (reason, Vec::new()),
    };
    let kind = check_reason(world, base, at, "there", "from there", reason).1;
    for by in reason.split(", which has it by ").skip(1).map(|after| after.split([',', ';']).next().unwrap())
    {
        assert!(told.iter().any(|(_, path)| path.same_entries(&self::path(by))), "{said}");
    }
    kind
}

/// That these are all neighbours that have the base, and all that were joined and lack it.
fn check_beside(world: &World, base: &Path, at: BlockId, side: Side, found: &[&str]) {
    assert!(!world.has(at, base));
    let (have, lack) = (blocks(found[0]), blocks(found[2]));
    assert_eq!(found[1], if have.len() == 1 { "has" } else { "have" });
    assert_eq!(found[3], if lack.len() == 1 { "does not" } else { "do not" });
    let sorted = |blocks: Vec<BlockId>| blocks.into_iter().collect::<BTreeSet<_>>();
    let having = world.neighbours(at, side).into_iter().filter(|&near| world.has(near, base));
    assert_eq!(sorted(have), having.collect());
    let joined = world.id_list(&world.last_visit(at, side).joined);
    assert_eq!(sorted(lack), joined.into_iter().filter(|&near| !world.has(near, base)).collect());
}

/// Why a block did not take the base over. The side is given.
fn check_reason(
    world: &World,
    base: &Path,
    at: BlockId,
    there: &str,
    from: &str,
    said: &str,
) -> (Side, &'static str) {
    assert!(!world.has(at, base), "{said}");
    for side in SIDES {
        let (comes, can_come, joint) = match side {
            Side::Predecessors => {
                (format!("control comes {there} from"), format!("control can also come {there} from"), "from")
            }
            Side::Successors => {
                (format!("control goes on {from} to"), format!("control can also go on {from} to"), "to")
            }
        };
        if let Some(found) = holes(&format!("{can_come} {{}}, which does not have it"), said) {
            check_lacking(world, base, at, side, block(found[0]));
            return (side, "one that lacks it");
        }
        let by = format!(
            "{comes} {{}}, which has it by {{}}, and {joint} {{}}, which has it by {{}}; \
             only a path that is the same in all is passed on"
        );
        if let Some(found) = holes(&by, said) {
            let one = (block(found[0]), path(found[1]));
            check_different(world, base, at, side, one, (block(found[2]), path(found[3])));
            return (side, "different paths");
        }
        if let Some(kind) = check_rare(world, base, at, side, said) {
            return (side, kind);
        }
    }
    panic!("no reason: {said}")
}

fn check_lacking(world: &World, base: &Path, at: BlockId, side: Side, lacking: BlockId) {
    assert!(world.neighbours(at, side).contains(&lacking));
    assert!(world.id_list(&world.last_visit(at, side).joined).contains(&lacking));
    assert!(!world.has(lacking, base));
}

fn check_different(
    world: &World,
    base: &Path,
    at: BlockId,
    side: Side,
    one: (BlockId, Path),
    other: (BlockId, Path),
) {
    let joined = world.id_list(&world.last_visit(at, side).joined);
    for (block, path) in [&one, &other] {
        assert!(joined.contains(block) && world.holds(*block, path) && shows(path, base));
    }
    assert!(!world.holds(other.0, &one.1));
    let mut showing = world.paths().iter().filter(|path| shows(path, base));
    assert!(!showing.any(|path| joined.iter().all(|&block| world.holds(block, path))));
    assert!(joined.iter().all(|&block| world.has(block, base)));
}

/// `blocks 1 and 4 are on a loop with it and not finished`, of some neighbours of a block and not
/// all.
fn check_some_unfinished(world: &World, at: BlockId, side: Side, said: &str) -> &'static str {
    let unfinished = world.unfinished(at, side);
    assert!(!unfinished.is_empty() && unfinished.len() < world.neighbours(at, side).len(), "{said}");
    if said == "it is itself one of them and not finished" {
        assert_eq!(unfinished, [at], "{said}");
        return "unfinished itself";
    }
    let are = if unfinished.len() == 1 { "is" } else { "are" };
    let found = holes(&format!("{{}} {are} on a loop with it and not finished"), said);
    let (named, more) = some_blocks(found.unwrap_or_else(|| panic!("no reason: {said}"))[0]);
    assert_eq!((&named[..], more), (&unfinished[..named.len()], unfinished.len() - named.len()), "{said}");
    assert!(unfinished != [at] && unfinished.iter().all(|&block| world.on_a_loop(at, block)), "{said}");
    "some unfinished"
}

/// The reasons that need a loop, or a job that does not settle.
fn check_rare(world: &World, base: &Path, at: BlockId, side: Side, said: &str) -> Option<&'static str> {
    let control = match side {
        Side::Predecessors => "control comes from",
        Side::Successors => "control goes on to",
    };
    let visit = world.last_visit(at, side);
    let near = world.neighbours(at, side);
    let unfinished = format!(
        "all the blocks that {control} are on a loop with block {at} and not finished when it takes over"
    );
    if said == unfinished {
        assert!(visit.joined.is_empty() && !near.is_empty());
        assert_eq!(world.unfinished(at, side).len(), near.len());
        assert!(near.iter().all(|&block| world.on_a_loop(at, block)));
        return Some("unfinished");
    }
    let beside = if side == Side::Predecessors { "before" } else { "after" };
    let nothing = format!("block {at} takes nothing over from the blocks {beside} it, since {{}}");
    if let Some(found) = holes(&nothing, said) {
        assert!(visit.joined.is_empty() && world.takes_nothing_over(at, side));
        assert_eq!(world.replay.propagation(), Propagation::Strict);
        return Some(check_some_unfinished(world, at, side, found[0]));
    }
    if said == format!("block {at} last took over before all the blocks that {control} had it") {
        assert!(!world.sheet.is_settled() && !visit.joined.is_empty());
        let had = world.before_last(at, side);
        let shows_base = |node: &NodeId| shows(world.path(*node), base);
        let in_all = |node: &NodeId| visit.joined.iter().all(|&block| had[block].contains(node));
        assert!(!world.replay.nodes().any(|node| shows_base(&node) && in_all(&node)));
        assert!(world.id_list(&visit.joined).iter().all(|&block| world.has(block, base)));
        return Some("too late");
    }
    None
}
