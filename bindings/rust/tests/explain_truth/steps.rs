//! Sentences on the steps by which paths came to blocks.

use crate::parse::{block, blocks, holes, instruction, path, paths};
use crate::world::World;
use scope_deps::replay::{Side, Visit};
use scope_deps::{BlockId, Path};

/// That a block came to have a path, as some sentence says.
pub type Told = (BlockId, Path);

/// The sentences of a section, which speak of one path in whatever forms.
pub fn check_section(world: &World, of: &Path, lines: &[&str], all: &[Told]) -> Vec<&'static str> {
    let mut told: Vec<Told> = Vec::new();
    let kinds = lines.iter().map(|line| {
        let ((at, form), kind) = check_step(world, line, &told, all);
        assert!(form.same_names(of), "{line}");
        told.push((at, form));
        kind
    });
    let kinds = kinds.collect();
    assert!(told.last().is_some_and(|(_, form)| form.same_entries(of)));
    kinds
}

/// That a block reads a property of a path, and why that read is kept.
const READS: &str = "{} reads a property of {} at {} (kept: {})";

/// What a sentence says, unchecked.
pub fn told_by(line: &str) -> Told {
    let found = holes("{} took {} over from {}", line).map(|found| (found[0], found[1]));
    let found = found.or_else(|| holes("{} assumes {}", line).map(|found| (found[0], found[1])));
    let found = found.or_else(|| holes(READS, line).map(|found| (found[0], found[1])));
    let found = found
        .or_else(|| holes("{} made {} into {}, since it had {}", line).map(|found| (found[0], found[2])));
    let (at, form) = found.unwrap_or_else(|| panic!("no step: {line}"));
    (block(at), path(form))
}

fn is_told(told: &[Told], at: BlockId, form: &Path) -> bool {
    told.iter().any(|(block, path)| *block == at && path.same_entries(form))
}

fn check_step(world: &World, line: &str, told: &[Told], all: &[Told]) -> (Told, &'static str) {
    let (at, form) = told_by(line);
    if let Some(found) = holes("{} made {} into {}, since it had {}", line) {
        let (from, bases) = (path(found[1]), paths(found[3]));
        assert!(is_told(told, at, &from), "{line}");
        assert!(bases.iter().all(|base| is_told(all, at, base)), "{line}");
        check_made(world, at, &from, &form, &bases);
        return ((at, form), "made");
    }
    let Some(found) = holes("{} took {} over from {}", line) else {
        let read_at = holes(READS, line).map(|found| instruction(found[2]));
        assert_eq!(world.own(at, &form), Some(read_at), "{line}");
        let kept = holes(READS, line).map(|found| found[3]);
        assert_eq!(kept.map(String::from), world.why_kept(at, &form), "{line}");
        return ((at, form), if read_at.is_some() { "read" } else { "assumed" });
    };
    let (side, from, left_out, kind) = neighbours_said(found[2]);
    assert!(from.iter().all(|&near| is_told(told, near, &form)), "{line}");
    let visits = world.visits_with(at, side, &form);
    let same = |visit: &&Visit| {
        world.id_list(&visit.joined) == from && world.id_list(&visit.passed_over) == left_out
    };
    assert!(visits.iter().any(same), "{line}");
    assert_eq!(world.neighbours(at, side).len(), from.len() + left_out.len(), "{line}");
    assert!(left_out.iter().all(|&near| world.on_a_loop(at, near)), "{line}");
    ((at, form), kind)
}

/// The side, the neighbours that were joined and those that were left out.
fn neighbours_said(said: &str) -> (Side, Vec<BlockId>, Vec<BlockId>, &'static str) {
    let words = [
        (Side::Predecessors, "that control comes from", "where control comes from"),
        (Side::Successors, "that control goes on to", "where control goes on"),
    ];
    for (side, control, whence) in words {
        if let Some(found) = holes(&format!("{{}}, the only block {control}"), said) {
            return (side, vec![block(found[0])], Vec::new(), "from the only one");
        }
        if let Some(found) = holes(&format!("{{}}, all the blocks {control}"), said) {
            let from = blocks(found[0]);
            assert!(from.len() > 1, "{said}");
            return (side, from, Vec::new(), "from all");
        }
        let left_out = format!("{{}}, {whence}, and left out {{}}: on a loop with it, and not finished");
        if let Some(found) = holes(&left_out, said) {
            return (side, blocks(found[0]), blocks(found[1]), "some left out");
        }
    }
    panic!("no neighbours: {said}")
}

fn check_made(world: &World, at: BlockId, from: &Path, to: &Path, bases: &[Path]) {
    let place = world.place(at);
    let path = |node| world.path(node);
    let of_block = world.replay.visits().iter().filter(|visit| visit.block == place);
    let mut replaced = of_block.flat_map(|visit| &visit.replaced);
    let found = replaced.any(|replaced| {
        let same = path(replaced.from).same_entries(from) && path(replaced.to).same_entries(to);
        let same_base = |(node, base): (_, &Path)| path(node).same_entries(base);
        same && replaced.bases.len() == bases.len()
            && replaced.bases.iter().copied().zip(bases).all(same_base)
    });
    assert!(found, "block {at} did not make {from:#} into {to:#}");
}
