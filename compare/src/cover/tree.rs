//! The hoistable tree and the walk of the candidates.

use super::{Features, add};
use crate::job::{Entry, Job, Path, Property};
use crate::output::Sheet;
use std::collections::{HashMap, HashSet};

/// A position of the hoistable tree: an identifier and properties.
type Position = (u32, Vec<Property>);

fn position(path: &Path, length: usize) -> Position {
    (path.identifier, path.entries[..length].iter().map(|entry| entry.property).collect())
}

pub fn tree_features(job: &Job, sheet: &Sheet, found: &mut Features) {
    let hoistables = scope_paths(job, sheet);
    let mut sorted = hoistables.clone();
    sorted.sort_by_key(sort_key);
    let tree = hoistable_tree(&sorted);
    sort_features(job, &hoistables, &tree, found);
    property_features(job, &sorted, &tree, found);
    let both_marks = positions_of_both_marks(&sorted, &tree);
    for candidate in &job.candidates {
        candidate_features(candidate, &tree, &both_marks, found);
    }
}

/// Paths with an optional first entry come first.
fn sort_key(path: &Path) -> bool {
    !next_is_optional(path, 0)
}

/// Whether other orders of the hoistable paths would give other answers.
fn sort_features(job: &Job, hoistables: &[Path], tree: &HashMap<Position, bool>, found: &mut Features) {
    let matters = |other_order: &[Path]| {
        let other_tree = hoistable_tree(other_order);
        job.candidates.iter().any(|path| marks(path, tree) != marks(path, &other_tree))
    };
    add(found, "the sort matters", matters(hoistables));

    let mut reversed: Vec<Path> = hoistables.iter().rev().cloned().collect();
    reversed.sort_by_key(sort_key);
    add(found, "order among equal keys matters", matters(&reversed));

    // What an unstable sort does with equal keys is the library's own affair; this
    // only finds jobs for which it makes a difference here and now.
    let mut unstable: Vec<&Path> = hoistables.iter().collect();
    unstable.sort_unstable_by_key(|path| sort_key(path));
    let unstable: Vec<Path> = unstable.into_iter().cloned().collect();
    add(found, "an unstable sort differs", matters(&unstable));
}

/// Positions at which a later path has another mark than the first.
fn positions_of_both_marks(sorted: &[Path], tree: &HashMap<Position, bool>) -> HashSet<Position> {
    let with_marks = |path: &Path| -> Vec<(Position, bool)> {
        (0..=path.entries.len()).map(|n| (position(path, n), next_is_optional(path, n))).collect()
    };
    let differing = sorted.iter().flat_map(with_marks).filter(|(position, mark)| tree[position] != *mark);
    differing.map(|(position, _)| position).collect()
}

/// Whether properties that a wrong comparison would take for equal matter.
fn property_features(job: &Job, sorted: &[Path], tree: &HashMap<Position, bool>, found: &mut Features) {
    let float = |property: Property| (property.kind() == 1).then(|| f64::from_bits(property.value()));
    let name_of = |property: Property| Property::Name(property.value());
    let one_zero = |property| if float(property) == Some(0.0) { Property::Number(0) } else { property };
    let one_nan = |property| match float(property) {
        Some(value) if value.is_nan() => Property::Number(f64::NAN.to_bits()),
        _ => property,
    };
    let wrong: [(&str, &dyn Fn(Property) -> Property); 3] = [
        ("the tree tells names from numbers", &name_of),
        ("the tree tells +0 from -0", &one_zero),
        ("the tree tells NaNs apart", &one_nan),
    ];
    for (feature, change) in wrong {
        let changed = |path: &Path| {
            let entry = |entry: &Entry| Entry { property: change(entry.property), ..*entry };
            Path { entries: path.entries.iter().map(entry).collect(), ..path.clone() }
        };
        let changed_tree = hoistable_tree(&sorted.iter().map(changed).collect::<Vec<_>>());
        let differs = |path: &Path| marks(path, tree) != marks(&changed(path), &changed_tree);
        add(found, feature, job.candidates.iter().any(differs));
    }
}

/// The marks that a candidate's entries get up to the place where it is cut.
fn marks(candidate: &Path, tree: &HashMap<Position, bool>) -> Vec<bool> {
    let mut marks = Vec::new();
    for (length, entry) in candidate.entries.iter().enumerate() {
        let non_null = tree.get(&position(candidate, length)) == Some(&false);
        if !non_null && !entry.optional {
            break;
        }
        marks.push(!non_null);
    }
    marks
}

/// The paths of the scope block's set, ascending by node number.
fn scope_paths(job: &Job, sheet: &Sheet) -> Vec<Path> {
    let (_, set) = sheet.sets.iter().find(|(id, _)| *id == job.scope).expect("the scope is a block");
    set.iter().map(|&node| sheet.path(node)).collect()
}

fn next_is_optional(path: &Path, length: usize) -> bool {
    path.entries.get(length).is_some_and(|entry| entry.optional)
}

fn mark_name(optional: bool) -> &'static str {
    if optional { "optional" } else { "plain" }
}

/// Whether each position is Optional; the first path that makes it decides.
fn hoistable_tree(paths: &[Path]) -> HashMap<Position, bool> {
    let mut tree = HashMap::new();
    for path in paths {
        for length in 0..=path.entries.len() {
            tree.entry(position(path, length)).or_insert(next_is_optional(path, length));
        }
    }
    tree
}

fn candidate_features(
    candidate: &Path,
    tree: &HashMap<Position, bool>,
    both_marks: &HashSet<Position>,
    found: &mut Features,
) {
    for (length, entry) in candidate.entries.iter().enumerate() {
        let position = position(candidate, length);
        let non_null = tree.get(&position) == Some(&false);
        if both_marks.contains(&position) {
            let place = if length == 0 { "root" } else { "inner" };
            let (first, own) = (mark_name(!non_null), mark_name(entry.optional));
            found.insert(format!("{own} entry at {place} position, first {first} then not"));
        }
        if !non_null && !entry.optional {
            let place = if length == 0 { "cut at the root" } else { "cut in the middle" };
            found.insert(place.to_string());
            return;
        }
        add(found, "an optional entry becomes plain", non_null && entry.optional);
        add(found, "an optional entry stays", !non_null);
    }
    add(found, "not cut", !candidate.entries.is_empty());
}
