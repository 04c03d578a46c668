//! The work of reduction.

use super::{Features, add};
use crate::job::{Job, Path, Property};
use crate::reads::assumed;
use std::collections::{BTreeSet, HashMap};

/// What reduction does to each block's own set.
pub fn reduction_features(job: &Job, found: &mut Features) {
    let mut registry = Registry::default();
    let sets: Vec<BTreeSet<usize>> = job
        .blocks
        .iter()
        .map(|block| assumed(block).map(|path| registry.enter(&bare(path))).collect())
        .collect();
    let mut most = 0;
    for set in sets {
        let (mut right, mut wrong) = (registry.clone(), registry.clone());
        let passes = right.reduce(set.clone(), false);
        most = most.max(passes);
        if passes > 1 {
            wrong.reduce(set, true);
            add(found, "a pass goes on after a change", right.nodes != wrong.nodes);
        }
    }
    add(found, &format!("changing passes of reduction {most}"), most > 0);
}

/// An identifier and entries without spans.
type Bare = (u32, Vec<(bool, Property)>);

fn bare(path: &Path) -> Bare {
    (path.identifier, path.entries.iter().map(|entry| (entry.optional, entry.property)).collect())
}

/// Nodes in the order in which they are made.
#[derive(Clone, Default)]
struct Registry {
    nodes: Vec<Bare>,
    numbers: HashMap<Bare, usize>,
}

impl Registry {
    /// The number of a node whose parent is there.
    fn node(&mut self, path: &Bare) -> usize {
        *self.numbers.entry(path.clone()).or_insert_with(|| {
            self.nodes.push(path.clone());
            self.nodes.len() - 1
        })
    }

    fn enter(&mut self, (identifier, entries): &Bare) -> usize {
        let numbers = (0..=entries.len()).map(|length| self.node(&(*identifier, entries[..length].to_vec())));
        numbers.last().expect("a path has a root")
    }

    /// Reduces a set and counts the passes that change it. With `restart` a pass
    /// wrongly ends at its first change.
    fn reduce(&mut self, mut set: BTreeSet<usize>, restart: bool) -> usize {
        let mut passes = 0;
        loop {
            let mut changed = false;
            for number in set.clone() {
                let reduced = self.walk(number, &set);
                if reduced != number {
                    changed = true;
                    set.remove(&number);
                    set.insert(reduced);
                    if restart {
                        break;
                    }
                }
            }
            if !changed {
                return passes;
            }
            passes += 1;
        }
    }

    fn walk(&mut self, number: usize, set: &BTreeSet<usize>) -> usize {
        let (identifier, entries) = self.nodes[number].clone();
        let mut walked = (identifier, Vec::new());
        let mut reached = self.node(&walked);
        for (optional, property) in entries {
            walked.1.push((optional && !set.contains(&reached), property));
            reached = self.node(&walked);
        }
        reached
    }
}
