//! Optional entries made plain where their base is known.

use super::nodes::Nodes;
use super::registry::Registry;
use super::trace::Replaced;
use crate::ids::NodeId;
use crate::path::Entry;
use crate::refusal::ManyNodes;

/// Reduces the set: passes over its nodes with an optional entry, until one changes nothing. What
/// was replaced, in order.
pub(super) fn reduce(set: &mut Nodes, registry: &mut Registry) -> Result<Vec<Replaced>, ManyNodes> {
    let mut replaced = Vec::new();
    loop {
        let made = pass(set, registry)?;
        if made.is_empty() {
            return Ok(replaced);
        }
        replaced.extend(made);
    }
}

/// One pass, over a list that is taken at its start. A changed node is replaced at once.
fn pass(set: &mut Nodes, registry: &mut Registry) -> Result<Vec<Replaced>, ManyNodes> {
    let list: Vec<NodeId> = set.iter().filter(|&node| registry.has_optional(node)).collect();
    let mut replaced = Vec::new();
    for node in list {
        let walked = walk_again(node, set, registry)?;
        if walked.to != node {
            set.remove(node);
            set.insert(walked.to);
            replaced.push(walked);
        }
    }
    Ok(replaced)
}

/// Walks a node's path again from its root. An optional entry becomes plain where its base is in
/// the set.
fn walk_again(from: NodeId, set: &Nodes, registry: &mut Registry) -> Result<Replaced, ManyNodes> {
    let (mut to, entries) = registry.root_and_entries(from);
    let there = registry.nodes().len();
    let mut bases = Vec::new();
    for entry in entries {
        let base = to;
        let made_plain = entry.optional && set.contains(base);
        to = registry.child(base, Entry { optional: entry.optional && !made_plain, ..entry });
        registry.within_limit(to)?;
        if made_plain {
            bases.push(base);
        }
    }
    let added = registry.numbers().skip(there).collect();
    Ok(Replaced { from, to, bases, added })
}
