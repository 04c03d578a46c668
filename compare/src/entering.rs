//! The nodes that entering a job's assumed paths makes, from the specification's sentences alone: a
//! second opinion on those before the first round.

use crate::job::{Entry, Job, Path, Property};
use crate::output::Node;
use crate::reads::all_assumed;
use std::collections::HashMap;

/// The nodes before the first round, by number: one for each distinct prefix of the assumed paths.
pub fn entered(job: &Job) -> Vec<Node> {
    let mut entering = Entering::default();
    all_assumed(job).for_each(|path| entering.enter(path));
    entering.nodes
}

#[derive(Default)]
struct Entering {
    nodes: Vec<Node>,
    /// Each root by its identifier.
    roots: HashMap<u32, usize>,
    /// Each child by its parent, optional mark and property.
    children: HashMap<(usize, bool, Property), usize>,
}

impl Entering {
    fn enter(&mut self, path: &Path) {
        let root = self.root(path);
        path.entries.iter().fold(root, |parent, entry| self.child(parent, entry));
    }

    fn root(&mut self, path: &Path) -> usize {
        *self.roots.entry(path.identifier).or_insert_with(|| {
            self.nodes.push(Node {
                parent: None,
                identifier: path.identifier,
                optional: false,
                property: Property::Name(0),
                span: path.span,
                reactive: path.reactive,
            });
            self.nodes.len() - 1
        })
    }

    fn child(&mut self, parent: usize, entry: &Entry) -> usize {
        let Entry { optional, property, span } = *entry;
        *self.children.entry((parent, optional, property)).or_insert_with(|| {
            let Node { identifier, reactive, .. } = self.nodes[parent];
            self.nodes.push(Node { parent: Some(parent), identifier, optional, property, span, reactive });
            self.nodes.len() - 1
        })
    }
}

#[cfg(test)]
mod tests {
    use super::*;
    use crate::notation::{block, dropped, job, kept};

    #[test]
    fn a_node_is_made_for_each_distinct_prefix() {
        let count = |assumed: [&str; 2]| {
            let blocks = vec![block(7, &[], assumed[0]), block(8, &[7], assumed[1])];
            entered(&job(7, blocks, "5.6.7")).len()
        };
        assert_eq!(count(["", ""]), 0);
        assert_eq!(count(["1", "1"]), 1);
        assert_eq!(count(["1, 1?.10", ""]), 2);
        assert_eq!(count(["1?.10", "1.10"]), 3);
        assert_eq!(count(["1.10.11, 1.10@4", "2.10, 1.10.12"]), 6);
        assert_eq!(count(["1.0, 1[0x0]", "1[0x8000000000000000]"]), 4);
    }

    #[test]
    fn kept_reads_are_entered_before_the_paths_of_their_block() {
        let reads = |first: &str| vec![dropped(first), kept("1@5.10@6")];
        let blocks = vec![block(7, &[], "1@1.10@2, 2").reading(reads("1@3")), block(8, &[7], "4, 1.10.11")];
        let nodes = entered(&job(7, blocks, ""));
        let told: Vec<_> = nodes.iter().map(|node| (node.identifier, node.parent, node.span)).collect();
        let made = [(1, None, 5), (1, Some(0), 6), (2, None, 0), (4, None, 0), (1, Some(1), 0)];
        assert_eq!(told, made);
        assert_eq!(entered(&job(7, vec![block(7, &[], "").reading(vec![dropped("1.10")])], "")), []);
    }

    #[test]
    fn the_first_maker_gives_span_and_reactive() {
        let nodes = entered(&job(7, vec![block(7, &[], "reactive 1@3.10@4, 1@5.10@6?.11@7")], ""));
        let told: Vec<_> = nodes.iter().map(|node| (node.parent, node.span, node.reactive)).collect();
        assert_eq!(told, [(None, 3, true), (Some(0), 4, true), (Some(1), 7, true)]);
        assert!(nodes[2].optional && !nodes[1].optional);
    }
}
