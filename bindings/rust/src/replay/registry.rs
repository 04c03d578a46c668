//! The nodes of paths, numbered from 0 as they are made.

use crate::ids::{IdentifierId, NodeId, Span};
use crate::limits;
use crate::path::{Entry, Path, Property};
use crate::refusal::ManyNodes;
use crate::sheet::Node;
use std::collections::HashMap;

#[derive(Clone, Debug, Default)]
pub(super) struct Registry {
    nodes: Vec<Node>,
    /// Whether a node's path has an optional entry.
    optional: Vec<bool>,
    roots: HashMap<IdentifierId, NodeId>,
    children: HashMap<(NodeId, Property, bool), NodeId>,
}

impl Registry {
    pub(super) fn nodes(&self) -> &[Node] {
        &self.nodes
    }

    /// The numbers of the nodes, ascending.
    pub(super) fn numbers(&self) -> impl ExactSizeIterator<Item = NodeId> {
        (0..self.nodes.len()).map(|number| NodeId(number as u16))
    }

    pub(super) fn has_optional(&self, node: NodeId) -> bool {
        self.optional[usize::from(node.0)]
    }

    /// The node of a path. Those that are missing on the way are made.
    pub(super) fn enter(&mut self, path: &Path) -> Result<NodeId, ManyNodes> {
        let mut node = self.root(path.identifier(), path.is_reactive(), path.span());
        for &entry in path.entries() {
            node = self.child(node, entry);
        }
        self.within_limit(node)
    }

    /// The node, as long as there are not more than the stage allows.
    pub(super) fn within_limit(&self, node: NodeId) -> Result<NodeId, ManyNodes> {
        if self.nodes.len() <= limits::NODES {
            Ok(node)
        } else {
            Err(ManyNodes)
        }
    }

    fn root(&mut self, identifier: IdentifierId, reactive: bool, span: Span) -> NodeId {
        if let Some(&node) = self.roots.get(&identifier) {
            return node;
        }
        let node = self.make(Node { parent: None, identifier, span, reactive }, false);
        self.roots.insert(identifier, node);
        node
    }

    /// The node one entry longer than this one.
    pub(super) fn child(&mut self, parent: NodeId, entry: Entry) -> NodeId {
        let key = (parent, entry.property, entry.optional);
        if let Some(&node) = self.children.get(&key) {
            return node;
        }
        let Node { identifier, reactive, .. } = self.nodes[usize::from(parent.0)];
        let optional = self.has_optional(parent) || entry.optional;
        let made = Node { parent: Some((parent, entry)), identifier, span: entry.span, reactive };
        let node = self.make(made, optional);
        self.children.insert(key, node);
        node
    }

    fn make(&mut self, node: Node, optional: bool) -> NodeId {
        self.nodes.push(node);
        self.optional.push(optional);
        NodeId((self.nodes.len() - 1) as u16)
    }

    /// The root of a node, and the entries from there on to the node.
    pub(super) fn root_and_entries(&self, node: NodeId) -> (NodeId, Vec<Entry>) {
        let (mut root, mut entries) = (node, Vec::new());
        while let Some((parent, entry)) = self.nodes[usize::from(root.0)].parent {
            entries.push(entry);
            root = parent;
        }
        entries.reverse();
        (root, entries)
    }

    /// A node's path.
    pub(super) fn path(&self, node: NodeId) -> Path {
        let (root, entries) = self.root_and_entries(node);
        let root = &self.nodes[usize::from(root.0)];
        let variable = Path::new(root.identifier).with_reactive(root.reactive).with_span(root.span);
        variable.with_entries(entries)
    }
}
