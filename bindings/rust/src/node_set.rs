//! Sets of nodes.

use crate::ids::NodeId;
use crate::limits;
use std::fmt;
use std::iter::FusedIterator;

/// How many bytes a set takes in a sheet.
const BYTES: usize = limits::NODES / 8;

/// A set of nodes.
///
/// ```
/// use scope_deps::{sheet, Job, NodeId};
///
/// let sheet = sheet(&"scope 7 block 7 assumes 5, 6.1".parse::<Job>()?)?;
/// let (_, set) = sheet.sets().next().expect("a job has a block");
/// // Node 1 is the variable 6, on the way to 6.1, and not assumed itself.
/// assert_eq!(set.iter().collect::<Vec<_>>(), [NodeId(0), NodeId(2)]);
/// assert!(!set.contains(NodeId(1)));
/// assert_eq!(format!("{set:?}"), "{NodeId(0), NodeId(2)}");
/// # Ok::<(), Box<dyn std::error::Error>>(())
/// ```
#[derive(Clone, Copy, PartialEq, Eq, Hash)]
pub struct NodeSet([u8; BYTES]);

impl NodeSet {
    /// The set of these bits, as in a sheet's bytes.
    pub(crate) fn from_bits(bits: [u8; BYTES]) -> Self {
        Self(bits)
    }

    /// Whether the node is in the set.
    #[must_use]
    pub fn contains(&self, node: NodeId) -> bool {
        let place = usize::from(node.0);
        self.0.get(place / 8).is_some_and(|byte| byte >> (place % 8) & 1 == 1)
    }

    /// The nodes of the set, ascending.
    pub fn iter(&self) -> Nodes {
        Nodes { left: *self, from: 0 }
    }

    /// How many nodes are in the set.
    #[must_use]
    pub fn len(&self) -> usize {
        self.0.iter().map(|byte| byte.count_ones() as usize).sum()
    }

    /// Whether no node is in the set.
    #[must_use]
    pub fn is_empty(&self) -> bool {
        self.0.iter().all(|&byte| byte == 0)
    }
}

impl fmt::Debug for NodeSet {
    fn fmt(&self, f: &mut fmt::Formatter<'_>) -> fmt::Result {
        f.debug_set().entries(self.iter()).finish()
    }
}

impl IntoIterator for NodeSet {
    type Item = NodeId;
    type IntoIter = Nodes;

    fn into_iter(self) -> Nodes {
        self.iter()
    }
}

impl IntoIterator for &NodeSet {
    type Item = NodeId;
    type IntoIter = Nodes;

    fn into_iter(self) -> Nodes {
        self.iter()
    }
}

/// The nodes of a set, ascending.
#[derive(Clone, Debug)]
#[must_use = "iterators do nothing unless they are used"]
pub struct Nodes {
    left: NodeSet,
    /// No byte before this one has a bit.
    from: usize,
}

impl Iterator for Nodes {
    type Item = NodeId;

    fn next(&mut self) -> Option<NodeId> {
        let ahead = self.left.0[self.from..].iter().position(|&byte| byte != 0)?;
        self.from += ahead;
        let byte = &mut self.left.0[self.from];
        let bit = byte.trailing_zeros() as usize;
        *byte &= *byte - 1;
        Some(NodeId((self.from * 8 + bit) as u16))
    }

    fn size_hint(&self) -> (usize, Option<usize>) {
        let left = self.left.len();
        (left, Some(left))
    }
}

impl ExactSizeIterator for Nodes {}

impl FusedIterator for Nodes {}
