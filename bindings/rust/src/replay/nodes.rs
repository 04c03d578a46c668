//! Sets of nodes, as bits.

use crate::ids::NodeId;
use crate::limits;
use std::fmt;

const WORDS: usize = limits::NODES / 64;

#[derive(Clone, Copy, PartialEq, Eq)]
pub(super) struct Nodes([u64; WORDS]);

impl Nodes {
    pub(super) const NONE: Self = Self([0; WORDS]);

    pub(super) fn contains(&self, node: NodeId) -> bool {
        self.0[word(node)] & bit(node) != 0
    }

    pub(super) fn insert(&mut self, node: NodeId) {
        self.0[word(node)] |= bit(node);
    }

    pub(super) fn remove(&mut self, node: NodeId) {
        self.0[word(node)] &= !bit(node);
    }

    pub(super) fn union(self, other: Self) -> Self {
        self.by_words(other, |one, other| one | other)
    }

    pub(super) fn intersection(self, other: Self) -> Self {
        self.by_words(other, |one, other| one & other)
    }

    /// The nodes of the first that are not in the second.
    pub(super) fn without(self, other: Self) -> Self {
        self.by_words(other, |one, other| one & !other)
    }

    fn by_words(mut self, other: Self, with: impl Fn(u64, u64) -> u64) -> Self {
        for (one, other) in self.0.iter_mut().zip(other.0) {
            *one = with(*one, other);
        }
        self
    }

    /// The nodes, ascending.
    pub(super) fn iter(&self) -> impl Iterator<Item = NodeId> + '_ {
        (0..limits::NODES as u16).map(NodeId).filter(|&node| self.contains(node))
    }
}

impl fmt::Debug for Nodes {
    fn fmt(&self, f: &mut fmt::Formatter<'_>) -> fmt::Result {
        f.debug_set().entries(self.iter()).finish()
    }
}

fn word(node: NodeId) -> usize {
    usize::from(node.0) / 64
}

fn bit(node: NodeId) -> u64 {
    1 << (node.0 % 64)
}

#[cfg(test)]
mod tests {
    use super::*;

    fn nodes(numbers: &[u16]) -> Nodes {
        let mut set = Nodes::NONE;
        numbers.iter().for_each(|&number| set.insert(NodeId(number)));
        set
    }

    #[test]
    fn sets_are_joined_cut_and_told_apart() {
        let (one, other) = (nodes(&[0, 63, 64, 511]), nodes(&[63, 65, 511]));
        assert_eq!(one.union(other), nodes(&[0, 63, 64, 65, 511]));
        assert_eq!(one.intersection(other), nodes(&[63, 511]));
        assert_eq!(one.without(other), nodes(&[0, 64]));
        let listed: Vec<u16> = one.iter().map(|node| node.0).collect();
        assert_eq!(listed, [0, 63, 64, 511]);
    }

    #[test]
    fn a_removed_node_is_gone() {
        let mut set = nodes(&[5, 6]);
        set.remove(NodeId(5));
        assert!(!set.contains(NodeId(5)) && set.contains(NodeId(6)));
    }
}
