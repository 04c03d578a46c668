//! Visits, walks and rounds.

use super::nodes::Nodes;
use super::reduce::reduce;
use super::registry::Registry;
use super::trace::{Propagation, Side, Visit};
use crate::graph::Graph;
use crate::job::Job;
use crate::refusal::ManyNodes;

/// The most rounds.
const ROUNDS: u8 = 100;

#[derive(Clone, Copy, PartialEq, Eq)]
enum Mark {
    Unmarked,
    Active,
    Done,
}

/// The neighbours of each block on both sides, in the order in which the walks take them.
pub(super) struct Neighbours {
    predecessors: Vec<Vec<usize>>,
    successors: Vec<Vec<usize>>,
}

impl Neighbours {
    /// Predecessors in job order, successors by ascending id.
    pub(super) fn new(job: &Job) -> Self {
        let Graph { predecessors, mut successors } = Graph::new(job);
        for blocks in &mut successors {
            blocks.sort_by_key(|&block| job.blocks()[block].id());
        }
        Self { predecessors, successors }
    }

    fn of(&self, block: usize, side: Side) -> &[usize] {
        match side {
            Side::Predecessors => &self.predecessors[block],
            Side::Successors => &self.successors[block],
        }
    }
}

/// Propagation on its way.
pub(super) struct Walks<'g> {
    neighbours: &'g Neighbours,
    propagation: Propagation,
    pub(super) registry: Registry,
    /// The set of each block.
    pub(super) sets: Vec<Nodes>,
    /// All visits so far, in the order in which they ended.
    pub(super) visits: Vec<Visit>,
    marks: Vec<Mark>,
}

impl<'g> Walks<'g> {
    pub(super) fn new(
        neighbours: &'g Neighbours,
        propagation: Propagation,
        registry: Registry,
        sets: Vec<Nodes>,
    ) -> Self {
        let marks = vec![Mark::Unmarked; sets.len()];
        Self { neighbours, propagation, registry, sets, visits: Vec::new(), marks }
    }

    /// Rounds of a forward and a backward walk, until one changes nothing. How many they were, and
    /// whether the last changed nothing.
    pub(super) fn rounds(&mut self) -> Result<(u8, bool), ManyNodes> {
        for round in 1..=ROUNDS {
            let places = 0..self.sets.len();
            let forward = self.walk(round, Side::Predecessors, places.clone())?;
            let backward = self.walk(round, Side::Successors, places.rev())?;
            if !(forward || backward) {
                return Ok((round, true));
            }
        }
        Ok((ROUNDS, false))
    }

    /// Visits all blocks, and says whether a set changed.
    fn walk(
        &mut self,
        round: u8,
        side: Side,
        blocks: impl Iterator<Item = usize>,
    ) -> Result<bool, ManyNodes> {
        self.marks.fill(Mark::Unmarked);
        let mut changed = false;
        for block in blocks {
            changed |= self.visit(round, side, block)?;
        }
        Ok(changed)
    }

    /// Visits a block, and before it the neighbours that have no mark. A block that has a mark is
    /// left alone.
    fn visit(&mut self, round: u8, side: Side, block: usize) -> Result<bool, ManyNodes> {
        if self.marks[block] != Mark::Unmarked {
            return Ok(false);
        }
        self.marks[block] = Mark::Active;
        let neighbours = self.neighbours;
        let mut changed = false;
        for &near in neighbours.of(block, side) {
            changed |= self.visit(round, side, near)?;
        }
        changed |= self.leave(round, side, block)?;
        self.marks[block] = Mark::Done;
        Ok(changed)
    }

    /// Joins what the neighbours that are to be joined have in common, reduces the set, and notes
    /// both.
    fn leave(&mut self, round: u8, side: Side, block: usize) -> Result<bool, ManyNodes> {
        let neighbours = self.neighbours.of(block, side);
        let is_done = |near: usize| self.marks[near] == Mark::Done;
        let unfinished: Vec<usize> = neighbours.iter().copied().filter(|&near| !is_done(near)).collect();
        let is_joined = |&near: &usize| match self.propagation {
            Propagation::Existing => is_done(near),
            Propagation::Strict => unfinished.is_empty(),
        };
        let (joined, passed_over): (Vec<usize>, Vec<usize>) =
            neighbours.iter().partition(|near| is_joined(near));
        let before = self.sets[block];
        let joined_sets = joined.iter().map(|&near| self.sets[near]);
        let in_common = joined_sets.reduce(Nodes::intersection).unwrap_or(Nodes::NONE);
        let mut set = before.union(in_common);
        let replaced = reduce(&mut set, &mut self.registry)?;
        let came_in = in_common.without(before).iter().collect();
        self.sets[block] = set;
        self.visits.push(Visit { round, side, block, joined, passed_over, unfinished, came_in, replaced });
        Ok(set != before)
    }
}
