//! The strict propagation in the harness's own words, from the request's sentences. With a mistake
//! it is one of those that the comparison must see; without, a second opinion on the exchanged
//! step.

use super::{Infos, PropertyPathRegistry, Sets, reduce_maybe_optional_chains};
use crate::hir::{BlockId, HirFunction};
use crate::job::limits;
use crate::propagation::Mistake;
use crate::rounds;
use std::collections::{BTreeMap, BTreeSet};

pub fn propagate(
    function: &HirFunction,
    infos: &Infos,
    registry: &mut PropertyPathRegistry,
    mistake: Option<Mistake>,
) -> Sets {
    let forward: Vec<BlockId> = function.body.blocks.keys().copied().collect();
    let backward: Vec<BlockId> = forward.iter().rev().copied().collect();
    let (predecessors, successors) = neighbours(function);
    // A walk that is not strict is the existing one.
    let in_walk = |lax| if mistake == Some(lax) { Some(Mistake::PassesActiveOver) } else { mistake };
    let sets = infos.iter().map(|(id, info)| (*id, info.assumed_non_null_objects.clone())).collect();
    let mut run = Run { registry, sets, marks: BTreeMap::new(), changed: false, mistake };
    for _ in 0..limits::ROUNDS {
        rounds::started(run.registry.nodes.len());
        run.changed = false;
        run.mistake = in_walk(Mistake::StrictBackwardOnly);
        run.walk(&forward, &predecessors);
        rounds::turned(run.registry.nodes.len());
        if mistake != Some(Mistake::KeepsMarks) {
            run.marks.clear();
        }
        run.mistake = in_walk(Mistake::StrictForwardOnly);
        run.walk(&backward, &successors);
        run.marks.clear();
        if !run.changed {
            rounds::settled();
            break;
        }
    }
    run.sets
}

type Neighbours = BTreeMap<BlockId, Vec<BlockId>>;

/// Each block's predecessors as recorded, and its successors by id.
fn neighbours(function: &HirFunction) -> (Neighbours, Neighbours) {
    let (mut predecessors, mut successors) = (Neighbours::new(), Neighbours::new());
    for (&id, block) in &function.body.blocks {
        predecessors.insert(id, block.preds.iter().copied().collect());
        for &predecessor in &block.preds {
            successors.entry(predecessor).or_default().push(id);
        }
    }
    successors.values_mut().for_each(|ids| ids.sort());
    (predecessors, successors)
}

#[derive(Clone, Copy, PartialEq, Eq)]
enum Mark {
    Active,
    Done,
}

struct Run<'r, 'a> {
    registry: &'r mut PropertyPathRegistry<'a>,
    sets: Sets,
    marks: BTreeMap<BlockId, Mark>,
    changed: bool,
    mistake: Option<Mistake>,
}

impl Run<'_, '_> {
    fn walk(&mut self, order: &[BlockId], neighbours: &Neighbours) {
        order.iter().for_each(|&id| self.visit(id, neighbours));
    }

    fn visit(&mut self, id: BlockId, neighbours: &Neighbours) {
        if self.marks.contains_key(&id) {
            return;
        }
        self.marks.insert(id, Mark::Active);
        let beside = neighbours.get(&id).map_or(&[][..], Vec::as_slice);
        if !self.has(Mistake::JoinsUnmarked) {
            beside.iter().for_each(|&neighbour| self.visit(neighbour, neighbours));
        }
        let joining = self.joining(id, beside);
        let before = self.sets[&id].clone();
        let mut after = before.clone();
        after.extend(joining.iter().flatten());
        if joining.is_some() || !self.has(Mistake::ReducesWhereJoined) {
            reduce_maybe_optional_chains(&mut after, self.registry);
        }
        self.changed |= before != after;
        self.sets.insert(id, after);
        let stays_active = self.has(Mistake::DoneWhereJoined) && !beside.is_empty() && joining.is_none();
        self.marks.insert(id, if stays_active { Mark::Active } else { Mark::Done });
    }

    fn has(&self, mistake: Mistake) -> bool {
        self.mistake == Some(mistake)
    }

    /// What joins the block, if anything does: the intersection of its neighbours' sets.
    fn joining(&self, id: BlockId, beside: &[BlockId]) -> Option<BTreeSet<usize>> {
        if beside.is_empty() && self.has(Mistake::JoinsAllOfNone) {
            return Some((0..self.registry.nodes.len()).collect());
        }
        let is_done = |id: &BlockId| match self.marks.get(id) {
            Some(mark) => *mark == Mark::Done,
            None => self.has(Mistake::JoinsUnmarked),
        };
        let mut joining: Vec<BlockId> = beside.to_vec();
        match self.mistake {
            Some(Mistake::PassesActiveOver) => joining.retain(is_done),
            Some(Mistake::PassesItselfOver) => joining.retain(|neighbour| *neighbour != id),
            _ => {}
        }
        let joins = match self.mistake {
            Some(Mistake::JoinsActive) => true,
            Some(Mistake::NeedsOneDone) => joining.iter().any(is_done),
            _ => joining.iter().all(is_done),
        };
        let sets = joining.iter().filter(|_| joins).map(|id| self.sets[id].clone());
        sets.reduce(|a, b| &a & &b)
    }
}
