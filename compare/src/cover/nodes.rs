//! Where nodes come from: from entering the assumed paths, or from reduction, in which round.

use super::{Features, add};
use crate::counts::Counts;
use crate::job::limits;
use crate::oracle::All;

/// The features of a job by its counts.
pub fn node_features(all: &All) -> Features {
    let mut found = Features::new();
    if let (Some(existing), Some(strict)) = (all.existing.counts, all.strict.counts) {
        made_features(&existing, &mut found);
        limit_features(&existing, &mut found);
        strict_features(&existing, &strict, &mut found);
    }
    found
}

fn made_features(counts: &Counts, found: &mut Features) {
    let (made, first, later) = (counts.made(), counts.made_in_first() > 0, counts.made_later() > 0);
    add(found, "nodes: none made, though one is replaced", made == 0 && counts.replaces);
    add(found, "nodes: one made", made == 1);
    add(found, "nodes: several made", made > 1);
    add(found, "nodes: made in the first round alone", first && !later);
    add(found, "nodes: made in later rounds alone", later && !first);
    add(found, "nodes: made in the first round and in later ones", first && later);
    add(found, "nodes: made in the last round", counts.made_in_last() > 0);
}

fn limit_features(counts: &Counts, found: &mut Features) {
    let Counts { nodes_before, nodes_before_last, nodes, .. } = *counts;
    let some = counts.made() > 0;
    let (full, too_many) = (nodes == limits::NODES, nodes > limits::NODES);
    add(found, "nodes: 512 before the first round and at the end", full && !some);
    add(found, "nodes: 512 at the end, some made", full && some);
    add(found, "nodes: 512 at the end, some made in the last round", full && counts.made_in_last() > 0);
    add(found, "nodes: more than 512 before the first round", nodes_before > limits::NODES);
    add(found, "nodes: more than 512 by reduction alone", too_many && nodes_before <= limits::NODES);
    let in_the_last = too_many && counts.rounds > 1 && nodes_before_last <= limits::NODES;
    add(found, "nodes: more than 512 by the last round alone", in_the_last);
}

fn strict_features(existing: &Counts, strict: &Counts, found: &mut Features) {
    let [existing, strict] = [existing, strict].map(Counts::made);
    add(found, "nodes: more made strictly", strict > existing && existing > 0);
    add(found, "nodes: fewer made strictly", strict < existing && strict > 0);
    add(found, "nodes: made strictly alone", strict > 0 && existing == 0);
    add(found, "nodes: made by the existing propagation alone", strict == 0 && existing > 0);
}
