//! Which blocks are drawn where the others are left out: those of which `explain` speaks in short,
//! and those by way of which the paths came that it speaks of.

use crate::explain::{Base, Elsewhere, End, Explanation, How, Reason, Stop, Unknown, Why};
use crate::ids::BlockId;
use std::collections::BTreeSet;

/// The scope block; the blocks by way of which the paths came there that decide about bases; and of
/// each base that is not known there the nearest block at which it stopped, with the neighbours
/// that have it and those that kept it from there, and the blocks by way of which one of them came
/// to have it; or those that assume it, where they are not connected with the scope block; and the
/// first by whose read it would be known if that were kept, which it is not.
pub(super) fn blocks_in_focus(explanation: &Explanation) -> BTreeSet<BlockId> {
    let mut blocks = BTreeSet::from([explanation.scope]);
    let mut steps = Vec::new();
    for reason in &explanation.reasons {
        steps.extend(known_by(reason));
        unknown(reason).for_each(|why| stopped(explanation, why, &mut blocks, &mut steps));
    }
    blocks.extend(along(explanation, steps));
    blocks
}

/// The steps by which the scope block came to have the paths that show bases.
fn known_by(reason: &Reason) -> impl Iterator<Item = usize> + '_ {
    reason.bases.iter().filter_map(|base| match base {
        Base::Known(known) => Some(known.step),
        Base::Unknown(_) => None,
    })
}

/// Why bases are not known: those of returned entries, and that of the first that is cut.
fn unknown(reason: &Reason) -> impl Iterator<Item = &Unknown> {
    let of_entries = reason.bases.iter().filter_map(|base| match base {
        Base::Known(_) => None,
        Base::Unknown(why) => Some(why),
    });
    let of_end = match &reason.end {
        End::Cut { why, .. } => Some(&**why),
        End::Whole | End::Covered { .. } => None,
    };
    of_entries.chain(of_end)
}

/// Adds the blocks that keep the scope block from having a base, and how another came to have it.
fn stopped(explanation: &Explanation, why: &Unknown, blocks: &mut BTreeSet<BlockId>, steps: &mut Vec<usize>) {
    let is_assumed = |step: &usize| matches!(explanation.steps[*step].how, How::Assumed { .. });
    let would_do = why.first_not_kept().filter(|read| read.would_do == Some(true));
    blocks.extend(would_do.map(|read| read.block));
    steps.extend(why.open.as_ref().map(|open| open.step));
    match &why.elsewhere {
        Elsewhere::Here { holder, .. } => steps.push(holder.step),
        Elsewhere::Nowhere(open) => blocks.extend(open.first().map(|open| open.block)),
        Elsewhere::Apart { holders, .. } => {
            steps.extend(holders.iter().map(|holder| holder.step).filter(is_assumed));
        }
        Elsewhere::Stopped { stops, .. } => {
            blocks.extend(stops.first().into_iter().flat_map(at_stop));
            steps.extend(stops.first().map(|stop| stop.holder.step));
        }
    }
}

/// The block at which a base stopped, and its neighbours there.
fn at_stop(stop: &Stop) -> Vec<BlockId> {
    let others = match &stop.why {
        Why::Lacking(others) | Why::SomeUnfinished(others) => others.clone(),
        Why::Different { one, other } => vec![one.block, other.block],
        Why::Unfinished | Why::TooLate => Vec::new(),
    };
    [vec![stop.at], stop.holders.clone(), others].concat()
}

/// The blocks of these steps and of all on which they rest, and those that were left out there.
fn along(explanation: &Explanation, mut open: Vec<usize>) -> BTreeSet<BlockId> {
    let mut seen = BTreeSet::new();
    let mut blocks = BTreeSet::new();
    while let Some(place) = open.pop() {
        let step = &explanation.steps[place];
        if seen.insert(place) {
            blocks.insert(step.block);
            match &step.how {
                How::Assumed { .. } => {}
                How::TookOver { from, left_out, .. } => {
                    open.extend(from);
                    blocks.extend(left_out);
                }
                How::Made { from, bases, .. } => open.extend(bases.iter().chain([from])),
            }
        }
    }
    blocks
}
