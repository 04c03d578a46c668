//! Which blocks an explanation speaks of.

use super::{Base, Elsewhere, End, Explanation, How, Reason, Step, Stop, Unknown, Why};
use crate::ids::BlockId;
use std::collections::BTreeSet;

/// The blocks that matter to the candidates: every block that the explanation in full names before
/// it comes to the nodes.
#[must_use]
pub fn blocks_that_matter(explanation: &Explanation) -> BTreeSet<BlockId> {
    let mut blocks: BTreeSet<BlockId> = explanation.steps.iter().flat_map(of_step).collect();
    for reason in &explanation.reasons {
        if speaks_of_a_base(reason) {
            blocks.insert(explanation.scope);
        }
        unknowns(reason).for_each(|why| of_unknown(why, &mut blocks));
    }
    blocks
}

fn of_step(step: &Step) -> impl Iterator<Item = BlockId> + '_ {
    let left_out = match &step.how {
        How::TookOver { left_out, .. } => &left_out[..],
        _ => &[],
    };
    left_out.iter().copied().chain([step.block])
}

fn speaks_of_a_base(reason: &Reason) -> bool {
    !reason.bases.is_empty() || matches!(reason.end, End::Cut { .. })
}

fn unknowns(reason: &Reason) -> impl Iterator<Item = &Unknown> {
    let of_entries = reason.bases.iter().filter_map(|base| match base {
        Base::Known(_) => None,
        Base::Unknown(why) => Some(why),
    });
    let of_end = match &reason.end {
        End::Cut { why, .. } => Some(&**why),
        _ => None,
    };
    of_entries.chain(of_end)
}

fn of_unknown(why: &Unknown, blocks: &mut BTreeSet<BlockId>) {
    blocks.extend(why.not_kept.iter().map(|read| read.block));
    match &why.elsewhere {
        // The blocks that have a path of the base have steps.
        Elsewhere::Here { .. } | Elsewhere::Apart { .. } => {}
        Elsewhere::Nowhere(open) => blocks.extend(open.iter().map(|open| open.block)),
        Elsewhere::Stopped { stops, .. } => stops.iter().for_each(|stop| of_stop(stop, blocks)),
    }
}

/// The neighbours that have the base are among the blocks that have it.
fn of_stop(stop: &Stop, blocks: &mut BTreeSet<BlockId>) {
    blocks.insert(stop.at);
    if let Why::Lacking(others) | Why::SomeUnfinished(others) = &stop.why {
        blocks.extend(others);
    }
}
