//! The strict propagation, told from the existing one and from those that are nearly right.

use super::{Features, add};
use crate::job::Job;
use crate::oracle::{All, Oracle};
use crate::propagation::{Mistake, Propagation};
use crate::reader::{MANY_NODES, read_job};
use std::collections::BTreeSet;

/// Mistakes are looked for in jobs of at most so many blocks, since each takes a run.
const MOST_BLOCKS: usize = 24;

/// How the two propagations stand to each other, what of the graph matters to the strict one, and
/// which mistakes would differ.
pub fn strict_features(bytes: &[u8], out_len: usize, all: &All, oracle: &mut Oracle, found: &mut Features) {
    let Ok(job) = read_job(bytes, out_len) else { return };
    let (existing, strict) = (&all.existing, &all.strict);
    if job.has_loop() {
        add(found, "strict: another answer", existing.answer != strict.answer);
        add(found, "strict: another sheet", existing.sheet != strict.sheet);
        let [refused, refused_strictly] = [existing, strict].map(|both| both.answer == Err(MANY_NODES));
        add(found, "strict: refused under the existing one alone", refused && !refused_strictly);
        add(found, "strict: refused alone", refused_strictly && !refused);
        if let (Some(existing), Some(strict)) = (existing.counts, strict.counts) {
            add(found, "strict: more nodes", strict.nodes > existing.nodes);
            add(found, "strict: fewer nodes", strict.nodes < existing.nodes);
            add(found, "strict: more rounds", strict.rounds > existing.rounds);
            add(found, "strict: fewer rounds", strict.rounds < existing.rounds);
            add(found, "strict: 3 rounds or more", strict.rounds > 2);
        }
        loop_features(&job, found);
    }
    if job.blocks.len() > MOST_BLOCKS {
        return;
    }
    for mistake in Mistake::ALL {
        let wrong = oracle.sheet(Propagation::Own(Some(mistake)), bytes, out_len);
        add(found, &format!("strict: {} would differ", mistake.text()), wrong != strict.sheet);
    }
}

/// What of loops matters to the strict propagation.
fn loop_features(job: &Job, found: &mut Features) {
    let all: BTreeSet<u32> = job.blocks.iter().map(|block| block.id).collect();
    let starts = job.blocks.iter().filter(|block| block.predecessors.is_empty()).map(|block| block.id);
    let reached = reachable(job, starts.collect());
    add(found, "strict: no block without predecessor", reached.is_empty());
    add(found, "strict: blocks that no run reaches", !reached.is_empty() && reached != all);
    let in_loop = |id: u32| reachable(job, successors(job, id)).contains(&id);
    add(found, "strict: the scope block is in a loop", in_loop(job.scope));
    add(found, "strict: the forward walk starts in a loop", in_loop(job.blocks[0].id));
    let last = job.blocks.last().expect("a job has a block");
    add(found, "strict: the backward walk starts in a loop", in_loop(last.id));
}

fn successors(job: &Job, id: u32) -> BTreeSet<u32> {
    job.blocks.iter().filter(|block| block.predecessors.contains(&id)).map(|block| block.id).collect()
}

/// The blocks that control can reach from these, which are among them.
fn reachable(job: &Job, mut reached: BTreeSet<u32>) -> BTreeSet<u32> {
    let mut left: Vec<u32> = reached.iter().copied().collect();
    while let Some(id) = left.pop() {
        for next in successors(job, id) {
            if reached.insert(next) {
                left.push(next);
            }
        }
    }
    reached
}
