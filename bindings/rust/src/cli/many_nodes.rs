//! What the tool says of a job with too many nodes, which has no sheet that would say it.

use scope_deps::{limits, BlockId, Job};
use std::collections::HashSet;
use std::fmt;

/// What is known of the nodes of a job that was refused by 9.
pub struct TooMany {
    before_rounds: usize,
    /// Where the two propagations can differ: the other one.
    other: Option<Other>,
}

struct Other {
    is_strict: bool,
    refuses: bool,
}

impl TooMany {
    /// Of a job that was refused by the strict propagation or by the existing one; `other_refuses`
    /// asks the other.
    pub fn new(job: &Job, strict: bool, other_refuses: impl FnOnce() -> bool) -> Self {
        let before_rounds = job.nodes_before_rounds();
        // Without loops both propagations are the same, and so they are before the first round.
        let can_differ = before_rounds <= limits::NODES && has_loop(job);
        let other = can_differ.then(|| Other { is_strict: !strict, refuses: other_refuses() });
        Self { before_rounds, other }
    }
}

impl fmt::Display for TooMany {
    fn fmt(&self, f: &mut fmt::Formatter<'_>) -> fmt::Result {
        let before = self.before_rounds;
        if before > limits::NODES {
            return write!(f, "{before} already before the first round");
        }
        let least = limits::NODES + 1 - before;
        write!(f, "{before} of them before the first round, so that reduction added {least} or more")?;
        let Some(Other { is_strict, refuses }) = &self.other else {
            return Ok(());
        };
        let with = if *is_strict { "with" } else { "without" };
        let refused = if *refuses { "refused, too" } else { "not refused" };
        write!(f, "; {with} `--strict` it is {refused}")
    }
}

/// Whether control can come back to a block: blocks are left when all those without a predecessor
/// among the rest have been taken away, again and again.
fn has_loop(job: &Job) -> bool {
    let mut rest: Vec<_> = job.blocks().iter().collect();
    loop {
        let (there, ids) = (rest.len(), rest.iter().map(|block| block.id()).collect::<HashSet<BlockId>>());
        rest.retain(|block| block.predecessors().iter().any(|id| ids.contains(id)));
        if rest.len() == there {
            return there > 0;
        }
    }
}
