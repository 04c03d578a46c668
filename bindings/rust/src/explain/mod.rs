//! Why each candidate's returned path is what it is.
//!
//! The answer says where a path was kept and how: an entry is returned plain where its base, the
//! value that it is read from, is known to be there (neither null nor undefined) in the scope
//! block, and optional where it is not. How a block came to have a path, and where a path stopped
//! that others have, is in the trace of the [replay](crate::replay): each sentence rests on the
//! job, on a visit of the trace or on what the blocks hold in the end. Where the replay does not
//! end with the sheet, nothing is explained.
//!
//! ```
//! use scope_deps::{answer, explain::explain, sheet, Job};
//!
//! let job: Job = "scope 2
//!     block 0 assumes 1
//!     block 1 after 0 assumes 1.10
//!     block 2 after 0, 1
//!     candidate 1.10.11".parse()?;
//! let explanation = explain(&job, &sheet(&job)?, &answer(&job)?)?;
//! assert_eq!(explanation.to_string(), "\
//! candidate 1.10.11
//!  returned 1.10
//!     .10  stays plain: 1 is known to be there in block 2; it comes from block 0, which assumes it
//!     .11  is cut: 1.10 is not known to be there in block 2
//!          block 1 assumes 1.10, but control can also come to block 2 from block 0, \
//!          which does not have it
//!
//! nodes 2: 2 before the first round, 0 added by reduction
//! ");
//! # Ok::<(), Box<dyn std::error::Error>>(())
//! ```
//!
//! At its end stands how many nodes there were before the first round, and which ones reduction
//! added. [`Explanation::in_full`] shows all that is known, with every step by which a path came to
//! a block, and with the round and the block in which each node was added, and from which assumed
//! path it comes. For sheet and answer by the strict propagation there is [`explain_strict`].

mod added;
mod arrivals;
mod bases;
mod blocks;
mod matter;
mod not_kept;
mod origins;
mod paths;
mod steps;
mod stops;
mod text;
mod trials;
mod unknown;

pub use added::Added;
pub use bases::{Base, Known, LeftOut};
pub use matter::blocks_that_matter;
pub use not_kept::NotKept;
pub use origins::Origin;
pub use steps::{How, Step};
pub use stops::{Holder, Stop, Way, Why};
pub use text::InFull;
#[cfg(feature = "draw")]
pub(crate) use text::{counts_as_mutable, some_listed, why_kept, would_do};
pub use unknown::{AssumedPath, Before, Elsewhere, Unknown};

use crate::answer::Answer;
use crate::ids::BlockId;
use crate::job::{Block, Job};
use crate::names::Names;
use crate::path::{Entry, Path};
use crate::replay::{Propagation, Replay};
use crate::sheet::Sheet;
use bases::{on_the_way, Bases};
use std::fmt;

/// Why each candidate's returned path is what it is.
#[derive(Clone, Debug, PartialEq, Eq, Hash)]
pub struct Explanation {
    /// By which propagation the job was answered.
    pub propagation: Propagation,
    /// The scope block.
    pub scope: BlockId,
    /// Whether the last round changed nothing; else the stage stopped after 100 rounds.
    pub settled: bool,
    /// A reason for each candidate, in the job's order.
    pub reasons: Vec<Reason>,
    /// How blocks came to have the paths that the reasons speak of. Reasons and steps have places
    /// in this list.
    pub steps: Vec<Step>,
    /// How many nodes there were before the first round.
    pub nodes_before_rounds: usize,
    /// The nodes that reduction added, and where, in the order in which it did.
    pub added: Vec<Added>,
    /// How many raw reads of the job are not kept.
    pub reads_not_kept: usize,
    /// The job's names, by which paths are shown.
    pub names: Names,
}

impl Explanation {
    /// Whether a returned path rests on one that a block took over past another, which was left out
    /// because the two are on a loop. Then a run of control may avoid the blocks that assume it. By
    /// the strict propagation no block is left out.
    #[must_use]
    pub fn leaves_out(&self) -> bool {
        let past_another = |&step: &usize| match &self.steps[step].how {
            How::TookOver { left_out, .. } => !left_out.is_empty(),
            _ => false,
        };
        let mut bases = self.reasons.iter().flat_map(|reason| &reason.bases);
        bases.any(|base| match base {
            Base::Known(known) => on_the_way(&self.steps, known.step).iter().any(past_another),
            Base::Unknown(_) => false,
        })
    }

    /// The paths of the nodes that reduction added, by number.
    pub fn added_paths(&self) -> impl Iterator<Item = &Path> {
        self.added.iter().flat_map(|added| added.nodes.iter().map(|(_, path)| path))
    }
}

/// Why one candidate's returned path is what it is.
#[derive(Clone, Debug, PartialEq, Eq, Hash)]
pub struct Reason {
    /// The candidate.
    pub candidate: Path,
    /// The returned path with its identifier and a prefix of its names.
    pub returned: Path,
    /// The base of each entry of the returned path.
    pub bases: Vec<Base>,
    /// Why the returned path ends where it does.
    pub end: End,
}

/// Why a returned path ends where it does.
#[derive(Clone, Debug, PartialEq, Eq, Hash)]
pub enum End {
    /// The candidate ends there.
    Whole,
    /// The candidate's next entry is plain, and its base is not known.
    Cut {
        /// The entry, the first that is not returned.
        entry: Entry,
        /// Why the base is not known.
        why: Box<Unknown>,
    },
    /// Another candidate ends or is cut there, and what depends on a path depends on all below it.
    Covered {
        /// The other candidate's place in the job, from 0.
        by: usize,
    },
}

/// The replay of the job does not end with this sheet and this answer.
#[derive(Clone, Copy, Debug, PartialEq, Eq, Hash)]
pub struct Mismatch;

impl fmt::Display for Mismatch {
    fn fmt(&self, f: &mut fmt::Formatter<'_>) -> fmt::Result {
        write!(
            f,
            "the replay of the job does not end with this sheet and this answer, so nothing is explained"
        )
    }
}

impl std::error::Error for Mismatch {}

/// Why each candidate's returned path is what it is, for a job with its sheet and its answer.
///
/// # Errors
///
/// Where the replay of the job does not end with this sheet and this answer.
pub fn explain(job: &Job, sheet: &Sheet, answer: &Answer) -> Result<Explanation, Mismatch> {
    explain_by(Propagation::Existing, job, sheet, answer)
}

/// The same for a job with its sheet and its answer by the strict propagation.
///
/// # Errors
///
/// Where the replay of the job by the strict propagation does not end with this sheet and this
/// answer.
///
/// ```
/// use scope_deps::{explain::explain_strict, strict_answer, strict_sheet, Job};
///
/// let job: Job = "scope 1 block 0 assumes 1 block 1 after 1, 0 candidate 1.10".parse()?;
/// let explanation = explain_strict(&job, &strict_sheet(&job)?, &strict_answer(&job)?)?;
/// assert_eq!(explanation.to_string(), "\
/// strict propagation: a block takes paths over from the blocks before it, or after it, \
/// only where all of these are finished
///
/// candidate 1.10
///  returned 1
///     .10  is cut: 1 is not known to be there in block 1
///          block 0 assumes 1, but block 1 takes nothing over from the blocks before it, \
///          since it is itself one of them and not finished
///
/// nodes 1: 1 before the first round, 0 added by reduction
/// ");
/// # Ok::<(), Box<dyn std::error::Error>>(())
/// ```
pub fn explain_strict(job: &Job, sheet: &Sheet, answer: &Answer) -> Result<Explanation, Mismatch> {
    explain_by(Propagation::Strict, job, sheet, answer)
}

/// The explanation of a job with its sheet and its answer by this propagation.
pub(crate) fn explain_by(
    propagation: Propagation,
    job: &Job,
    sheet: &Sheet,
    answer: &Answer,
) -> Result<Explanation, Mismatch> {
    let replay = Replay::by(propagation, job).map_err(|_| Mismatch)?;
    let rounds = (sheet.rounds(), sheet.is_settled());
    if !replay.agrees_with(job, sheet) || rounds != (answer.rounds(), answer.is_settled()) {
        return Err(Mismatch);
    }
    let mut bases = Bases::new(job, &replay)?;
    let reason = |candidate| reason(job, &mut bases, candidate, returned_for(candidate, answer)?);
    let reasons = job.candidates().iter().map(reason).collect::<Result<_, _>>()?;
    Ok(Explanation {
        propagation,
        scope: job.scope(),
        settled: replay.is_settled(),
        reasons,
        steps: bases.into_steps(),
        nodes_before_rounds: replay.nodes_before_rounds(),
        added: added::added(job, &replay),
        reads_not_kept: reads_not_kept(job),
        names: job.names().clone(),
    })
}

fn reads_not_kept(job: &Job) -> usize {
    let reads = job.blocks().iter().flat_map(Block::raw_reads);
    reads.filter(|read| !read.is_kept()).count()
}

/// The one returned path with the candidate's identifier and a prefix of its names.
fn returned_for(candidate: &Path, answer: &Answer) -> Result<Path, Mismatch> {
    let mut fitting = answer.iter().filter(|path| path.names_start(candidate));
    match (fitting.next(), fitting.next()) {
        (Some(path), None) => Ok(path.clone()),
        _ => Err(Mismatch),
    }
}

fn reason(job: &Job, bases: &mut Bases, candidate: &Path, returned: Path) -> Result<Reason, Mismatch> {
    let of_entries = bases.of_entries(&returned)?;
    let end = end_of(job, bases, candidate, &returned)?;
    Ok(Reason { candidate: candidate.clone(), returned, bases: of_entries, end })
}

fn end_of(job: &Job, bases: &mut Bases, candidate: &Path, returned: &Path) -> Result<End, Mismatch> {
    if !ends_there(bases, candidate, returned) {
        let ends_there = |other: &Path| returned.names_start(other) && ends_there(bases, other, returned);
        let by = job.candidates().iter().position(ends_there).ok_or(Mismatch)?;
        return Ok(End::Covered { by });
    }
    match candidate.entries().get(returned.entries().len()) {
        None => Ok(End::Whole),
        Some(&entry) => Ok(End::Cut { entry, why: Box::new(bases.unknown(returned)) }),
    }
}

/// Whether the candidate itself ends, or is cut, where the returned path ends.
fn ends_there(bases: &Bases, candidate: &Path, returned: &Path) -> bool {
    let next = candidate.entries().get(returned.entries().len());
    next.is_none_or(|entry| !entry.optional && !bases.is_known(returned))
}
