//! The stage with its buffers, for many jobs.

use crate::answer::Answer;
use crate::interface;
use crate::job::Job;
use crate::limits;
use crate::path::Path;
use crate::raw;
use crate::refusal::{ManyNodes, Refusal};
use crate::sheet::Sheet;
use std::fmt;

/// An operation of the stage: it writes to a buffer what it makes of a job's bytes, and gives the
/// length or the number of a refusal.
type Operation = fn(&[u8], &mut [u8]) -> Result<usize, u8>;

/// The stage, for one job after the other.
///
/// Its buffers are allocated once, when it is made. A job has its bytes already, and the answer or
/// the sheet is read into what the one before has left. A thin job comes as bytes. So no call
/// allocates.
///
/// ```
/// use scope_deps::{Job, Stage};
///
/// let mut stage = Stage::new();
/// for (assumed, returned) in [("1", "1.10"), ("2", "1")] {
///     let job: Job = format!("scope 7 block 7 assumes {assumed} candidate 1.10").parse()?;
///     assert_eq!(stage.answer(&job)?.paths()[0].to_string(), returned);
/// }
/// # Ok::<(), Box<dyn std::error::Error>>(())
/// ```
pub struct Stage {
    out: Vec<u8>,
    answer: Answer,
    /// Paths for later answers.
    spare: Vec<Path>,
    sheet: Sheet,
}

impl Stage {
    /// A stage with room for any answer, any sheet and any thin job.
    #[must_use]
    pub fn new() -> Self {
        let (answer, spare) = Answer::roomy();
        let room = limits::OUT_BYTES.max(limits::THIN_BYTES);
        Self { out: vec![0; room], answer, spare, sheet: Sheet::roomy() }
    }

    /// The answer of a job, until the next call.
    ///
    /// # Errors
    ///
    /// Where the registry has more than 512 nodes when propagation ends.
    ///
    /// # Panics
    ///
    /// Where the library that is linked is another than the stage's of this version.
    pub fn answer(&mut self, job: &Job) -> Result<&Answer, ManyNodes> {
        self.answer_by(interface::answer, job)
    }

    /// The sheet of a job, until the next call.
    ///
    /// # Errors
    ///
    /// Where the registry has more than 512 nodes when propagation ends.
    ///
    /// # Panics
    ///
    /// Where the library that is linked is another than the stage's of this version.
    pub fn sheet(&mut self, job: &Job) -> Result<&Sheet, ManyNodes> {
        self.sheet_by(interface::sheet, job)
    }

    /// The answer of a job by the strict propagation, as [`strict_answer()`] has it, until the next
    /// call.
    ///
    /// # Errors
    ///
    /// Where the registry has more than 512 nodes when the strict propagation ends.
    ///
    /// # Panics
    ///
    /// Where the library that is linked is another than the stage's of this version.
    pub fn strict_answer(&mut self, job: &Job) -> Result<&Answer, ManyNodes> {
        self.answer_by(interface::strict_answer, job)
    }

    /// The sheet of a job by the strict propagation, until the next call.
    ///
    /// # Errors
    ///
    /// Where the registry has more than 512 nodes when the strict propagation ends.
    ///
    /// # Panics
    ///
    /// Where the library that is linked is another than the stage's of this version.
    pub fn strict_sheet(&mut self, job: &Job) -> Result<&Sheet, ManyNodes> {
        self.sheet_by(interface::strict_sheet, job)
    }

    fn answer_by(&mut self, operation: Operation, job: &Job) -> Result<&Answer, ManyNodes> {
        let written = only_many_nodes(operation(job.as_bytes(), &mut self.out))?;
        of_this_version("an answer", self.answer.read(&self.out[..written], &mut self.spare));
        Ok(&self.answer)
    }

    fn sheet_by(&mut self, operation: Operation, job: &Job) -> Result<&Sheet, ManyNodes> {
        let written = only_many_nodes(operation(job.as_bytes(), &mut self.out))?;
        of_this_version("a sheet", self.sheet.read(&self.out[..written]));
        Ok(&self.sheet)
    }

    /// The bytes of a job's thin job, until the next call: what [`Job::thin`] has, without a job
    /// made of them.
    ///
    /// # Panics
    ///
    /// Where the library that is linked is another than the stage's of this version.
    ///
    /// ```
    /// use scope_deps::{Job, Stage};
    ///
    /// let job: Job = "scope 7 block 7 assumes 1, 2, 1".parse()?;
    /// let thin = "scope 7 block 7 assumes 1, 2".parse::<Job>()?;
    /// assert_eq!(Stage::new().thin(&job), thin.as_bytes());
    /// # Ok::<(), Box<dyn std::error::Error>>(())
    /// ```
    pub fn thin(&mut self, job: &Job) -> &[u8] {
        let written = never_refused(interface::thin(job.as_bytes(), &mut self.out));
        &self.out[..written]
    }

    /// The answer's bytes for a job's bytes, until the next call.
    ///
    /// # Errors
    ///
    /// The refusal from 2 to 10 that the stage gives these bytes. To find its place this crate's
    /// reader reads the job, and that allocates.
    pub fn answer_bytes(&mut self, job: &[u8]) -> Result<&[u8], Refusal> {
        let written = raw::answer_into(job, &mut self.out)?;
        Ok(&self.out[..written])
    }

    /// The sheet's bytes for a job's bytes, until the next call.
    ///
    /// # Errors
    ///
    /// As for [`answer_bytes`](Self::answer_bytes).
    pub fn sheet_bytes(&mut self, job: &[u8]) -> Result<&[u8], Refusal> {
        let written = raw::sheet_into(job, &mut self.out)?;
        Ok(&self.out[..written])
    }

    /// The answer's bytes by the strict propagation for a job's bytes, until the next call.
    ///
    /// # Errors
    ///
    /// As for [`answer_bytes`](Self::answer_bytes), but for 9, which counts the nodes of the strict
    /// propagation.
    pub fn strict_answer_bytes(&mut self, job: &[u8]) -> Result<&[u8], Refusal> {
        let written = raw::strict_answer_into(job, &mut self.out)?;
        Ok(&self.out[..written])
    }

    /// The sheet's bytes by the strict propagation for a job's bytes, until the next call.
    ///
    /// # Errors
    ///
    /// As for [`strict_answer_bytes`](Self::strict_answer_bytes).
    pub fn strict_sheet_bytes(&mut self, job: &[u8]) -> Result<&[u8], Refusal> {
        let written = raw::strict_sheet_into(job, &mut self.out)?;
        Ok(&self.out[..written])
    }

    /// The thin job's bytes for a job's bytes, until the next call.
    ///
    /// # Errors
    ///
    /// As for [`answer_bytes`](Self::answer_bytes), but for 9, which does not occur.
    pub fn thin_bytes(&mut self, job: &[u8]) -> Result<&[u8], Refusal> {
        let written = raw::thin_into(job, &mut self.out)?;
        Ok(&self.out[..written])
    }
}

impl Default for Stage {
    fn default() -> Self {
        Self::new()
    }
}

/// Without the buffers, which say nothing between calls.
impl fmt::Debug for Stage {
    fn fmt(&self, f: &mut fmt::Formatter<'_>) -> fmt::Result {
        f.debug_struct("Stage").finish_non_exhaustive()
    }
}

/// What was read of bytes that the stage wrote. One of another version may write other bytes.
fn of_this_version<T, E: fmt::Display>(what: &str, read: Result<T, E>) -> T {
    read.unwrap_or_else(|fault| {
        panic!(
            "the library that is linked is not of this version, and has to be made anew: \
             it wrote {what} that is not of the format here ({fault})"
        )
    })
}

/// What the stage returned for a job that was built: a length, or refusal 9.
fn only_many_nodes(returned: Result<usize, u8>) -> Result<usize, ManyNodes> {
    returned.map_err(|number| {
        assert_eq!(number, ManyNodes::NUMBER, "the stage refuses a job that was built by 9 only");
        ManyNodes
    })
}

/// What the stage returned for the thin job of a job that was built: a length.
fn never_refused(returned: Result<usize, u8>) -> usize {
    returned.unwrap_or_else(|number| panic!("the stage has a thin job of each job, but refused by {number}"))
}

impl Job {
    /// The job without repeats: in each block, and among the candidates, a path is dropped where an
    /// earlier one of the same list has the same variable and the same entries. Optional marks
    /// count; spans and whether a path is reactive do not, and the first keeps its own. Raw reads
    /// are compared with nothing, and all stay.
    ///
    /// The thin job has the answer and the sheet of this one, by either propagation, or is refused
    /// by 9 as this one is, and its thin job is itself. Names are kept. For many jobs,
    /// [`Stage::thin`] gives its bytes without allocating.
    ///
    /// # Panics
    ///
    /// Where the library that is linked is another than the stage's of this version.
    ///
    /// ```
    /// use scope_deps::{answer, Job};
    ///
    /// let job: Job = "
    ///     name 1 athlete
    ///     scope 7
    ///     block 7 assumes reactive athlete@3, athlete?.10, athlete@8
    ///     candidate athlete.10@5, athlete.11, athlete.10@9".parse()?;
    /// let thin = job.thin();
    /// assert_eq!(
    ///     thin.to_string(),
    ///     "name 1 athlete\nscope 7\nblock 7\n  assumes reactive athlete@3\n  assumes athlete?.10\n\
    ///      candidate athlete.10@5\ncandidate athlete.11\n"
    /// );
    /// assert_eq!(answer(&thin)?, answer(&job)?);
    /// assert_eq!(thin.thin(), thin);
    /// # Ok::<(), Box<dyn std::error::Error>>(())
    /// ```
    #[must_use]
    pub fn thin(&self) -> Job {
        let mut out = vec![0; limits::THIN_BYTES];
        let written = never_refused(interface::thin(self.as_bytes(), &mut out));
        let thin = of_this_version("a job", Job::from_bytes(&out[..written]));
        thin.named(self.names().clone())
    }
}

/// The answer of a job.
///
/// For many jobs, [`Stage`] does the same without allocating.
///
/// # Errors
///
/// Where the registry has more than 512 nodes when propagation ends. A [`Job`] is refused for
/// nothing else.
///
/// # Panics
///
/// Where the library that is linked is another than the stage's of this version.
///
/// ```
/// use scope_deps::{answer, Job};
///
/// let job: Job = "scope 7 block 7 assumes 1 candidate 1?.10@6".parse()?;
/// let answer = answer(&job)?;
/// assert!(answer.is_settled());
/// for path in &answer {
///     assert_eq!(path.to_string(), "1@6.10@6");
/// }
/// # Ok::<(), Box<dyn std::error::Error>>(())
/// ```
pub fn answer(job: &Job) -> Result<Answer, ManyNodes> {
    answer_by(interface::answer, job)
}

/// The sheet of a job.
///
/// # Errors
///
/// Where the answer is refused too: the registry has more than 512 nodes when propagation ends.
///
/// # Panics
///
/// Where the library that is linked is another than the stage's of this version.
///
/// ```
/// use scope_deps::{sheet, BlockId, Job};
///
/// let job: Job = "scope 1 block 0 assumes 1, 1?.10 block 1 after 0".parse()?;
/// let sheet = sheet(&job)?;
/// // Since 1 is known, reduction makes `?.10` plain, and block 1 has both from block 0.
/// let known: Vec<String> = sheet.paths(BlockId(1)).map(|path| path.to_string()).collect();
/// assert_eq!(known, ["1", "1.10"]);
/// # Ok::<(), Box<dyn std::error::Error>>(())
/// ```
pub fn sheet(job: &Job) -> Result<Sheet, ManyNodes> {
    sheet_by(interface::sheet, job)
}

/// The answer of a job by the strict propagation, which is safe where the job has loops, too.
///
/// A block takes paths over from its neighbours only where it has one and every one of them is
/// done; the existing propagation, that of [`answer`], takes them over from those that are. So no
/// returned path throws on a finite run from a block with no predecessor, by way of the scope
/// block, to one with no successor, where what the run's blocks assume is there. Where a job has no
/// loops, both give the same.
///
/// # Errors
///
/// Where the registry has more than 512 nodes when the strict propagation ends. That may be more
/// nodes than by the existing one, or fewer. A [`Job`] is refused for nothing else.
///
/// # Panics
///
/// Where the library that is linked is another than the stage's of this version.
///
/// ```
/// use scope_deps::{answer, strict_answer, Job};
///
/// // Block 1 is its own predecessor, and not done when it takes over.
/// let job: Job = "scope 1 block 0 assumes 1 block 1 after 1, 0 candidate 1.10".parse()?;
/// assert_eq!(answer(&job)?.to_string(), "rounds 2, settled\nreturned 1.10\n");
/// assert_eq!(strict_answer(&job)?.to_string(), "rounds 1, settled\nreturned 1\n");
/// # Ok::<(), Box<dyn std::error::Error>>(())
/// ```
pub fn strict_answer(job: &Job) -> Result<Answer, ManyNodes> {
    answer_by(interface::strict_answer, job)
}

/// The sheet of a job by the strict propagation.
///
/// # Errors
///
/// Where the strict answer is refused too: the registry has more than 512 nodes when the strict
/// propagation ends.
///
/// # Panics
///
/// Where the library that is linked is another than the stage's of this version.
///
/// ```
/// use scope_deps::{strict_sheet, Job};
///
/// let job: Job = "scope 1 block 0 assumes 1 block 1 after 1, 0".parse()?;
/// let sheet = strict_sheet(&job)?;
/// assert_eq!(
///     sheet.to_string(),
///     "rounds 1, settled\nnodes 1: 1 before the first round, 0 added by reduction\nnode 0 1\n\
///      block 0 holds 1\nblock 1 holds nothing\n"
/// );
/// # Ok::<(), Box<dyn std::error::Error>>(())
/// ```
pub fn strict_sheet(job: &Job) -> Result<Sheet, ManyNodes> {
    sheet_by(interface::strict_sheet, job)
}

fn answer_by(operation: Operation, job: &Job) -> Result<Answer, ManyNodes> {
    let mut out = vec![0; limits::OUT_BYTES];
    let written = only_many_nodes(operation(job.as_bytes(), &mut out))?;
    Ok(of_this_version("an answer", Answer::from_bytes(&out[..written])))
}

fn sheet_by(operation: Operation, job: &Job) -> Result<Sheet, ManyNodes> {
    let mut out = vec![0; limits::OUT_BYTES];
    let written = only_many_nodes(operation(job.as_bytes(), &mut out))?;
    Ok(of_this_version("a sheet", Sheet::from_bytes(&out[..written])))
}
