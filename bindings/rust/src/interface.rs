//! The scope-dependency stage, for Rust on x86-64.
//!
//! `answer`, `sheet`, `strict_answer`, `strict_sheet` and `thin` take a job and an out
//! buffer and give the number of bytes written, or the number of the refusal.
//! `docs/FORMAT.md` has the bytes of jobs, answers, sheets and thin jobs.
//!
//! A package takes this file as a module (`#[path = "…/interface/scope_deps.rs"]`)
//! and links `libstage.a`, which `bin/library` proves and writes to `target/staticlib`.

/// For answers and sheets: an out buffer of fewer bytes is refused by 1, and none is longer.
pub const OUT_BYTES: usize = 24_576;

/// The same for a thin job.
pub const THIN_BYTES: usize = 32_768;

/// A job of more bytes is refused by 2.
pub const JOB_BYTES: usize = 32_768;

unsafe extern "C" {
    /// Writes the answer to the start of `out` and returns its length, or minus the
    /// number of the refusal.
    ///
    /// # Safety
    ///
    /// Neither pointer is null, not even where its length is 0. `job` points to
    /// `job_len` bytes that can be read, `out` to `out_len` bytes that can be read
    /// and written. The two do not overlap, and nothing else writes to either
    /// during the call.
    pub fn scope_deps_answer(job: *const u8, job_len: usize, out: *mut u8, out_len: usize) -> i64;

    /// The same for the sheet.
    ///
    /// # Safety
    ///
    /// As for `scope_deps_answer`.
    pub fn scope_deps_sheet(job: *const u8, job_len: usize, out: *mut u8, out_len: usize) -> i64;

    /// The same for the answer by the strict propagation.
    ///
    /// # Safety
    ///
    /// As for `scope_deps_answer`.
    pub fn scope_deps_strict_answer(job: *const u8, job_len: usize, out: *mut u8, out_len: usize) -> i64;

    /// The same for the sheet by the strict propagation.
    ///
    /// # Safety
    ///
    /// As for `scope_deps_answer`.
    pub fn scope_deps_strict_sheet(job: *const u8, job_len: usize, out: *mut u8, out_len: usize) -> i64;

    /// The same for the thin job, whose shortest buffer has `THIN_BYTES` bytes.
    ///
    /// # Safety
    ///
    /// As for `scope_deps_answer`.
    pub fn scope_deps_thin(job: *const u8, job_len: usize, out: *mut u8, out_len: usize) -> i64;
}

/// Writes the answer of `job` to the start of `out`.
///
/// Gives the number of bytes written, or the number of the refusal, 1 to 10. Bytes of
/// `out` beyond that number stay as they were; at a refusal all of them do. Any bytes
/// and any lengths are allowed. The call takes no memory but stack,
/// at most 64 KiB as measured.
pub fn answer(job: &[u8], out: &mut [u8]) -> Result<usize, u8> {
    // SAFETY: a slice's pointer is not null and good for its length, and `out` is
    // borrowed alone.
    outcome(unsafe { scope_deps_answer(job.as_ptr(), job.len(), out.as_mut_ptr(), out.len()) })
}

/// Writes the sheet of `job` to the start of `out`, on the same terms. It is refused
/// where the answer is. The last field of its head, the u16 at byte 8, says how many nodes
/// there were before the first round; the nodes from that number on were added by reduction.
pub fn sheet(job: &[u8], out: &mut [u8]) -> Result<usize, u8> {
    // SAFETY: as in `answer`.
    outcome(unsafe { scope_deps_sheet(job.as_ptr(), job.len(), out.as_mut_ptr(), out.len()) })
}

/// Writes the answer of `job` by the strict propagation to the start of `out`, on the same
/// terms. A block then takes paths over from the blocks before it, or after it, only where it
/// has one and all of them are finished. So no returned path throws where the job has loops,
/// either, on any finite run from a block with no predecessor, by way of the scope block, to a
/// block with no successor, where what the run's blocks assume is there. Where the job has no
/// loops the bytes are those of `answer`. With loops a returned path may be shorter, or where
/// optional chains are assumed longer.
///
/// Refusal 9 counts the nodes of the strict propagation, which may be more or fewer, so that
/// each of the two may refuse a job that the other answers.
pub fn strict_answer(job: &[u8], out: &mut [u8]) -> Result<usize, u8> {
    let (job_len, out_len) = (job.len(), out.len());
    // SAFETY: as in `answer`.
    outcome(unsafe { scope_deps_strict_answer(job.as_ptr(), job_len, out.as_mut_ptr(), out_len) })
}

/// Writes the sheet of `job` by the strict propagation to the start of `out`, on the same
/// terms. It is refused where the strict answer is.
pub fn strict_sheet(job: &[u8], out: &mut [u8]) -> Result<usize, u8> {
    let (job_len, out_len) = (job.len(), out.len());
    // SAFETY: as in `answer`.
    outcome(unsafe { scope_deps_strict_sheet(job.as_ptr(), job_len, out.as_mut_ptr(), out_len) })
}

/// Writes the thin job of `job` to the start of `out`, on the same terms: the same job,
/// but in each block, and among the candidates, without each path whose identifier and
/// entries (optional marks counted, spans not) an earlier path of the same list has. Raw
/// reads are compared with nothing, and all stay.
///
/// Its answer and its sheet are those of `job`, by either propagation, or it is refused by 9
/// as `job` is. The thin job of a thin job is that job. Refusal 1 is that of a buffer of fewer than
/// `THIN_BYTES` bytes, and 9 does not occur.
pub fn thin(job: &[u8], out: &mut [u8]) -> Result<usize, u8> {
    // SAFETY: as in `answer`.
    outcome(unsafe { scope_deps_thin(job.as_ptr(), job.len(), out.as_mut_ptr(), out.len()) })
}

/// A length, or minus a refusal's number, as a result.
fn outcome(returned: i64) -> Result<usize, u8> {
    usize::try_from(returned).map_err(|_| returned.unsigned_abs() as u8)
}
