//! The five operations on bytes, for those who have bytes.
//!
//! Any bytes are allowed. A refusal of 3 to 8 or 10 says where in the job it was met.

use crate::bytes;
use crate::interface;
use crate::limits;
use crate::refusal::Refusal;

/// The answer's bytes for a job's bytes.
///
/// # Errors
///
/// The refusal from 2 to 10 that the stage gives these bytes.
///
/// ```
/// let refusal = scope_deps::raw::answer(b"HD\x01\x00\x41\x00").unwrap_err();
/// assert_eq!(refusal.number(), 5);
/// assert_eq!(
///     refusal.to_string(),
///     "refusal 5, OutOfRange: a field's value is outside its range; \
///      at byte 4, in the HD record: how many candidates (0 to 64), found 65"
/// );
/// ```
pub fn answer(job: &[u8]) -> Result<Vec<u8>, Refusal> {
    written(limits::OUT_BYTES, |out| answer_into(job, out))
}

/// The sheet's bytes for a job's bytes.
///
/// # Errors
///
/// As for [`answer`].
pub fn sheet(job: &[u8]) -> Result<Vec<u8>, Refusal> {
    written(limits::OUT_BYTES, |out| sheet_into(job, out))
}

/// The answer's bytes by the strict propagation, as [`strict_answer`](crate::strict_answer) has
/// them, for a job's bytes.
///
/// # Errors
///
/// The refusal from 2 to 10 that the stage gives these bytes. 9 counts the nodes of the strict
/// propagation; the others are those of [`answer`].
///
/// ```
/// use scope_deps::{raw, Job};
///
/// let with_loop: Job = "scope 1 block 0 assumes 1 block 1 after 1, 0 candidate 1.10".parse()?;
/// assert_ne!(raw::strict_answer(with_loop.as_bytes())?, raw::answer(with_loop.as_bytes())?);
/// let without: Job = "scope 1 block 0 assumes 1 block 1 after 0 candidate 1.10".parse()?;
/// assert_eq!(raw::strict_answer(without.as_bytes())?, raw::answer(without.as_bytes())?);
/// # Ok::<(), Box<dyn std::error::Error>>(())
/// ```
pub fn strict_answer(job: &[u8]) -> Result<Vec<u8>, Refusal> {
    written(limits::OUT_BYTES, |out| strict_answer_into(job, out))
}

/// The sheet's bytes by the strict propagation for a job's bytes.
///
/// # Errors
///
/// As for [`strict_answer`].
pub fn strict_sheet(job: &[u8]) -> Result<Vec<u8>, Refusal> {
    written(limits::OUT_BYTES, |out| strict_sheet_into(job, out))
}

/// The bytes of the thin job for a job's bytes: the same job without repeated paths, as
/// [`Job::thin`](crate::Job::thin) has it.
///
/// # Errors
///
/// The refusal from 2 to 10 that the stage gives these bytes. 9 does not occur.
///
/// ```
/// use scope_deps::{raw, Job};
///
/// let job: Job = "scope 7 block 7 assumes 1, 1@9 candidate 1.10".parse()?;
/// let thin: Job = "scope 7 block 7 assumes 1 candidate 1.10".parse()?;
/// assert_eq!(raw::thin(job.as_bytes())?, thin.as_bytes());
/// assert_eq!(raw::answer(job.as_bytes())?, raw::answer(thin.as_bytes())?);
/// # Ok::<(), Box<dyn std::error::Error>>(())
/// ```
pub fn thin(job: &[u8]) -> Result<Vec<u8>, Refusal> {
    written(limits::THIN_BYTES, |out| thin_into(job, out))
}

/// Writes the answer to the start of `out` and gives its length. Bytes beyond it stay as they were;
/// at a refusal all do.
///
/// The stage itself takes no memory but stack.
///
/// # Errors
///
/// The refusal from 1 to 10 that the stage gives these bytes. A buffer of fewer than
/// [`limits::OUT_BYTES`] bytes is refused by 1.
pub fn answer_into(job: &[u8], out: &mut [u8]) -> Result<usize, Refusal> {
    interface::answer(job, out).map_err(|number| refusal(number, job))
}

/// Writes the sheet to the start of `out`, on the same terms.
///
/// # Errors
///
/// As for [`answer_into`].
pub fn sheet_into(job: &[u8], out: &mut [u8]) -> Result<usize, Refusal> {
    interface::sheet(job, out).map_err(|number| refusal(number, job))
}

/// Writes the answer by the strict propagation to the start of `out`, on the same terms.
///
/// # Errors
///
/// As for [`answer_into`], but for 9, which counts the nodes of the strict propagation.
pub fn strict_answer_into(job: &[u8], out: &mut [u8]) -> Result<usize, Refusal> {
    interface::strict_answer(job, out).map_err(|number| refusal(number, job))
}

/// Writes the sheet by the strict propagation to the start of `out`, on the same terms.
///
/// # Errors
///
/// As for [`strict_answer_into`].
pub fn strict_sheet_into(job: &[u8], out: &mut [u8]) -> Result<usize, Refusal> {
    interface::strict_sheet(job, out).map_err(|number| refusal(number, job))
}

/// Writes the thin job to the start of `out`, on the same terms.
///
/// # Errors
///
/// The refusal from 1 to 10 that the stage gives these bytes. A buffer of fewer than
/// [`limits::THIN_BYTES`] bytes is refused by 1, and 9 does not occur.
pub fn thin_into(job: &[u8], out: &mut [u8]) -> Result<usize, Refusal> {
    interface::thin(job, out).map_err(|number| refusal(number, job))
}

/// What is written to a buffer of this length.
fn written(room: usize, write: impl Fn(&mut [u8]) -> Result<usize, Refusal>) -> Result<Vec<u8>, Refusal> {
    let mut out = vec![0; room];
    let length = write(&mut out)?;
    out.truncate(length);
    Ok(out)
}

/// The refusal of this number, with its place where this crate's reader refuses by the same number.
fn refusal(number: u8, job: &[u8]) -> Refusal {
    let refusal = Refusal::from_number(number).expect("the stage has ten refusals");
    match bytes::read_job(job) {
        Err(placed) if placed.number() == number => placed,
        _ => refusal,
    }
}
