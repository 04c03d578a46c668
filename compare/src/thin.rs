//! Thin jobs: a job without repeated paths, written from the request's sentences alone.
//!
//! What makes two paths the same is the Rust's to say (`reference::thinned`). Where the Rust is
//! absent, `same_path` stands in for it.

use crate::job::{Block, Entry, Job, Path, limits};
use crate::oracle::Said;
use crate::reader::{Refusal, read_job_for};

/// The thin job by `same_path`, which needs no Rust.
pub fn thin(bytes: &[u8], out_len: usize) -> Said {
    let job = read_job_to_thin(bytes, out_len)?;
    Ok(thinned(&job, |paths| kept(paths, same_path)).to_bytes())
}

/// The job in `bytes`, for a thin job in an out buffer of `out_len` bytes.
pub fn read_job_to_thin(bytes: &[u8], out_len: usize) -> Result<Job, Refusal> {
    read_job_for(bytes, out_len, limits::THIN_BYTES)
}

/// The job with those paths of each list that `kept` keeps. A list is the paths that come ready in
/// one block, or the candidates. Raw reads are compared with nothing and stay as they are.
pub fn thinned(job: &Job, kept: impl Fn(&[Path]) -> Vec<bool>) -> Job {
    let paths = |paths: &[Path]| {
        let stays = kept(paths);
        paths.iter().zip(stays).filter(|(_, stays)| *stays).map(|(path, _)| path.clone()).collect()
    };
    let block = |block: &Block| Block { assumed: paths(&block.assumed), ..block.clone() };
    Job {
        scope: job.scope,
        blocks: job.blocks.iter().map(block).collect(),
        candidates: paths(&job.candidates),
    }
}

/// For each path whether it stays: that no earlier one is the same.
pub fn kept<P>(paths: &[P], same: impl Fn(&P, &P) -> bool) -> Vec<bool> {
    let stays = |(place, path)| !paths[..place].iter().any(|earlier| same(earlier, path));
    paths.iter().enumerate().map(stays).collect()
}

/// Whether two paths have the same identifier and equal entries.
pub fn same_path(a: &Path, b: &Path) -> bool {
    let equal = |(a, b): (&Entry, &Entry)| (a.property, a.optional) == (b.property, b.optional);
    let all_equal = || a.entries.iter().zip(&b.entries).all(equal);
    a.identifier == b.identifier && a.entries.len() == b.entries.len() && all_equal()
}

#[cfg(test)]
mod tests {
    use super::*;
    use crate::notation::{self, block, dropped, job, path, paths, text};

    fn kept_text(list: &str) -> String {
        let paths = paths(list);
        let stays = kept(&paths, same_path);
        let left = paths.iter().zip(stays).filter(|(_, stays)| *stays);
        left.map(|(path, _)| text(path)).collect::<Vec<_>>().join(", ")
    }

    #[test]
    fn a_repeat_is_dropped_wherever_it_stands() {
        assert_eq!(kept_text("1, 1"), "1");
        assert_eq!(kept_text("1.10, 1.11, 1.10, 1.10, 1.11"), "1.10, 1.11");
        assert_eq!(kept_text("1?.10[0x0], 1, 1?.10[0x0]"), "1?.10[0x0], 1");
    }

    #[test]
    fn what_differs_in_identifier_or_entries_stays() {
        let apart = "1, 2, 1.10, 1?.10, 1.10.10, 1.10?.10, 1[0x0], 1[0x8000000000000000], 1.0, 1[0xa]";
        assert_eq!(kept_text(apart), apart);
    }

    #[test]
    fn the_first_stays_with_its_spans_and_its_reactive() {
        let mut paths = vec![path("1.10"); 3];
        (paths[0].span, paths[0].reactive, paths[1].span) = (3, true, 4);
        paths[2].entries[0].span = 5;
        let whole = Job { candidates: paths.clone(), ..job(7, vec![block(7, &[], "")], "") };
        let thin = thin(&whole.to_bytes(), limits::THIN_BYTES).unwrap();
        paths.truncate(1);
        assert_eq!(thin, Job { candidates: paths, ..whole }.to_bytes());
    }

    #[test]
    fn lists_are_thinned_apart() {
        let whole = job(7, vec![block(7, &[8], "1, 1"), block(8, &[], "1, 2, 1")], "2, 1, 2");
        let left = job(7, vec![block(7, &[8], "1"), block(8, &[], "1, 2")], "2, 1");
        assert_eq!(thin(&whole.to_bytes(), limits::THIN_BYTES), Ok(left.to_bytes()));
        assert_eq!(thin(&left.to_bytes(), limits::THIN_BYTES), Ok(left.to_bytes()));
    }

    #[test]
    fn raw_reads_are_copied_and_compared_with_nothing() {
        let reads = || vec![notation::kept("1"), notation::kept("1"), dropped("1"), dropped("1@3")];
        let with_reads = |assumed| job(7, vec![block(7, &[], assumed).reading(reads())], "1");
        let thin = thin(&with_reads("1, 2, 1@4").to_bytes(), limits::THIN_BYTES);
        assert_eq!(thin, Ok(with_reads("1, 2").to_bytes()));
    }

    #[test]
    fn refusals_are_the_readers_with_a_longer_buffer() {
        let bytes = job(7, vec![block(7, &[], "1")], "1").to_bytes();
        assert_eq!(thin(&bytes, limits::THIN_BYTES - 1), Err(1));
        assert_eq!(thin(&[0; limits::JOB_BYTES + 1], 0), Err(1));
        assert_eq!(thin(&[0; limits::JOB_BYTES + 1], limits::THIN_BYTES), Err(2));
        assert_eq!(thin(&bytes[..bytes.len() - 1], limits::THIN_BYTES), Err(3));
        assert_eq!(thin(&[&bytes[..], &[0]].concat(), limits::THIN_BYTES), Err(6));
        let mut largest = notation::kept("1");
        largest.range_start = u32::MAX;
        let largest = job(8, vec![block(7, &[], "").reading(vec![largest])], "").to_bytes();
        assert_eq!(thin(&largest, limits::THIN_BYTES), Err(10));
        let unknown = job(8, vec![block(7, &[], "1")], "").to_bytes();
        assert_eq!(thin(&unknown, limits::THIN_BYTES), Err(8));
    }
}
