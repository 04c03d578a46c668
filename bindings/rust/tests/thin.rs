//! Thin jobs: what they have, and that the stage says the same of them.

mod common;

use common::{all_bytes, jobs, stored};
use scope_deps::{answer, limits, raw, sheet, strict_answer, strict_sheet, Job, Path, Stage};

fn thin(text: &str) -> String {
    text.parse::<Job>().unwrap().thin().to_string()
}

#[test]
fn repeats_are_dropped_and_the_first_stays() {
    assert_eq!(
        thin("scope 7 block 7 assumes 1@3.10, reactive 1.10@4, 2, 1.10 candidate reactive 5@6, 5, 5@7"),
        "scope 7\nblock 7\n  assumes 1@3.10\n  assumes 2\ncandidate reactive 5@6\n"
    );
    for text in [
        "scope 7 block 7 assumes 1, 1.10, 1?.10, 1.10.10, 1[0], 1[-0], 1.0, 2",
        "scope 7 block 7 assumes 1 block 8 assumes 1 candidate 1",
        "scope 7 block 7 candidate 1[NaN], 1[0x7ff8000000000001]",
    ] {
        let job: Job = text.parse().unwrap();
        assert_eq!(job.thin(), job, "{text}");
    }
}

#[test]
fn raw_reads_stay_and_are_compared_with_nothing() {
    let read = "reads 1 at 3 range 0 to 2 scope 0 to 9";
    let kept = "reads 1 at 3 range 0 to 1";
    let blocks = format!("block 7 {read} {read} {kept} {kept}");
    let job: Job = format!("scope 7 {blocks} assumes 1, 2, 1@5, 2 candidate 1").parse().unwrap();
    let thin: Job = format!("scope 7 {blocks} assumes 1, 2 candidate 1").parse().unwrap();
    assert_eq!(job.thin(), thin, "{}", job.thin());
    assert_eq!(thin.thin(), thin);
    assert_eq!(job.thin().blocks()[0].raw_reads(), job.blocks()[0].raw_reads());
}

#[test]
fn names_are_kept() {
    let job: Job =
        "name 1 athlete name .10 beats scope 7 block 7 candidate athlete.beats, 1.10".parse().unwrap();
    assert_eq!(job.thin().names(), job.names());
    assert_eq!(job.thin().candidates()[0].with_names(job.names()).to_string(), "athlete.beats");
}

/// Whether an earlier path of the list is the same, by what this crate's types say.
fn has_repeat(paths: &[Path]) -> bool {
    let bare = |path: &Path| {
        let entries = path.entries().iter().map(|entry| (entry.property, entry.optional));
        (path.identifier(), entries.collect::<Vec<_>>())
    };
    (0..paths.len()).any(|n| paths[..n].iter().any(|earlier| bare(earlier) == bare(&paths[n])))
}

#[test]
fn a_thin_job_has_no_repeats_and_the_same_answer_and_sheet() {
    let [mut shorter, mut refused, mut differ] = [0; 3];
    for job in jobs(21, 4_000) {
        let thin = job.thin();
        assert_eq!(Job::from_bytes(thin.as_bytes()).unwrap(), thin);
        assert_eq!(thin.to_string().parse::<Job>().unwrap(), thin);
        assert_eq!((answer(&thin), sheet(&thin)), (answer(&job), sheet(&job)));
        assert_eq!((strict_answer(&thin), strict_sheet(&thin)), (strict_answer(&job), strict_sheet(&job)));
        assert_eq!(thin.thin(), thin);
        assert!(!has_repeat(thin.candidates()));
        assert!(thin.blocks().iter().all(|block| !has_repeat(block.assumed())));
        let reads = |job: &Job| -> Vec<_> {
            job.blocks().iter().flat_map(|block| block.raw_reads().to_vec()).collect()
        };
        assert_eq!(reads(&thin), reads(&job));
        let has_repeats = job.blocks().iter().any(|block| has_repeat(block.assumed()));
        assert_eq!(thin == job, !has_repeats && !has_repeat(job.candidates()));
        shorter += usize::from(thin != job);
        refused += usize::from(thin != job && answer(&job).is_err());
        differ += usize::from(thin != job && strict_sheet(&job) != sheet(&job));
    }
    assert!(shorter > 500 && refused > 20 && differ > 20, "{shorter} {refused} {differ}");
}

#[test]
fn bytes_get_the_thin_job_or_the_refusal_from_2_to_8_or_10() {
    let mut stage = Stage::new();
    for bytes in all_bytes(22, 3_000) {
        let due = Job::from_bytes(&bytes).map(|job| job.thin().into_bytes());
        assert_eq!(raw::thin(&bytes), due);
        assert_eq!(stage.thin_bytes(&bytes).map(<[u8]>::to_vec), due);
        if let Ok(job) = Job::from_bytes(&bytes) {
            assert_eq!(stage.thin(&job), due.unwrap());
        }
    }
}

#[test]
fn the_stored_thin_jobs_are_made() {
    let mut made = 0;
    for record in stored().iter().filter(|record| record.out_len >= limits::THIN_BYTES) {
        let Ok(job) = Job::from_bytes(&record.job) else { continue };
        made += 1;
        assert_eq!(job.thin().as_bytes(), record.thin);
    }
    assert!(made > 100, "{made}");
}

#[test]
fn a_buffer_needs_32768_bytes() {
    let job: Job = "scope 7 block 7 assumes 1, 1".parse().unwrap();
    let mut out = vec![7; limits::THIN_BYTES];
    let refusal = raw::thin_into(job.as_bytes(), &mut out[1..]).unwrap_err();
    assert_eq!(refusal.number(), 1);
    assert!(refusal.to_string().contains("fewer than 32,768 where a thin job is to be written"), "{refusal}");
    assert!(out.iter().all(|&byte| byte == 7));
    let length = raw::thin_into(job.as_bytes(), &mut out).unwrap();
    assert_eq!(out[..length], *job.thin().as_bytes());
    assert!(out[length..].iter().all(|&byte| byte == 7));
}
