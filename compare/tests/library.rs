//! The stage's library, through the interface that other Rust programs use.
#![cfg(library)]

mod common;

use common::hex;
use compare::library::interface::{OUT_BYTES, THIN_BYTES, answer, sheet, strict_answer, strict_sheet, thin};

const EXAMPLE: &str = "4844 0100 0100 07000000 / 424C 07000000 00 01 00 / 5041 01000000 01 00000000 00 /
    4341 01000000 01 05000000 01 00 00 0A00000000000000 06000000";

#[test]
fn the_bytes_case() {
    let job = hex(EXAMPLE);
    let mut out = vec![7; OUT_BYTES];
    let due = hex("414E 0100 01 01 / 4445 01000000 01 06000000 01 00 00 0A00000000000000 06000000");
    assert_eq!(answer(&job, &mut out), Ok(due.len()));
    assert_eq!(out[..due.len()], due);
    assert!(out[due.len()..].iter().all(|&byte| byte == 7));
    assert_eq!(sheet(&job, &mut out), Ok(10 + 23 + 70));
    assert_eq!(out[..2], *b"SH");
}

/// The example with its path and its candidate a second time.
#[test]
fn the_bytes_case_of_a_thin_job() {
    let twice = hex("4844 0100 0200 07000000 / 424C 07000000 00 02 00 / 5041 01000000 01 00000000 00 /
        5041 01000000 00 09000000 00 / 4341 01000000 01 05000000 01 00 00 0A00000000000000 06000000 /
        4341 01000000 01 07000000 01 00 00 0A00000000000000 08000000");
    let due = hex(EXAMPLE);
    for job in [&twice, &due] {
        let mut out = vec![7; THIN_BYTES];
        assert_eq!(thin(job, &mut out), Ok(due.len()));
        assert_eq!(out[..due.len()], due);
        assert!(out[due.len()..].iter().all(|&byte| byte == 7));
        assert_eq!(thin(job, &mut out[1..]), Err(1));
    }
}

/// Block 0 assumes 1; block 1 comes after itself and after 0. The candidate 1.10 is cut strictly.
#[test]
fn the_bytes_case_of_a_strict_answer() {
    let job = hex(
        "4844 0200 0100 01000000 / 424C 00000000 00 01 00 / 5041 01000000 01 00000000 00 /
        424C 01000000 02 00 00 01000000 00000000 / 4341 01000000 01 05000000 01 00 00 0A00000000000000 06000000",
    );
    let mut out = vec![7; OUT_BYTES];
    let mut said = |operation: fn(&[u8], &mut [u8]) -> Result<usize, u8>| {
        out.fill(7);
        let length = operation(&job, &mut out).unwrap();
        assert!(out[length..].iter().all(|&byte| byte == 7));
        out[..length].to_vec()
    };
    let existing = "414E 0100 02 01 / 4445 01000000 01 06000000 01 00 00 0A00000000000000 06000000";
    assert_eq!(said(answer), hex(existing));
    assert_eq!(said(strict_answer), hex("414E 0100 01 01 / 4445 01000000 01 05000000 00"));
    let (sheet, strict_sheet) = (said(sheet), said(strict_sheet));
    assert_eq!([sheet.len(), strict_sheet.len()], [10 + 23 + 2 * 70; 2]);
    let in_sets = |sheet: &[u8]| [sheet[10 + 23 + 6], sheet[10 + 23 + 70 + 6]];
    assert_eq!((in_sets(&sheet), in_sets(&strict_sheet)), ([1, 1], [1, 0]));
}

/// Block 7 reads 1 and 2 at 3, in a scope from 0 to 9: the range of the first is short, that of the
/// second is not, so 2 is dropped.
#[test]
fn the_bytes_case_of_raw_reads() {
    let job = hex("4844 0100 0200 07000000 / 424C 07000000 00 00 02 /
        5244 03000000 00000000 01000000 01 00000000 09000000 00 01000000 00 00000000 00 /
        5244 03000000 00000000 02000000 01 00000000 09000000 00 02000000 00 00000000 00 /
        4341 01000000 00 00000000 01 00 00 0A00000000000000 00000000 /
        4341 02000000 00 00000000 01 00 00 0A00000000000000 00000000");
    let due = hex("414E 0200 01 01 / 4445 01000000 00 00000000 01 00 00 0A00000000000000 00000000 /
        4445 02000000 00 00000000 00");
    let mut out = vec![7; THIN_BYTES];
    for operation in [answer, strict_answer] {
        assert_eq!(operation(&job, &mut out), Ok(due.len()));
        assert_eq!(out[..due.len()], due);
    }
    assert_eq!(thin(&job, &mut out), Ok(job.len()));
    assert_eq!(out[..job.len()], job);
    let mut refused = job.clone();
    refused[25..29].fill(0xff);
    let before = out.clone();
    for operation in [answer, sheet, strict_answer, strict_sheet, thin] {
        assert_eq!(operation(&refused, &mut out), Err(10));
    }
    assert_eq!(out, before);
}

#[test]
fn refusals_are_numbers_and_leave_the_buffer() {
    let job = hex(EXAMPLE);
    let mut out = vec![7; OUT_BYTES];
    assert_eq!(answer(&job, &mut []), Err(1));
    assert_eq!(sheet(&job, &mut out[1..]), Err(1));
    assert_eq!(answer(&[0; 32_769], &mut out), Err(2));
    assert_eq!(sheet(&[], &mut out), Err(3));
    assert_eq!(answer(b"XX", &mut out), Err(4));
    assert_eq!(thin(&job, &mut out), Err(1));
    assert_eq!(strict_answer(&job, &mut out[1..]), Err(1));
    assert_eq!(strict_sheet(&job[1..], &mut out), Err(4));
    assert!(out.iter().all(|&byte| byte == 7));
}

#[cfg(reference)]
#[test]
fn some_jobs_agree_with_the_rust() {
    use compare::comparison::Comparison;
    use compare::comparison::run::{Generated, fixed_jobs, generated_jobs};
    use compare::library::Library;
    use compare::oracle::Oracle;

    let mut library = Library::open().unwrap();
    let mut comparison = Comparison::new(Oracle::open().unwrap(), &mut library);
    fixed_jobs(&mut comparison).unwrap();
    let asked = Generated { seed: 4, first: 0, count: 1500, time: None, class: None };
    assert_eq!(generated_jobs(&mut comparison, &asked).unwrap().jobs, 1500);
}

/// How many nodes a job has in the end, where it is accepted.
#[cfg(reference)]
fn nodes(job: &[u8]) -> Option<usize> {
    use compare::job::limits;
    use compare::oracle::Oracle;
    use compare::propagation::Propagation;

    let both = Oracle::open().unwrap().both(Propagation::Existing, job, limits::OUT_BYTES);
    both.answer.ok().and(both.counts).map(|counts| counts.nodes)
}

#[cfg(reference)]
#[test]
fn times_are_measured_and_plotted() {
    use compare::bench::{Timer, classes, geometric_mean, plot};

    let mut timer = Timer::new(1);
    let job = hex(EXAMPLE);
    let times = timer.time(&job);
    assert!(times.library > 0.0 && times.rust() > times.rust_stage);
    let svg = plot::svg(&[(job.len(), times), (10 * job.len(), times)]);
    assert!(svg.starts_with("<svg") && svg.ends_with("</svg>\n") && svg.matches("<circle").count() == 6);
    assert!((geometric_mean([2.0, 8.0]) - 4.0).abs() < 1e-9);
    let all = classes::classes(1, 2, nodes);
    assert!(all.iter().all(|class| class.jobs.len() == 2));
    assert_eq!(all.last().unwrap().name, classes::REFUSED);
}

#[cfg(reference)]
#[test]
fn what_the_rust_has_not_is_timed_beside_the_harness() {
    use compare::bench::beside::BesideTimer;
    use compare::bench::classes::{classes, thin_classes};
    use compare::operation::Operation;
    use compare::oracle::Oracle;

    let timed = [(Operation::Thin, thin_classes(1, 2)), (Operation::StrictAnswer, classes(1, 2, nodes))];
    for (operation, classes) in timed {
        let mut timer = BesideTimer::new(Oracle::open().unwrap(), operation, 1);
        for class in classes {
            let times = timer.mean(&class.jobs);
            assert!(times.library > 0.0 && times.harness > 0.0, "{}", class.name);
        }
    }
}
