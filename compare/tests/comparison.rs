//! The comparison: what it tries, and that it sees each kind of difference.
#![cfg(reference)]

mod common;

use common::write;
use compare::comparison::run::{Generated, fixed_jobs, generated_jobs};
use compare::comparison::{Comparison, fixed};
use compare::cover::node_features;
use compare::job::limits;
use compare::library::Stage;
use compare::operation::Operation;
use compare::oracle::Oracle;
use compare::propagation::Propagation::{Existing, Strict};
use std::collections::BTreeSet;

/// A stage that says what the Rust says, and then does something of its own.
struct Spoiled<F> {
    oracle: Oracle,
    spoil: F,
}

impl<F: FnMut(&mut [u8], &mut i64)> Stage for Spoiled<F> {
    fn call(&mut self, operation: Operation, job: &[u8], out: &mut [u8]) -> i64 {
        let mut returned = write(&self.oracle.say(operation, job, out.len()), out);
        (self.spoil)(out, &mut returned);
        returned
    }
}

/// Runs `test` on a comparison with a stage that is spoiled so.
fn with_spoiled<T>(spoil: impl FnMut(&mut [u8], &mut i64), test: impl FnOnce(&mut Comparison) -> T) -> T {
    let mut stage = Spoiled { oracle: Oracle::open().unwrap(), spoil };
    test(&mut Comparison::new(Oracle::open().unwrap(), &mut stage))
}

fn some(class: Option<&str>, count: usize) -> Generated<'_> {
    Generated { seed: 8, first: 0, count, time: None, class }
}

#[test]
fn a_stage_that_says_the_same_agrees() {
    with_spoiled(
        |_, _| (),
        |comparison| {
            assert_eq!(fixed_jobs(comparison).unwrap(), fixed::list().len());
            assert_eq!(generated_jobs(comparison, &some(None, 300)).unwrap().jobs, 300);
        },
    );
}

#[test]
fn each_kind_of_difference_is_seen() {
    let accepted = |returned: &mut i64| *returned > 0;
    let differs = |spoil: &mut dyn FnMut(&mut [u8], &mut i64), part: &str| {
        let mismatch = with_spoiled(spoil, |c| generated_jobs(c, &some(None, 300)).err().unwrap());
        assert!(mismatch.what.contains(part), "{}", mismatch.what);
        assert!(mismatch.what.contains("seed 8, job ") && mismatch.what.contains("--seed 8 --first "));
        assert!(mismatch.file.starts_with("mismatch-seed-8-job-"), "{}", mismatch.file);
    };
    differs(&mut |_, returned| *returned += 1, "the Rust says");
    differs(&mut |_, returned| *returned = if accepted(returned) { *returned } else { -42 }, "returned -42");
    differs(&mut |out, returned| out[4] ^= u8::from(accepted(returned)), "byte 4 is");
    differs(
        &mut |out, returned| {
            if accepted(returned) {
                out[*returned as usize] ^= 0x10;
            }
        },
        "was touched",
    );
    differs(&mut |out, returned| out[limits::OUT_BYTES - 1] ^= u8::from(accepted(returned)), "byte 24575");
    let on_refusal = &mut |out: &mut [u8], returned: &mut i64| {
        if *returned < -1 {
            out[0] ^= 0xff;
        }
    };
    differs(on_refusal, "byte 0 of a buffer");
}

#[test]
fn a_difference_in_one_operation_alone_is_named() {
    let sheets_only = |out: &mut [u8], _: &mut i64| {
        if out.starts_with(b"SH") {
            out[6] += 1;
        }
    };
    let mismatch = with_spoiled(sheets_only, |c| fixed_jobs(c).err().unwrap());
    assert!(mismatch.what.contains(": sheet: byte 6 is"), "{}", mismatch.what);
    assert!(mismatch.what.starts_with("fixed job "));
    assert_eq!(&mismatch.job[..2], b"HD");
    let thin_only = |out: &mut [u8], _: &mut i64| {
        if out.starts_with(b"HD") {
            out[6] ^= 1;
        }
    };
    let mismatch = with_spoiled(thin_only, |c| fixed_jobs(c).err().unwrap());
    assert!(mismatch.what.contains(": thin: byte 6 is"), "{}", mismatch.what);
    assert!(mismatch.what.contains(", the harness says "), "{}", mismatch.what);
}

#[test]
fn a_job_that_differed_is_compared_again_by_its_number() {
    let spoil = |out: &mut [u8], returned: &mut i64| *returned += i64::from(out.starts_with(b"SH"));
    let again = |first| Generated { first, ..some(None, 1) };
    let first = with_spoiled(spoil, |c| generated_jobs(c, &some(None, 50)).err().unwrap());
    let number = first.file.trim_start_matches("mismatch-seed-8-job-").trim_end_matches(".job");
    let second = with_spoiled(spoil, |c| generated_jobs(c, &again(number.parse().unwrap())).err().unwrap());
    assert_eq!(first.job, second.job);
}

#[test]
fn the_fixed_list_has_both_sides_of_each_limit() {
    let mut oracle = Oracle::open().unwrap();
    let (mut refusals, mut nodes, mut rounds) = (BTreeSet::new(), BTreeSet::new(), BTreeSet::new());
    let (mut sizes, mut features) = (BTreeSet::new(), BTreeSet::new());
    for fixed in fixed::list() {
        let all = oracle.all(&fixed.job, fixed.out_len);
        features.extend(node_features(&all));
        let both = all.existing;
        refusals.insert(both.answer.as_ref().err().copied().unwrap_or(0));
        sizes.insert((fixed.job.len(), both.answer.is_ok()));
        if let Some(counts) = both.counts {
            nodes.insert((counts.nodes, counts.made() > 0));
            rounds.insert((counts.rounds, counts.settled));
        }
    }
    assert!(refusals.into_iter().eq(0..=10));
    for count in [511, 512, 513] {
        assert!(nodes.contains(&(count, false)) && nodes.contains(&(count, true)), "{nodes:?}");
    }
    for ended in [(99, true), (100, true), (100, false)] {
        assert!(rounds.contains(&ended), "{rounds:?}");
    }
    assert!(sizes.contains(&(limits::JOB_BYTES, true)) && sizes.contains(&(limits::JOB_BYTES + 1, false)));
    assert!(sizes.contains(&(0, false)));
    // All that there are.
    assert_eq!(features.len(), 17, "{features:?}");
}

#[test]
fn the_fixed_list_has_both_sides_of_each_limit_of_strict_answers() {
    let mut oracle = Oracle::open().unwrap();
    let (mut refusals, mut nodes) = (BTreeSet::new(), BTreeSet::new());
    for fixed in fixed::list() {
        let all = oracle.all(&fixed.job, fixed.out_len);
        refusals.insert(all.strict.answer.as_ref().err().copied().unwrap_or(0));
        if let (Some(existing), Some(strict)) = (all.existing.counts, all.strict.counts) {
            nodes.insert((existing.nodes > limits::NODES, strict.nodes.clamp(511, 513)));
        }
    }
    assert!(refusals.into_iter().eq(0..=10));
    assert!(nodes.into_iter().eq([false, true].into_iter().flat_map(|by| [511, 512, 513].map(|n| (by, n)))));
}

#[test]
fn the_fixed_list_has_both_sides_of_each_limit_of_thin_jobs() {
    let mut oracle = Oracle::open().unwrap();
    let mut met = BTreeSet::new();
    for fixed in fixed::list() {
        let thin = oracle.thin(&fixed.job, fixed.out_len);
        met.insert((fixed.out_len, thin.map_or_else(|number| -i64::from(number), |thin| thin.len() as i64)));
    }
    let refusals: BTreeSet<i64> = met.iter().map(|(_, said)| *said).filter(|said| *said < 0).collect();
    assert!(refusals.into_iter().eq([-10].into_iter().chain(-8..=-1)));
    let longest = limits::JOB_BYTES as i64;
    for out_len in [24_575, 24_576, limits::THIN_BYTES - 1] {
        assert!(met.iter().filter(|(length, _)| *length == out_len).all(|(_, said)| *said == -1));
    }
    for out_len in [limits::THIN_BYTES, limits::THIN_BYTES + 1] {
        assert!(met.contains(&(out_len, longest)) && met.contains(&(out_len, -2)), "{out_len}");
    }
}

#[test]
fn the_worst_jobs_are_accepted_and_reach_the_limits() {
    let mut oracle = Oracle::open().unwrap();
    for propagation in [Existing, Strict] {
        let mut most = 0;
        for (name, job) in compare::worst::jobs() {
            let both = oracle.both(propagation, &job.to_bytes(), limits::OUT_BYTES);
            assert!(both.answer.is_ok(), "{name}: {:?}", both.answer);
            most = most.max(both.counts.unwrap().nodes);
        }
        assert_eq!(most, limits::NODES);
    }
}
