//! Thin jobs: the examples of src/examples.rs, the generator's class, and that the comparison sees
//! each way to thin a job that is nearly right.
#![cfg(reference)]

mod common;

use common::{block, job, write};
use compare::comparison::Comparison;
use compare::comparison::run::{Generated, fixed_jobs, generated_jobs};
use compare::cover::nearly_right;
use compare::examples::{Example, examples};
use compare::generate::generate;
use compare::job::{Job, limits};
use compare::library::Stage;
use compare::operation::Operation;
use compare::oracle::{Oracle, Said};
use compare::propagation::Propagation::{Existing, Strict};
use compare::reader::{MANY_NODES, read_job};
use compare::thin;

fn thin_of(example: &Example) -> Said {
    Oracle::open().unwrap().thin(&example.job.to_bytes(), example.out_len)
}

fn example(name: &str) -> Example {
    examples().into_iter().find(|example| example.name == name).unwrap()
}

/// What is left of each example of one block: its assumed paths, and its candidates.
const LEFT: [(&str, &str, &str); 17] = [
    ("repeats-in-block-and-candidates", "reactive 1", "reactive 1@5.10@6"),
    ("repeat-of-other-span", "1@3.10", "2@3"),
    ("repeat-of-other-entry-span", "1.10@3.11", "1.10"),
    ("repeat-of-other-reactive", "1.10", "reactive 2"),
    ("three-times", "1.10", "2"),
    ("repeat-after-another", "1.10, 1.11", "2, 3"),
    ("repeat-of-a-nan", "1[0x7ff8000000000000]", ""),
    ("other-identifier", "1.10, 2.10", "1, 2"),
    ("other-name", "1.10.11, 1.12.11, 1.10.12", "1.10, 1.11"),
    ("other-mark", "1.10.11, 1?.10.11, 1.10?.11", "1.10, 1?.10"),
    ("other-zero", "1[0x0], 1[0x8000000000000000]", "2[0x8000000000000000], 2[0x0]"),
    ("other-nan", "1[0x7ff8000000000000], 1[0x7ff8000000000001]", ""),
    ("name-zero-and-number-zero", "1.0, 1[0x0]", "2[0x0], 2.0"),
    ("other-length", "1, 1.10, 1.10.10", "2.10.10, 2.10, 2"),
    ("assumed-and-candidate", "1, 1.10", "1.10, 1"),
    ("255-equal-paths", "1.10", "1.10.11"),
    ("64-equal-candidates", "1", "1.10"),
];

#[test]
fn named_examples() {
    for (name, assumed, candidates) in LEFT {
        let left = job(7, vec![block(7, &[], assumed)], candidates);
        assert_eq!(thin_of(&example(name)), Ok(left.to_bytes()), "{name}");
    }
    let left = job(7, vec![block(7, &[8], "1, 2"), block(8, &[], "1, 2")], "1, 2");
    assert_eq!(thin_of(&example("same-path-in-two-blocks")), Ok(left.to_bytes()));
    for name in ["255-paths-without-repeat", "32768-bytes-without-repeat"] {
        assert_eq!(thin_of(&example(name)), Ok(example(name).job.to_bytes()), "{name}");
    }
    assert_eq!(example("32768-bytes-without-repeat").job.to_bytes().len(), limits::JOB_BYTES);
}

#[test]
fn a_job_that_9_refuses_has_a_thin_job() {
    let example = example("repeats-refused-by-9");
    let thin = thin_of(&example).unwrap();
    let mut oracle = Oracle::open().unwrap();
    for (job, propagation) in [(&example.job.to_bytes(), Existing), (&thin, Existing), (&thin, Strict)] {
        let both = oracle.both(propagation, job, limits::THIN_BYTES);
        assert_eq!((both.answer, both.sheet), (Err(MANY_NODES), Err(MANY_NODES)));
    }
    // 100, 101 and 100 again: the roots are there already, but not as paths of their own.
    assert_eq!(thin.len() + 12, example.job.to_bytes().len());
}

#[test]
fn buffers_are_too_short_for_each_operation_in_turn() {
    let mut oracle = Oracle::open().unwrap();
    let mut refusals = |name: &str| {
        let example = example(name);
        let all = oracle.all(&example.job.to_bytes(), example.out_len);
        all.said().map(|(_, said)| said.as_ref().err().copied().unwrap_or(0))
    };
    assert_eq!(refusals("buffer-24575"), [1, 1, 1, 1, 1]);
    assert_eq!(refusals("buffer-24576"), [0, 0, 1, 0, 0]);
    assert_eq!(refusals("buffer-32767"), [0, 0, 1, 0, 0]);
    assert_eq!(refusals("three-times"), [0, 0, 0, 0, 0]);
}

#[test]
fn the_rusts_equality_and_the_harnesss_own_agree() {
    let mut oracle = Oracle::open().unwrap();
    for class in [None, Some("repeats"), Some("numbers"), Some("limits")] {
        for number in 0..2000 {
            let generated = generate(11, number, class);
            let own = thin::thin(&generated.job, generated.out_len);
            assert_eq!(oracle.thin(&generated.job, generated.out_len), own, "{class:?} {number}");
        }
    }
}

/// A stage with the oracle's answers and sheets, and with thin jobs of its own.
struct WithThin {
    oracle: Oracle,
    thin: fn(&Job) -> Vec<u8>,
}

impl Stage for WithThin {
    fn call(&mut self, operation: Operation, job: &[u8], out: &mut [u8]) -> i64 {
        let said = match operation {
            Operation::Thin => thin::read_job_to_thin(job, out.len()).map(|job| (self.thin)(&job)),
            _ => self.oracle.say(operation, job, out.len()),
        };
        write(&said, out)
    }
}

#[test]
fn each_wrong_way_is_seen_in_the_fixed_list_and_in_the_class() {
    for (wrong, thin) in nearly_right() {
        let mut stage = WithThin { oracle: Oracle::open().unwrap(), thin };
        let mut comparison = Comparison::new(Oracle::open().unwrap(), &mut stage);
        let seen = fixed_jobs(&mut comparison).err().unwrap_or_else(|| panic!("{wrong} is not seen"));
        assert!(seen.what.contains(": thin: "), "{wrong}: {}", seen.what);
        let asked = Generated { seed: 3, first: 0, count: 3000, time: None, class: Some("repeats") };
        let seen = generated_jobs(&mut comparison, &asked).err();
        assert!(seen.is_some_and(|seen| seen.what.contains(": thin: ")), "{wrong} is not seen");
    }
}

/// The class has many jobs with repeats, accepted ones and such that 9 refuses, and the longest
/// lists of equal paths.
#[test]
fn the_class_has_what_it_promises() {
    let (mut repeats, mut refused, mut full) = (0, 0, [0; 2]);
    let mut oracle = Oracle::open().unwrap();
    for number in 0..2000 {
        let generated = generate(12, number, Some("repeats"));
        let Ok(job) = read_job(&generated.job, generated.out_len) else { continue };
        let Ok(thin) = thin::thin(&generated.job, generated.out_len) else { continue };
        let has_repeats = thin.len() < generated.job.len();
        repeats += usize::from(has_repeats);
        let is_refused = oracle.answer(Existing, &generated.job, generated.out_len) == Err(MANY_NODES);
        refused += usize::from(has_repeats && is_refused);
        full[0] += usize::from(job.blocks.iter().any(|block| block.assumed.len() == limits::ASSUMED));
        full[1] += usize::from(job.candidates.len() == limits::CANDIDATES);
    }
    assert!(repeats > 1000 && refused > 50 && full[0] > 10 && full[1] > 10, "{repeats} {refused} {full:?}");
}
