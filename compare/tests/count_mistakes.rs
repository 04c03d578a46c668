//! Wrong counts of the nodes before the first round: the comparison must see each, and so must the
//! check of a list without the Rust.
#![cfg(reference)]

mod common;

use common::write;
use compare::check;
use compare::comparison::Comparison;
use compare::comparison::run::{Generated, fixed_jobs, generated_jobs};
use compare::count_mistakes::CountMistake::{self, *};
use compare::examples::{Example, example, examples};
use compare::job::limits;
use compare::library::Stage;
use compare::list::Record;
use compare::operation::Operation;
use compare::oracle::{Both, Oracle, Said, program_bytes};
use compare::propagation::Mistake::PassesActiveOver;
use compare::propagation::Propagation::{Existing, Own};
use compare::reader::read_job;
use compare::store;

/// A stage whose sheets have a mistake in their count: those by the Rust, or the strict ones.
struct WithMistake {
    oracle: Oracle,
    mistake: CountMistake,
    operation: Operation,
}

impl Stage for WithMistake {
    fn call(&mut self, operation: Operation, job: &[u8], out: &mut [u8]) -> i64 {
        let said = match operation == self.operation {
            true => wrong_sheet(&mut self.oracle, self.mistake, operation, job, out.len()),
            false => self.oracle.say(operation, job, out.len()),
        };
        write(&said, out)
    }
}

fn wrong_sheet(
    oracle: &mut Oracle,
    mistake: CountMistake,
    operation: Operation,
    bytes: &[u8],
    out_len: usize,
) -> Said {
    let job = read_job(bytes, out_len)?;
    // The harness's own words of the same propagation tell of the forward walk.
    let own = Own((operation == Operation::Sheet).then_some(PassesActiveOver));
    let Both { sheet, counts, .. } = oracle.both(own, bytes, out_len);
    Ok(mistake.sheet(&job, &counts.unwrap(), &sheet?))
}

#[test]
fn each_mistake_is_seen_in_the_fixed_list_and_in_generated_jobs() {
    let sheets = [(Operation::Sheet, ": sheet: "), (Operation::StrictSheet, ": strict_sheet: ")];
    for mistake in CountMistake::ALL {
        for (operation, part) in sheets {
            let mut stage = WithMistake { oracle: Oracle::open().unwrap(), mistake, operation };
            let mut comparison = Comparison::new(Oracle::open().unwrap(), &mut stage);
            let asked = Generated { seed: 3, first: 0, count: 2000, time: None, class: Some("reduction") };
            let seen = [fixed_jobs(&mut comparison).err(), generated_jobs(&mut comparison, &asked).err()];
            for seen in seen {
                let what = seen.unwrap_or_else(|| panic!("{} is not seen", mistake.text())).what;
                assert!(what.contains(part), "{}: {what}", mistake.text());
            }
        }
    }
}

/// The record of an example, with the sheets that these two make of the right ones.
fn record(example: &Example, change: &dyn Fn(&mut Oracle, Operation, &[u8]) -> Said) -> Record {
    let mut oracle = Oracle::open().unwrap();
    let job = example.job.to_bytes();
    let generated = compare::generate::Generated { class: "example", out_len: example.out_len, job };
    let right = store::record(&generated, &oracle.all(&generated.job, generated.out_len));
    let mut changed = |operation| program_bytes(&change(&mut oracle, operation, &generated.job));
    let (sheet, strict_sheet) = (changed(Operation::Sheet), changed(Operation::StrictSheet));
    Record { sheet, strict_sheet, ..right }
}

/// Without the Rust, the examples tell each mistake from the right count.
#[test]
fn each_mistake_is_seen_without_the_rust() {
    let long_enough: Vec<Example> =
        examples().into_iter().filter(|example| example.out_len >= limits::OUT_BYTES).collect();
    let right = |oracle: &mut Oracle, operation, job: &[u8]| oracle.say(operation, job, limits::OUT_BYTES);
    let rights: Vec<Record> = long_enough.iter().map(|example| record(example, &right)).collect();
    assert_eq!(check::without_rust(&rights), Ok(()));
    for mistake in CountMistake::ALL {
        let wrong = |oracle: &mut Oracle, operation, job: &[u8]| {
            wrong_sheet(oracle, mistake, operation, job, limits::OUT_BYTES)
        };
        let mut seen = 0;
        for (example, right) in long_enough.iter().zip(&rights) {
            let wrong = record(example, &wrong);
            let differs = wrong.sheet != right.sheet || wrong.strict_sheet != right.strict_sheet;
            assert_eq!(
                check::without_rust(&[wrong]).is_err(),
                differs,
                "{}, {}",
                mistake.text(),
                example.name
            );
            seen += usize::from(differs);
        }
        assert!(seen > 0, "{}", mistake.text());
    }
}

/// That the count is one forward walk too late shows only where that walk makes a node.
#[test]
fn mistakes_differ_on_the_examples_made_for_them() {
    let differs = |mistake: CountMistake, name: &str| {
        let mut oracle = Oracle::open().unwrap();
        let job = example(name).to_bytes();
        let right = oracle.sheet(Existing, &job, limits::OUT_BYTES);
        wrong_sheet(&mut oracle, mistake, Operation::Sheet, &job, limits::OUT_BYTES) != right
    };
    for (name, [end, forward, first, last]) in [
        ("replaced-by-a-node-that-is-there", [false, false, false, false]),
        ("one-node-made", [true, true, true, true]),
        ("made-in-the-backward-walk", [true, false, true, true]),
        ("made-in-the-second-round", [true, false, false, true]),
        ("made-in-the-last-round", [true, false, false, false]),
    ] {
        let found = [AtTheEnd, AfterForwardWalk, AfterFirstRound, BeforeLastRound].map(|m| differs(m, name));
        assert_eq!(found, [end, forward, first, last], "{name}");
    }
    assert!(differs(OfPaths, "paths-share-nodes") && differs(OfDifferentPaths, "paths-share-nodes"));
    assert!(differs(WithoutRoots, "changed-by-set"));
    assert!(differs(WithCandidates, "no-nodes"));
    assert!(differs(BeforeSettled, "changed-by-set"));
}
