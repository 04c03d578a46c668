//! Every sentence of every explanation is true.
//!
//! Each line of the text, in short and in full, is taken apart and checked against the job, the
//! library's sheet and answer, and the events of the replay. A line that is of no known form is a
//! fault too. That the replay's events are those of a run of the walks, and end with the library's
//! sheet, is checked in `tests/replay.rs`.

#[path = "../common/mod.rs"]
mod common;

mod bases;
mod events;
mod nodes;
mod parse;
mod sources;
mod steps;
mod stops;
mod text;
mod world;

use common::stored;
use compare::generate::{class_names, generate};
use scope_deps::explain::{explain, explain_strict, Explanation};
use scope_deps::replay::Propagation::{self, Existing, Strict};
use scope_deps::{limits, Entry, Job, JobBuilder, Property};
use text::{check_text, Kinds};
use world::World;

/// The kinds of sentences, and how many of each are checked at least.
const EXPECTED: &[(&str, usize)] = &[
    ("added", 5_000),
    ("all that lack it", 10_000),
    ("assumed", 10_000),
    ("assumed, and left open", 1_000),
    ("covered", 1_000),
    ("different paths", 500),
    ("from all", 1_000),
    ("from the only one", 10_000),
    ("known", 10_000),
    ("left open", 1_000),
    ("made", 1_000),
    ("no block", 1_000),
    ("nodes", 1_000),
    ("not connected", 1_000),
    ("not kept, and would not do", 100),
    ("not kept, though it would do", 100),
    ("not settled", 100),
    ("one left out that lacks it", 50),
    ("one that lacks it", 1_000),
    ("read", 1_000),
    ("read, and left open", 200),
    ("shown, but open by a path met before", 100),
    ("shown, but open by the first entry", 1_000),
    ("some left out", 10_000),
    ("the blocks that have it", 1_000),
    ("too late", 2),
    ("unfinished", 200),
];

/// The same by the strict propagation. It leaves no block out, and these jobs settle by it.
const EXPECTED_STRICT: &[(&str, usize)] = &[
    ("added", 5_000),
    ("all that lack it", 10_000),
    ("assumed", 10_000),
    ("assumed, and left open", 1_000),
    ("covered", 1_000),
    ("different paths", 500),
    ("from all", 1_000),
    ("from the only one", 10_000),
    ("known", 10_000),
    ("left open", 1_000),
    ("made", 1_000),
    ("no block", 1_000),
    ("nodes", 1_000),
    ("not connected", 1_000),
    ("not kept, and would not do", 100),
    ("not kept, though it would do", 100),
    ("one that lacks it", 1_000),
    ("read", 1_000),
    ("read, and left open", 200),
    ("shown, but open by a path met before", 100),
    ("shown, but open by the first entry", 1_000),
    ("some unfinished", 10_000),
    ("the blocks that have it", 1_000),
    ("unfinished", 200),
    ("unfinished itself", 500),
];

/// Explains a job and checks all that is said. Nothing where the stage refuses the job.
fn check(job: &Job, propagation: Propagation, kinds: &mut Kinds) -> Option<Explanation> {
    let world = World::new(job, propagation)?;
    let explain = match propagation {
        Existing => explain,
        Strict => explain_strict,
    };
    let explanation = explain(job, &world.sheet, &world.answer).unwrap_or_else(|why| panic!("{why}:\n{job}"));
    assert_eq!(explanation.propagation, propagation);
    for (text, in_full) in [(explanation.to_string(), false), (explanation.in_full().to_string(), true)] {
        let checked = std::panic::AssertUnwindSafe(|| check_text(&world, &text, in_full, &mut *kinds));
        if std::panic::catch_unwind(checked).is_err() {
            panic!("the explanation of\n{job}\nis\n{text}");
        }
    }
    events::check_events(&world, &explanation);
    Some(explanation)
}

/// The job with this scope block, and candidates one entry longer, plain and optional, than the
/// paths of the job.
fn with_candidates(job: &Job, scope: usize) -> Option<Job> {
    let blocks = job.blocks().iter().cloned().fold(Job::builder(job.blocks()[scope].id()), JobBuilder::block);
    let reads = job.blocks().iter().flat_map(|block| block.raw_reads()).map(|read| &read.path);
    let paths = reads.chain(job.blocks().iter().flat_map(|block| block.assumed()));
    let longer = paths.filter(|path| path.entries().len() < limits::ENTRIES);
    let longer = longer.enumerate().map(|(number, path)| {
        let property = Property::Name(77);
        let entry = if number % 2 == 0 { Entry::plain(property) } else { Entry::optional(property) };
        path.clone().then(entry)
    });
    longer.take(limits::CANDIDATES).fold(blocks, JobBuilder::candidate).build().ok()
}

/// Explains generated jobs of every class, and checks that sentences of all these kinds were
/// checked, and no others.
fn check_generated(propagation: Propagation, expected: &[(&str, usize)]) {
    let mut kinds = Kinds::new();
    for class in class_names() {
        let mut explained = 0;
        for number in 0..150 {
            let Ok(job) = Job::from_bytes(&generate(21, number, Some(class)).job) else { continue };
            explained += usize::from(check(&job, propagation, &mut kinds).is_some());
            let other = with_candidates(&job, number as usize % job.blocks().len());
            explained += other.map_or(0, |job| usize::from(check(&job, propagation, &mut kinds).is_some()));
        }
        assert!(explained > 10, "{class}: {explained}");
    }
    for (kind, least) in expected {
        assert!(kinds.get(kind).is_some_and(|count| count >= least), "{kind}: {kinds:#?}");
    }
    assert_eq!(kinds.len(), expected.len(), "{kinds:#?}");
}

#[test]
fn every_sentence_is_true_for_generated_jobs_of_every_class() {
    check_generated(Existing, EXPECTED);
}

#[test]
fn every_sentence_by_the_strict_propagation_is_true_for_them() {
    check_generated(Strict, EXPECTED_STRICT);
}

#[test]
fn every_sentence_is_true_for_the_stored_jobs() {
    for propagation in [Existing, Strict] {
        let mut kinds = Kinds::new();
        let jobs = stored().into_iter().filter_map(|record| Job::from_bytes(&record.job).ok());
        let explained = jobs.filter(|job| check(job, propagation, &mut kinds).is_some()).count();
        assert!(explained > 100, "{explained}");
    }
}

/// Jobs of which something false was said once, and which are seldom generated.
const TOLD_FALSELY: [&str; 4] = [
    "scope 3 block 0 block 1 after 0, 3 assumes 5 block 2 after 1 assumes 5.6 block 3 after 1, 2 block 4 after 1
     block 6 after 3 candidate 5.10",
    "scope 2 block 1 assumes 1?.10 block 2 after 1 assumes 1.11 candidate 1.12",
    "scope 5 block 0 block 1 after 0 assumes 7 block 2 after 0 assumes 7 block 3 after 0 assumes 7 block 4 after 0
     block 5 after 1, 2, 3, 4 candidate 7.1",
    "scope 2 block 0 reads 1 at 1 range 0 to 2 scope 0 to 99 assumes 1.10 block 1 assumes 1 block 2 after 0, 1
     candidate 1.10",
];

#[test]
fn every_sentence_is_true_where_one_was_not() {
    let mut kinds = Kinds::new();
    for (job, propagation) in TOLD_FALSELY.iter().flat_map(|job| [(job, Existing), (job, Strict)]) {
        assert!(check(&job.parse().unwrap(), propagation, &mut kinds).is_some());
    }
}
