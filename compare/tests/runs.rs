//! Small jobs with loops, all their finite runs and small stores: no path that the strict
//! propagation returns throws where what the run's blocks assume is there. The existing one does.
#![cfg(reference)]

mod common;

use common::{answer, block, job, path};
use compare::examples::example;
use compare::job::{Block, Job, Path, Property, RawRead, limits};
use compare::notation::{dropped, kept, text};
use compare::oracle::Oracle;
use compare::prng::Prng;
use compare::propagation::{Mistake, Propagation};
use compare::read_mistakes::ReadMistake;
use compare::reads::{all_assumed, assumed};
use std::collections::{BTreeMap, BTreeSet};

#[derive(Debug, Clone)]
enum Value {
    Null,
    Undefined,
    /// Properties that are not listed are undefined.
    Object(Vec<(Property, Value)>),
}

static UNDEFINED: Value = Value::Undefined;

/// The value of each identifier.
type Store = BTreeMap<u32, Value>;

/// All values with these properties, so many levels deep.
fn values(properties: &[Property], depth: usize) -> Vec<Value> {
    let mut objects: Vec<Vec<(Property, Value)>> = vec![vec![]];
    for &property in properties.iter().filter(|_| depth > 0) {
        let below = values(properties, depth - 1);
        let with = |object: &Vec<(Property, Value)>, value: &Value| {
            [&object[..], &[(property, value.clone())]].concat()
        };
        objects = objects.iter().flat_map(|object| below.iter().map(|value| with(object, value))).collect();
    }
    [Value::Null, Value::Undefined].into_iter().chain(objects.into_iter().map(Value::Object)).collect()
}

fn paths(job: &Job) -> impl Iterator<Item = &Path> {
    all_assumed(job).chain(&job.candidates)
}

/// All stores over the job's identifiers and properties, as deep as its paths reach.
fn stores(job: &Job) -> Vec<Store> {
    let depth = paths(job).map(|path| path.entries.len()).max().unwrap_or(0);
    let entries = paths(job).flat_map(|path| &path.entries);
    let mut properties: Vec<Property> = entries.map(|entry| entry.property).collect();
    properties.sort_by_key(|property| property.value());
    properties.dedup();
    let values = values(&properties, depth);
    let mut stores = vec![Store::new()];
    for identifier in paths(job).map(|path| path.identifier).collect::<BTreeSet<u32>>() {
        let with = |store: &Store, value: &Value| {
            let mut store = store.clone();
            store.insert(identifier, value.clone());
            store
        };
        stores = stores.iter().flat_map(|store| values.iter().map(|value| with(store, value))).collect();
    }
    stores
}

/// The value that reading a path comes to; none where it throws.
fn read<'s>(path: &Path, store: &'s Store) -> Option<&'s Value> {
    let mut value = store.get(&path.identifier).unwrap_or(&UNDEFINED);
    for entry in &path.entries {
        let Value::Object(properties) = value else {
            return entry.optional.then_some(&UNDEFINED);
        };
        let found = properties.iter().find(|(property, _)| *property == entry.property);
        value = found.map_or(&UNDEFINED, |(_, value)| value);
    }
    Some(value)
}

/// The blocks, by their places, that each finite run visits which goes from a block with no
/// predecessor, by way of the scope block, to one with no successor. No block changes the store, so
/// nothing else of a run matters; and there are so few sets that runs of every length are tried.
fn visited_by_runs(job: &Job) -> BTreeSet<BTreeSet<usize>> {
    let successors = |from: usize| {
        let id = job.blocks[from].id;
        (0..job.blocks.len()).filter(move |&to| job.blocks[to].predecessors.contains(&id))
    };
    let scope = job.blocks.iter().position(|block| block.id == job.scope).unwrap();
    let starts = (0..job.blocks.len()).filter(|&place| job.blocks[place].predecessors.is_empty());
    let mut left: Vec<(usize, BTreeSet<usize>)> = starts.map(|start| (start, [start].into())).collect();
    let mut seen: BTreeSet<(usize, BTreeSet<usize>)> = left.iter().cloned().collect();
    let mut runs = BTreeSet::new();
    while let Some((at, visited)) = left.pop() {
        if successors(at).next().is_none() && visited.contains(&scope) {
            runs.insert(visited.clone());
        }
        for next in successors(at) {
            let mut longer = visited.clone();
            longer.insert(next);
            if seen.insert((next, longer.clone())) {
                left.push((next, longer));
            }
        }
    }
    runs
}

/// The first of these paths that throws on a run of the job, in a store in which all paths that the
/// run's blocks assume read non-nullish.
fn thrown<'p>(job: &Job, returned: &'p [Path]) -> Option<(&'p Path, Store)> {
    let stores = stores(job);
    for run in visited_by_runs(job) {
        let assumed: Vec<&Path> = run.iter().flat_map(|&place| assumed(&job.blocks[place])).collect();
        let is_there = |store: &Store, path: &Path| matches!(read(path, store), Some(Value::Object(_)));
        let fitting = stores.iter().filter(|store| assumed.iter().all(|path| is_there(store, path)));
        for store in fitting {
            if let Some(path) = returned.iter().find(|path| read(path, store).is_none()) {
                return Some((path, store.clone()));
            }
        }
    }
    None
}

/// Runs jobs by one propagation, and looks for returned paths that throw.
struct Trial {
    oracle: Oracle,
    propagation: Propagation,
    /// What is done wrong with raw reads.
    mistake: Option<ReadMistake>,
}

impl Trial {
    fn of(propagation: Propagation) -> Self {
        Self { oracle: Oracle::open().unwrap(), propagation, mistake: None }
    }

    fn returned(&mut self, job: &Job) -> Vec<Path> {
        let run = |oracle: &mut Oracle| oracle.answer(self.propagation, &job.to_bytes(), limits::OUT_BYTES);
        let said = match self.mistake {
            None => run(&mut self.oracle),
            Some(mistake) => self.oracle.with_mistake(mistake, run),
        };
        answer(&said.unwrap()).returned
    }

    fn throws(&mut self, job: &Job) -> bool {
        let returned = self.returned(job);
        thrown(job, &returned).is_some()
    }
}

/// Job `number` of those with a block that starts, one that ends and three between with any edges,
/// one of which assumes 1 and one of which is the scope block. P3 is among them.
fn enumerated(number: usize) -> Job {
    let (edges, number) = (number % 4096, number / 4096);
    let (scope, holder) = (1 + number % 3, 1 + number / 3);
    let predecessors = |to: usize| {
        let others = (0..4).filter(|&from| from != to && (from, to) != (0, 4));
        let chosen = others.enumerate().filter(|(n, _)| edges >> (3 * (to - 1) + n) & 1 == 1);
        chosen.map(|(_, from)| from as u32).collect::<Vec<u32>>()
    };
    let assumed = |place| if place == holder { "1" } else { "" };
    let after = |to| block(to as u32, &predecessors(to), assumed(to));
    let blocks = [block(0, &[], "")].into_iter().chain((1..5).map(after)).collect();
    job(scope as u32, blocks, "1.10")
}

const ENUMERATED: usize = 4096 * 3 * 3;

/// Four to six blocks with loops, and short paths of one identifier and two names.
fn random(number: u64) -> Job {
    let mut prng = Prng::new(15, number);
    let size = prng.between(4, 6) as u32;
    let path = |prng: &mut Prng| {
        path(prng.pick(&["1", "1", "1.10", "1?.10", "1.11", "1?.11", "1.10.11", "1?.10?.11", "1.10?.10"]))
    };
    let blocks = (0..size).map(|id| Block {
        id,
        // The first block starts, and the last one ends.
        predecessors: (0..size - 1).filter(|_| id > 0 && prng.chance(35)).collect(),
        reads: vec![],
        assumed: (0..prng.pick(&[0, 0, 1, 2])).map(|_| path(&mut prng)).collect(),
    });
    let blocks = blocks.collect();
    let candidates = (0..prng.between(1, 3)).map(|_| path(&mut prng)).collect();
    Job { scope: prng.below(size as usize) as u32, blocks, candidates }
}

/// A random job, most of whose paths come by raw reads that are kept or not.
fn random_with_reads(number: u64) -> Job {
    let (mut job, mut prng) = (random(number), Prng::new(16, number));
    for block in &mut job.blocks {
        for path in std::mem::take(&mut block.assumed) {
            match prng.below(4) {
                0 => block.assumed.push(path),
                1 | 2 => block.reads.push(RawRead { path, ..kept("1") }),
                _ => block.reads.push(RawRead { path, ..dropped("1") }),
            }
        }
    }
    job
}

fn with_loops(jobs: impl Iterator<Item = Job>) -> impl Iterator<Item = Job> {
    jobs.filter(Job::has_loop)
}

fn all_enumerated() -> impl Iterator<Item = Job> {
    with_loops((0..ENUMERATED).map(enumerated))
}

fn all_random() -> impl Iterator<Item = Job> {
    with_loops((0..3000).map(random))
}

#[test]
fn reading_a_path_is_that_of_optional_chains() {
    let object = |properties: &[(u64, Value)]| {
        Value::Object(properties.iter().map(|(name, value)| (Property::Name(*name), value.clone())).collect())
    };
    let store = Store::from([(1, object(&[(10, Value::Null)])), (2, Value::Undefined)]);
    let says = |text: &str| match read(&path(text), &store) {
        None => "throws",
        Some(Value::Null) => "null",
        Some(Value::Undefined) => "undefined",
        Some(Value::Object(_)) => "object",
    };
    assert_eq!(
        [says("1"), says("1.10"), says("1.11"), says("2")],
        ["object", "null", "undefined", "undefined"]
    );
    assert_eq!([says("1.10.12"), says("1.11.12"), says("2.10"), says("3.10")], ["throws"; 4]);
    // An optional entry ends the whole chain.
    assert_eq!([says("1.10?.12"), says("1.10?.12.13"), says("2?.10.11.12")], ["undefined"; 3]);
    assert_eq!([says("1?.10.12"), says("1?.10")], ["throws", "null"]);
}

#[test]
fn stores_and_runs_are_all_there() {
    assert_eq!(values(&[Property::Name(10)], 2).len(), 7);
    assert_eq!(values(&[Property::Name(10), Property::Name(11)], 2).len(), 123);
    // Of P3: past block 2, by way of it, and the scope block 3 in each.
    let runs = visited_by_runs(&example("avoided-in-a-loop"));
    assert_eq!(runs, BTreeSet::from([[0, 1, 3, 4].into(), [0, 1, 2, 3, 4].into()]));
    assert!(visited_by_runs(&example("no-start")).is_empty());
}

#[test]
fn p3_throws_under_the_existing_propagation_alone() {
    let job = example("avoided-in-a-loop");
    let returned = Trial::of(Propagation::Existing).returned(&job);
    let (path, store) = thrown(&job, &returned).unwrap();
    assert_eq!(text(path), "5.10");
    assert!(matches!(store[&5], Value::Null | Value::Undefined));
    assert!(!Trial::of(Propagation::Strict).throws(&job));
}

#[test]
fn no_path_that_is_returned_strictly_throws() {
    let mut strict = Trial::of(Propagation::Strict);
    let (mut tried, mut with_runs, mut brought) = (0, 0, 0);
    for job in all_enumerated().chain(all_random()) {
        let returned = strict.returned(&job);
        if let Some((path, store)) = thrown(&job, &returned) {
            panic!("{} throws in {store:?} on a run of {job:?}", text(path));
        }
        tried += 1;
        let has_runs = !visited_by_runs(&job).is_empty();
        with_runs += usize::from(has_runs);
        let scope = job.blocks.iter().find(|block| block.id == job.scope).unwrap();
        let reads_below = returned.iter().any(|path| path.entries.iter().any(|entry| !entry.optional));
        brought += usize::from(has_runs && assumed(scope).next().is_none() && reads_below);
    }
    // Many have runs, and in many it is propagation alone that lets a plain entry stay.
    assert!(tried > 20_000 && with_runs > 10_000 && brought > 300, "{tried} {with_runs} {brought}");
}

/// What a run's blocks assume are the paths of the reads that are kept, and those that come ready.
#[test]
fn no_path_throws_where_others_are_read_raw() {
    let jobs = || (0..3000).map(random_with_reads);
    let returned_below = |paths: &[Path]| paths.iter().any(|path| !path.entries.is_empty());
    for (propagation, any_loop) in [(Propagation::Strict, true), (Propagation::Existing, false)] {
        let (mut tried, mut below) = (0, 0);
        let mut trial = Trial::of(propagation);
        for job in jobs().filter(|job| any_loop || !job.has_loop()) {
            let returned = trial.returned(&job);
            assert!(thrown(&job, &returned).is_none(), "{propagation:?}: {job:?}");
            tried += 1;
            below +=
                usize::from(returned_below(&returned) && job.blocks.iter().all(|b| b.assumed.is_empty()));
        }
        assert!(tried > 300 && below > 20, "{propagation:?}: {tried} {below}");
        // Where dropped reads are entered too, a returned path may rely on them.
        let mut trial = Trial { mistake: Some(ReadMistake::DroppedEntered), ..trial };
        assert!(jobs().filter(|job| any_loop || !job.has_loop()).any(|job| trial.throws(&job)));
    }
}

#[test]
fn a_propagation_that_is_not_safe_is_seen() {
    let mut p3 = example("avoided-in-a-loop");
    paths_of_root_1(&mut p3);
    assert!(all_enumerated().any(|job| job == p3));
    let not_safe = [
        Propagation::Existing,
        Propagation::Own(Some(Mistake::JoinsAllOfNone)),
        Propagation::Own(Some(Mistake::StrictForwardOnly)),
        Propagation::Own(Some(Mistake::StrictBackwardOnly)),
    ];
    for propagation in not_safe {
        let mut trial = Trial::of(propagation);
        assert!(all_enumerated().any(|job| trial.throws(&job)), "{propagation:?}");
    }
}

fn paths_of_root_1(job: &mut Job) {
    let assumed = job.blocks.iter_mut().flat_map(|block| &mut block.assumed);
    assumed.chain(&mut job.candidates).for_each(|path| path.identifier = 1);
}
