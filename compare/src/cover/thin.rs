//! Thin jobs, told from those that are nearly right.

mod reads;

use super::{Features, add};
use crate::job::{Entry, Job, Path, Property};
use crate::thin::{kept, same_path, thinned};

/// The features of a job that is thinned, of one that 9 refuses or not.
pub fn thin_features(job: &Job, refused: bool, found: &mut Features) {
    let bytes = job.to_bytes();
    let thin = thinned(job, |paths| kept(paths, same_path)).to_bytes();
    add(found, "thin: repeats", bytes != thin);
    add(found, "thin: repeats in a job that 9 refuses", refused && bytes != thin);
    for (wrong, thin_wrongly) in nearly_right() {
        add(found, &format!("thin: {wrong} would differ"), thin_wrongly(job) != thin);
    }
}

/// A way to thin a job.
type Thinner = fn(&Job) -> Vec<u8>;

/// Ways to thin a job that are nearly right, by what they do wrong.
pub fn nearly_right() -> Vec<(&'static str, Thinner)> {
    [with_paths(), reads::with_reads()].concat()
}

/// What is done wrong with paths.
fn with_paths() -> Vec<(&'static str, Thinner)> {
    vec![
        ("spans compared", |job| by(job, |a, b| same_path(a, b) && spans(a) == spans(b))),
        ("reactive compared", |job| by(job, |a, b| same_path(a, b) && a.reactive == b.reactive)),
        ("marks not compared", |job| by(job, |a, b| same_path(&plain(a), &plain(b)))),
        ("kinds not compared", |job| by(job, |a, b| same_path(&names(a), &names(b)))),
        ("numbers compared as floats", |job| by(job, same_by_floats)),
        ("identifiers not compared", |job| by(job, |a, b| same_path(&of_one_root(a), &of_one_root(b)))),
        ("lengths not compared", |job| by(job, same_start)),
        ("the last kept", |job| thinned(job, last_kept).to_bytes()),
        ("only neighbours compared", |job| thinned(job, kept_beside_neighbours).to_bytes()),
        ("only one repeat dropped", |job| thinned(job, one_dropped).to_bytes()),
        ("blocks compared with each other", across_blocks),
        ("candidates compared with assumed paths", across_kinds),
        ("candidates left alone", |job| Job { candidates: job.candidates.clone(), ..right(job) }.to_bytes()),
        ("assumed paths left alone", |job| Job { blocks: job.blocks.clone(), ..right(job) }.to_bytes()),
        ("counts not lowered", with_old_counts),
    ]
}

fn right(job: &Job) -> Job {
    thinned(job, |paths| kept(paths, same_path))
}

fn by(job: &Job, same: impl Fn(&Path, &Path) -> bool) -> Vec<u8> {
    thinned(job, |paths| kept(paths, &same)).to_bytes()
}

fn spans(path: &Path) -> Vec<u32> {
    [path.span].into_iter().chain(path.entries.iter().map(|entry| entry.span)).collect()
}

fn with_entries(path: &Path, change: impl Fn(&Entry) -> Entry) -> Path {
    Path { entries: path.entries.iter().map(change).collect(), ..path.clone() }
}

fn plain(path: &Path) -> Path {
    with_entries(path, |entry| Entry { optional: false, ..*entry })
}

fn names(path: &Path) -> Path {
    with_entries(path, |entry| Entry { property: Property::Name(entry.property.value()), ..*entry })
}

fn of_one_root(path: &Path) -> Path {
    Path { identifier: 0, ..path.clone() }
}

fn same_by_floats(a: &Path, b: &Path) -> bool {
    let equal = |(a, b): (&Entry, &Entry)| match (a.property, b.property) {
        (Property::Number(a), Property::Number(b)) => f64::from_bits(a) == f64::from_bits(b),
        (a, b) => a == b,
    };
    let one_value = |path| with_entries(path, |entry| Entry { property: Property::Name(0), ..*entry });
    same_path(&one_value(a), &one_value(b)) && a.entries.iter().zip(&b.entries).all(equal)
}

fn same_start(a: &Path, b: &Path) -> bool {
    let length = a.entries.len().min(b.entries.len());
    let start = |path: &Path| Path { entries: path.entries[..length].to_vec(), ..path.clone() };
    same_path(&start(a), &start(b))
}

fn last_kept(paths: &[Path]) -> Vec<bool> {
    let backward: Vec<&Path> = paths.iter().rev().collect();
    kept(&backward, |a, b| same_path(a, b)).into_iter().rev().collect()
}

fn kept_beside_neighbours(paths: &[Path]) -> Vec<bool> {
    let stays = |n: usize| n == 0 || !same_path(&paths[n - 1], &paths[n]);
    (0..paths.len()).map(stays).collect()
}

fn one_dropped(paths: &[Path]) -> Vec<bool> {
    let before = |n: usize| paths[..n].iter().filter(|earlier| same_path(earlier, &paths[n])).count();
    (0..paths.len()).map(|n| before(n) != 1).collect()
}

fn across_blocks(job: &Job) -> Vec<u8> {
    let mut thin = right(job);
    let mut earlier: Vec<Path> = Vec::new();
    for block in &mut thin.blocks {
        block.assumed.retain(|path| !earlier.iter().any(|other| same_path(other, path)));
        earlier.extend(block.assumed.iter().cloned());
    }
    thin.to_bytes()
}

fn across_kinds(job: &Job) -> Vec<u8> {
    let mut thin = right(job);
    let assumed =
        |path: &Path| thin.blocks.iter().flat_map(|block| &block.assumed).any(|a| same_path(a, path));
    thin.candidates = thin.candidates.iter().filter(|path| !assumed(path)).cloned().collect();
    thin.to_bytes()
}

/// The records of the thin job under the counts of the whole one.
fn with_old_counts(job: &Job) -> Vec<u8> {
    let thin = right(job);
    let mut bytes = thin.to_bytes();
    bytes[4..6].copy_from_slice(&(job.candidates.len() as u16).to_le_bytes());
    for (at, block) in starts(&thin).into_iter().zip(&job.blocks) {
        bytes[at + ASSUMED_COUNT] = block.assumed.len() as u8;
    }
    bytes
}

/// Where the assumed count stands in BL.
const ASSUMED_COUNT: usize = 7;

/// Where each block's BL stands in the bytes of the job.
fn starts(job: &Job) -> Vec<usize> {
    let mut starts = vec![10];
    for block in &job.blocks {
        let alone = Job { scope: 0, blocks: vec![block.clone()], candidates: vec![] }.to_bytes();
        starts.push(starts[starts.len() - 1] + alone.len() - 10);
    }
    starts
}
