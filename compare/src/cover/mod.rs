//! What a job covers: features by which jobs are chosen for the stored list.
//!
//! The features of the tree and of reduction come from small models, which work
//! on lists of paths. They only describe jobs; no answer depends on them.

mod graph;
mod nodes;
mod reads;
mod reduction;
mod refusals;
mod strict;
mod thin;
mod tree;

pub use graph::order_features;
pub use nodes::node_features;
pub use reads::mistake_features;
pub use strict::strict_features;
pub use thin::nearly_right;

use crate::counts::Counts;
use crate::job::{Job, Path, Property, limits};
use crate::oracle::All;
use crate::output::{Answer, Written, read_answer, read_sheet};
use crate::reader::read_job;
use crate::reads::all_assumed;
use std::collections::{BTreeSet, HashMap, HashSet};

pub type Features = BTreeSet<String>;

/// The features of a job of `class`, given what the oracle says of it.
pub fn features(class: &str, bytes: &[u8], out_len: usize, all: &All) -> Features {
    let both = &all.existing;
    let mut found = Features::new();
    found.insert(format!("class {class}"));
    add(&mut found, &format!("job of {} bytes", bytes.len()), bytes.len() + 1 >= limits::JOB_BYTES);
    add(&mut found, "out buffer longer than it must be", out_len > limits::THIN_BYTES);
    let short_for_thin_alone = (limits::OUT_BYTES..limits::THIN_BYTES).contains(&out_len);
    add(&mut found, "out buffer too short for a thin job alone", short_for_thin_alone);
    if let Err(number) = both.answer {
        found.insert(format!("refusal {number}"));
        found.insert(format!("{class} refused by {number}"));
        refusals::refusal_features(number, bytes, &mut found);
    }
    let Ok(job) = read_job(bytes, out_len) else { return found };
    graph::graph_features(&job, &mut found);
    word_features(&job, &mut found);
    reads::read_features(&job, &mut found);
    reduction::reduction_features(&job, &mut found);
    if let Some(counts) = &both.counts {
        count_features(counts, &mut found);
    }
    if out_len >= limits::THIN_BYTES {
        thin::thin_features(&job, both.answer.is_err(), &mut found);
    }
    if let (Ok(answer), Ok(sheet)) = (&both.answer, &both.sheet)
        && let (Ok(Written::Record(answer)), Ok(Written::Record(sheet))) =
            (read_answer(answer), read_sheet(sheet))
    {
        answer_features(&job, &answer, &mut found);
        tree::tree_features(&job, &sheet, &mut found);
    }
    found
}

fn add(found: &mut Features, feature: &str, present: bool) {
    if present {
        found.insert(feature.to_string());
    }
}

fn count_features(counts: &Counts, found: &mut Features) {
    found.insert(match counts.rounds {
        rounds @ (0..=8 | 98..) => format!("rounds {rounds} settled {}", u8::from(counts.settled)),
        rounds => format!("rounds from {}", rounds / 10 * 10),
    });
    found.insert(format!("settled {}", u8::from(counts.settled)));
    let made = counts.made();
    add(found, "reduction makes nodes", made > 0);
    add(found, "reduction makes over 8 nodes", made > 8);
    add(found, "513 nodes or more by reduction alone", counts.nodes > 512 && counts.nodes_before <= 512);
    if counts.nodes <= 2 || (505..=514).contains(&counts.nodes) {
        found.insert(format!("nodes {}{}", counts.nodes, if made > 0 { " by reduction" } else { "" }));
    }
}

fn all_paths(job: &Job) -> impl Iterator<Item = &Path> {
    all_assumed(job).chain(&job.candidates)
}

fn word_features(job: &Job, found: &mut Features) {
    let candidates = job.candidates.len();
    add(found, &format!("candidates {candidates}"), !(5..=62).contains(&candidates));
    let properties: HashSet<Property> =
        all_paths(job).flat_map(|path| &path.entries).map(|entry| entry.property).collect();
    let has = |value| properties.contains(&Property::Number(value));
    add(found, "+0 and -0", has(0) && has(1 << 63));
    let nans = properties.iter().filter(|p| p.kind() == 1 && f64::from_bits(p.value()).is_nan());
    add(found, "several NaNs", nans.count() > 1);
    add(found, "name and number of one value", {
        properties.iter().any(|p| p.kind() == 0 && has(p.value()))
    });
    let longest = all_paths(job).map(|path| path.entries.len()).max().unwrap_or(0);
    add(found, "16 entries", longest == 16);
    for extreme in [0, u32::MAX] {
        let used = all_paths(job).any(|path| path.identifier == extreme);
        add(found, &format!("identifier {extreme}"), used);
    }
    add(found, "roots of differing reactive", differing(all_assumed(job), |path| path.reactive.into()));
    add(found, "roots of differing span", differing(all_assumed(job), |path| path.span));
    add(found, "candidates of differing reactive", {
        differing(job.candidates.iter(), |path| path.reactive.into())
    });
}

/// Whether two paths with one identifier differ in a field.
fn differing<'p>(paths: impl Iterator<Item = &'p Path>, field: impl Fn(&Path) -> u32) -> bool {
    let mut first = HashMap::new();
    paths.into_iter().any(|path| *first.entry(path.identifier).or_insert(field(path)) != field(path))
}

fn answer_features(job: &Job, answer: &Answer, found: &mut Features) {
    let count = answer.returned.len();
    add(found, &format!("returned {count}"), !(5..=30).contains(&count));
    let roots: HashSet<u32> = answer.returned.iter().map(|path| path.identifier).collect();
    add(found, "several roots returned", roots.len() > 1);
    add(found, "two paths below one root", roots.len() < count);
    let optional = |path: &Path| path.entries.first().is_some_and(|entry| entry.optional);
    add(found, "optional first entry returned", answer.returned.iter().any(optional));
    add(found, "mixed marks returned", {
        answer.returned.iter().any(|path| {
            path.entries.iter().any(|entry| entry.optional)
                && path.entries.iter().any(|entry| !entry.optional)
        })
    });
    let shorter = count < job.candidates.len();
    add(found, "fewer returned than candidates", shorter);
    let longest = answer.returned.iter().map(|path| path.entries.len()).max().unwrap_or(0);
    add(found, &format!("longest returned {longest}"), count > 0 && (longest < 6 || longest == 16));
}
