//! Chooses the jobs of the stored list.

use crate::cover::{Features, features, mistake_features, node_features, order_features, strict_features};
use crate::examples::{Example, examples};
use crate::generate::{Generated, generate};
use crate::list::Record;
use crate::oracle::{All, Both, Oracle, program_bytes};
use crate::progress::Progress;
use std::collections::HashMap;

/// The stored list was made with these.
pub const SEED: u64 = 20_261_115;
const TRIED: usize = 60_000;
/// Pairs of features are looked for among small records only.
const PAIR_BYTES: usize = 682;
const MOST_PAIR_JOBS: usize = 100;
/// Jobs of this class, most of them long, are chosen only by where their nodes come from.
const CHOSEN_BY_NODES: &str = "nodes-late";

/// How many jobs should have a feature.
fn quota(feature: &str) -> usize {
    let one = [" met at ", "; ", "job-size", "job of 3", "nodes: "];
    let many = ["would differ", " position, first ", "a pass goes on", "equal keys"];
    let two = [
        "an unstable sort",
        "rounds 9",
        "rounds 10",
        "class many-blocks",
        "class nodes-",
        "nodes-",
        "rounds from ",
        "nodes 5",
        "candidates 6",
        "blocks 6",
        "blocks 12",
        "predecessors 6",
        "thin: ",
        "strict: ",
        "reads: ",
    ];
    if one.iter().any(|part| feature.contains(part)) {
        1
    } else if two.iter().any(|part| feature.starts_with(part)) {
        2
    } else if many.iter().any(|part| feature.contains(part)) {
        6
    } else {
        3
    }
}

pub struct Chosen {
    pub record: Record,
    class: &'static str,
    all: All,
    covers: Features,
    /// What it covers of where nodes come from. It is looked for last, apart from the rest, and
    /// changes nothing of what is chosen by that.
    nodes: Features,
}

impl Chosen {
    /// The size of job, answer and sheet. The thin job does not count, so that jobs whose thin job
    /// is refused are not preferred.
    fn size(&self) -> usize {
        self.record.job.len() + self.record.answer.len() + self.record.sheet.len()
    }
}

/// The record of a generated job.
pub fn record(generated: &Generated, all: &All) -> Record {
    Record {
        out_len: generated.out_len,
        job: generated.job.clone(),
        answer: program_bytes(&all.existing.answer),
        sheet: program_bytes(&all.existing.sheet),
        thin: program_bytes(&all.thin),
        strict_answer: program_bytes(&all.strict.answer),
        strict_sheet: program_bytes(&all.strict.sheet),
    }
}

/// The stored list: generated jobs, and then the examples.
pub fn choose(oracle: &mut Oracle) -> Vec<Chosen> {
    let mut chosen = choose_generated(oracle);
    chosen.extend(examples().iter().map(|example| named(example, oracle)));
    chosen
}

/// An example. It covers what its name says.
fn named(example: &Example, oracle: &mut Oracle) -> Chosen {
    let generated = Generated { class: "example", out_len: example.out_len, job: example.job.to_bytes() };
    chosen(&generated, oracle, |_| Features::from([example.name.to_string()]))
}

/// A job with what is said of it, and what it covers.
fn chosen(generated: &Generated, oracle: &mut Oracle, covers: impl FnOnce(&All) -> Features) -> Chosen {
    let all = oracle.all(&generated.job, generated.out_len);
    let (record, covers) = (record(generated, &all), covers(&all));
    let nodes = node_features(&all);
    Chosen { record, class: generated.class, all, covers, nodes }
}

/// Tries jobs in order of size and keeps one that has a feature, or a pair of
/// features, of which too few are kept.
fn choose_generated(oracle: &mut Oracle) -> Vec<Chosen> {
    let (late, mut tried): (Vec<_>, Vec<_>) =
        try_jobs(oracle).into_iter().partition(|job| job.class == CHOSEN_BY_NODES);
    tried.sort_by_key(Chosen::size);
    let mut chosen: Vec<Chosen> = Vec::new();
    let mut singles = Wanted::default();
    let mut rest = Vec::new();
    for job in tried {
        if singles.wants(&job.covers) {
            singles.count(&job.covers);
            chosen.push(job);
        } else {
            rest.push(job);
        }
    }
    // Later jobs may make an earlier one needless.
    chosen.retain(|job| !singles.give_back(&job.covers));
    let (pairs, rest) = choose_pairs(rest, &chosen);
    chosen.extend(pairs);
    let rest = rest.into_iter().chain(late).collect();
    chosen.extend(choose_by_nodes(rest, &chosen));
    chosen.sort_by_key(|job| job.class);
    chosen
}

fn try_jobs(oracle: &mut Oracle) -> Vec<Chosen> {
    let mut progress = Progress::new("jobs tried", TRIED);
    let mut tried = Vec::new();
    for number in 0..TRIED {
        progress.show(number);
        let generated = generate(SEED, number as u64, None);
        let (job, out_len) = (&generated.job, generated.out_len);
        let mut tested = chosen(&generated, oracle, |all| features(generated.class, job, out_len, all));
        order_features(job, out_len, &tested.all.existing.sheet, oracle, &mut tested.covers);
        strict_features(job, out_len, &tested.all, oracle, &mut tested.covers);
        mistake_features(job, out_len, &tested.all, oracle, &mut tested.covers);
        tried.push(tested);
    }
    tried
}

/// Those with new pairs, and those that are left.
fn choose_pairs(rest: Vec<Chosen>, singles: &[Chosen]) -> (Vec<Chosen>, Vec<Chosen>) {
    let mut wanted = Wanted::default();
    singles.iter().for_each(|job| wanted.count(&pairs(&job.covers)));
    let (small, mut left): (Vec<_>, Vec<_>) = rest.into_iter().partition(|job| job.size() <= PAIR_BYTES);
    let mut new: Vec<(usize, Chosen)> =
        small.into_iter().map(|job| (wanted.missing(&pairs(&job.covers)), job)).collect();
    // The most new pairs first; what was gained meanwhile is looked at again.
    new.sort_by_key(|(gain, _)| std::cmp::Reverse(*gain));
    let mut kept = Vec::new();
    for (_, job) in new {
        let pairs = pairs(&job.covers);
        if kept.len() < MOST_PAIR_JOBS && wanted.missing(&pairs) > 2 {
            wanted.count(&pairs);
            kept.push(job);
        } else {
            left.push(job);
        }
    }
    (kept, left)
}

/// Those with something of where nodes come from of which too few are chosen, the smallest first.
fn choose_by_nodes(mut rest: Vec<Chosen>, chosen: &[Chosen]) -> Vec<Chosen> {
    let mut wanted = Wanted::default();
    chosen.iter().for_each(|job| wanted.count(&job.nodes));
    rest.sort_by_key(Chosen::size);
    rest.retain(|job| {
        let wants = wanted.wants(&job.nodes);
        if wants {
            wanted.count(&job.nodes);
        }
        wants
    });
    rest
}

fn pairs(covers: &Features) -> Features {
    let mut pairs = Features::new();
    for a in covers {
        for b in covers.range::<String, _>((std::ops::Bound::Excluded(a), std::ops::Bound::Unbounded)) {
            pairs.insert(format!("{a}; {b}"));
        }
    }
    pairs
}

/// How many jobs have each feature so far.
#[derive(Default)]
struct Wanted {
    have: HashMap<String, usize>,
}

impl Wanted {
    fn missing(&self, features: &Features) -> usize {
        features
            .iter()
            .filter(|feature| self.have.get(*feature).is_none_or(|&have| have < quota(feature)))
            .count()
    }

    fn wants(&self, features: &Features) -> bool {
        self.missing(features) > 0
    }

    /// Takes a job's features away again if enough other jobs have each of them.
    fn give_back(&mut self, features: &Features) -> bool {
        let needless = features.iter().all(|feature| self.have[feature] > quota(feature));
        if needless {
            features.iter().for_each(|feature| *self.have.get_mut(feature).expect("counted") -= 1);
        }
        needless
    }

    fn count(&mut self, features: &Features) {
        for feature in features {
            *self.have.entry(feature.clone()).or_default() += 1;
        }
    }
}

/// The index's line of a chosen job.
pub fn index_line(number: usize, chosen: &Chosen) -> String {
    let All { existing, strict, thin } = &chosen.all;
    let thin = match thin {
        Ok(thin) => format!("thin {} of {} bytes", thin.len(), chosen.record.job.len()),
        Err(number) => format!("thin refusal {number}"),
    };
    let strict = match (&strict.answer, &strict.sheet) == (&existing.answer, &existing.sheet) {
        true => "strict the same".to_string(),
        false => format!("strict {}", outcome(strict)),
    };
    let told = ["class ", "refusal ", "rounds ", "settled ", "returned ", "nodes ", "block id 0"];
    let covers: Vec<&str> = chosen
        .covers
        .iter()
        .chain(&chosen.nodes)
        .map(String::as_str)
        .filter(|feature| !told.iter().any(|word| feature.starts_with(word)))
        .collect();
    let (class, existing) = (chosen.class, outcome(existing));
    format!("{number}\t{class}\t{existing}\t{strict}\t{thin}\t{}\n", covers.join("; "))
}

/// What a propagation comes to, in words.
fn outcome(both: &Both) -> String {
    match (&both.answer, &both.counts) {
        (Ok(answer), Some(counts)) => format!(
            "rounds {} settled {} nodes {} to {} returned {}",
            counts.rounds,
            u8::from(counts.settled),
            counts.nodes_before,
            counts.nodes,
            u16::from_le_bytes([answer[2], answer[3]])
        ),
        (Err(number), Some(counts)) => {
            format!("refusal {number} nodes {} to {}", counts.nodes_before, counts.nodes)
        }
        (Err(number), None) => format!("refusal {number}"),
        (Ok(_), None) => unreachable!("an answer comes from a run"),
    }
}
