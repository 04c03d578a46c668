//! Jobs in which reduction makes nodes in later rounds, up to the last that is run.

use super::ladder::{self, MOST_STEPS, path};
use super::nodes::near_limit;
use crate::entering::entered;
use crate::job::{Entry, Job, Property, limits};
use crate::prng::Prng;
use crate::worst::{block, full_registry};

/// A ladder with optional entries below what climbs it. Each is made plain in the round in which
/// its base arrives. In most jobs the registry ends near 512 nodes.
pub fn late(prng: &mut Prng) -> Job {
    let climbs = prng.pick(&[1, 2, 2, 3, 4]);
    let steps = match prng.below(3) {
        // The last climb ends near the last round that is run.
        0 => prng.between(limits::ROUNDS - 2, limits::ROUNDS + 2) / climbs,
        1 => prng.between(1, MOST_STEPS),
        _ => prng.between(1, 4),
    };
    let steps = steps.min(MOST_STEPS);
    let mut job = ladder::of(1, steps, climbs);
    job.scope = job.blocks[prng.below(job.blocks.len())].id;
    let mut made = 0;
    for number in 0..prng.between(1, 4) {
        made += add_optional(prng, &mut job, steps, climbs, number);
    }
    job.candidates = (0..prng.below(3)).map(|_| path(1, prng.below(6), prng.chance(50))).collect();
    if prng.chance(75) {
        // Where a base does not arrive, there are fewer in the end.
        let nodes = near_limit(prng) - entered(&job).len() - made;
        job.blocks.push(block(u32::MAX, vec![], full_registry(nodes)));
    }
    job
}

/// Adds a path with one optional entry, mostly at the top, and gives how many nodes are made of it
/// where its base arrives.
fn add_optional(prng: &mut Prng, job: &mut Job, steps: usize, climbs: usize, number: usize) -> usize {
    // What climbs for the nth time has two entries more than before.
    let climb = if prng.chance(70) { climbs - 1 } else { prng.below(climbs) };
    let mut chain = path(1, 2 * climb, false);
    let length = prng.between(1, 3);
    for entry in 0..length {
        let property = Property::Name((1000 + 10 * number + entry) as u64);
        chain.entries.push(Entry { optional: entry == 0, property, span: prng.below(3) as u32 });
    }
    let place = if prng.chance(60) { prng.below(2) } else { prng.below(2 * steps) };
    job.blocks[place].assumed.push(chain);
    length
}
