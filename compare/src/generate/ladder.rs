//! Jobs that need a chosen number of rounds, beyond the 100 that are run as well.
//!
//! The ladder has blocks `low[k]` and `high[k]`, with edges both ways between
//! `low[k]` and `high[k]` and between `high[k]` and `low[k + 1]`. Both walks come
//! from the top, so at each block the upper neighbour is Active and ignored. A
//! path gets from `high[k]` to `low[k + 1]` only in a forward walk and from
//! `low[k]` to `high[k]` only in a backward walk: a source and a sink without
//! paths stop it in the other walks. So each round lifts a path by one step.
//!
//! At the top an optional path becomes plain once its base arrives. The block
//! `back` sees it in the backward walk, makes the next path plain in turn, and
//! hands that one to the bottom in the next forward walk: the climb starts anew,
//! with a path that is longer by two entries.

use crate::job::{Entry, Job, Path, Property, limits};
use crate::prng::Prng;
use crate::worst::block;

/// Each step is two blocks, and five blocks stand beside the ladder.
pub const MOST_STEPS: usize = (limits::BLOCKS - 5) / 2;

pub fn ladder(prng: &mut Prng) -> Job {
    let climbs = prng.between(1, limits::ENTRIES / 2 + 1);
    let steps = match prng.below(4) {
        // Near the last round that is run.
        0 => (prng.between(97, 102) / climbs).min(MOST_STEPS),
        1 => prng.between(1, MOST_STEPS),
        _ => prng.between(1, 6),
    };
    let mut job = of(prng.between(1, 3) as u32, steps, climbs);
    job.scope = job.blocks[prng.below(job.blocks.len())].id;
    let count = prng.below(4);
    job.candidates = (0..count).map(|_| path(1, prng.below(limits::ENTRIES + 1), prng.chance(50))).collect();
    if prng.chance(20) {
        spoil(prng, &mut job);
    }
    job
}

/// Removes a random predecessor, so that other round counts come up too.
fn spoil(prng: &mut Prng, job: &mut Job) {
    let place = prng.below(job.blocks.len());
    let predecessors = &mut job.blocks[place].predecessors;
    if !predecessors.is_empty() {
        predecessors.remove(prng.below(predecessors.len()));
    }
}

/// `identifier` with `length` entries, the last of them optional or not.
pub fn path(identifier: u32, length: usize, optional: bool) -> Path {
    let mut entries: Vec<Entry> = (0..length)
        .map(|n| Entry { optional: false, property: Property::Name(n as u64 + 10), span: 0 })
        .collect();
    if let Some(last) = entries.last_mut() {
        last.optional = optional;
    }
    Path { identifier, reactive: true, span: 0, entries }
}

/// A ladder of `steps` steps that is climbed `climbs` times.
pub fn of(identifier: u32, steps: usize, climbs: usize) -> Job {
    // The highest step has the lowest id and comes first in the job.
    let high = |k: usize| 2 * (steps - k) as u32;
    let low = |k: usize| high(k) + 1;
    let [source, sink, back, middle, beside] = [0, 1, 2, 3, 4].map(|n| 2 * steps as u32 + n);
    let plain = |length| path(identifier, length, false);
    let optional = |length| path(identifier, length, true);
    let returns = (1..climbs).map(|climb| 2 * climb);

    let mut blocks = Vec::new();
    for k in (1..=steps).rev() {
        let mut above = vec![low(k)];
        above.extend((k < steps).then(|| low(k + 1)));
        blocks.push(block(high(k), [above, vec![source]].concat(), vec![]));
        let mut below = vec![high(k)];
        below.extend(if k > 1 { Some(high(k - 1)) } else { Some(middle) });
        below.extend((k == steps).then_some(back));
        let mut assumed = if k == 1 { vec![plain(0)] } else { vec![] };
        if k == steps {
            assumed.extend(returns.clone().map(|length| optional(length - 1)));
        }
        blocks.push(block(low(k), below, assumed));
    }
    let to_sink = (1..=steps).map(low).chain([source]).collect::<Vec<u32>>();
    let sink_predecessors = to_sink[to_sink.len().saturating_sub(limits::PREDECESSORS)..].to_vec();
    blocks.push(block(sink, sink_predecessors, vec![]));
    let back_paths = [plain(0)].into_iter().chain(returns.clone().map(optional)).collect();
    blocks.push(block(back, vec![], back_paths));
    let middle_paths = returns.clone().map(|length| plain(length - 1)).collect();
    blocks.push(block(middle, vec![back, beside], middle_paths));
    blocks.push(block(beside, vec![], returns.map(plain).collect()));
    blocks.push(block(source, vec![], vec![]));
    Job { scope: source, blocks, candidates: vec![] }
}
