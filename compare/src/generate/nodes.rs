//! Jobs whose registry ends near 512 nodes.

use super::shapes::spanless;
use super::words::Words;
use crate::job::{Block, Entry, Job, Path, Property, limits};
use crate::prng::Prng;
use crate::worst;
use std::collections::HashSet;

pub fn near_limit(prng: &mut Prng) -> usize {
    prng.pick(&[limits::NODES - 1, limits::NODES, limits::NODES + 1, limits::NODES + 2])
}

/// The number is reached by entering the assumed paths, with nothing to reduce.
pub fn entered(prng: &mut Prng) -> Job {
    let goal = near_limit(prng);
    let mut words = Words::few(prng);
    words.longest = prng.pick(&[4, 8, limits::ENTRIES]);
    let mut counter = Counter::default();
    let mut paths = Vec::new();
    let mut fresh = 1000;
    while counter.nodes.len() < goal {
        let path = counter.new_path(prng, &words, &paths, &mut fresh, goal);
        counter.enter(&path);
        paths.push(path);
    }
    in_blocks(prng, paths)
}

/// The nodes that a list of paths makes.
#[derive(Default)]
struct Counter {
    nodes: HashSet<(u32, Vec<Entry>)>,
}

impl Counter {
    fn enter(&mut self, path: &Path) {
        for length in 0..=path.entries.len() {
            self.nodes.insert((path.identifier, spanless(&path.entries[..length])));
        }
    }

    /// A path near the others that makes a node, but none too many.
    fn new_path(
        &self,
        prng: &mut Prng,
        words: &Words,
        others: &[Path],
        fresh: &mut u64,
        goal: usize,
    ) -> Path {
        let mut path = words.path_near(prng, others);
        let known = |length| self.nodes.contains(&(path.identifier, spanless(&path.entries[..length])));
        let shared = (0..=path.entries.len()).take_while(|&length| known(length)).count();
        if shared == 0 {
            path.entries.truncate(goal - self.nodes.len() - 1);
            return path;
        }
        // The entries that stand already are kept, and one with a new name follows.
        path.entries.truncate(shared.min(limits::ENTRIES) - 1);
        let left = goal - self.nodes.len();
        for _ in 0..prng.between(1, left.min(limits::ENTRIES - path.entries.len())) {
            *fresh += 1;
            // Plain entries only: a base of an optional one must not stand in the set.
            let property = Property::Name(*fresh);
            path.entries.push(Entry { optional: false, property, span: words.span(prng) });
        }
        path
    }
}

/// Spreads paths over blocks without edges, or with a few.
fn in_blocks(prng: &mut Prng, paths: Vec<Path>) -> Job {
    let mut blocks: Vec<Block> = Vec::new();
    for path in paths {
        if blocks.is_empty() || prng.chance(3) || blocks[blocks.len() - 1].assumed.len() == 255 {
            let id = blocks.len() as u32;
            blocks.push(worst::block(id, vec![], vec![]));
        }
        blocks.last_mut().expect("a block was made").assumed.push(path);
    }
    let scope = blocks[prng.below(blocks.len())].id;
    let candidates: Vec<Path> =
        (0..prng.below(3)).map(|_| blocks[prng.below(blocks.len())].assumed[0].clone()).collect();
    Job { scope, blocks, candidates }
}

/// The number is only reached by reduction. Each path here has an optional first
/// entry and meets its root, so that as many nodes are made as it has entries.
pub fn reduced(prng: &mut Prng) -> Job {
    let goal = near_limit(prng);
    let roots: Vec<u32> = (1..=prng.between(1, 3) as u32).collect();
    let mut paths = Vec::new();
    let mut left = goal - roots.len();
    let mut fresh = 1000;
    while left > 1 {
        let longest = prng.pick(&[1, 4, limits::ENTRIES]).min(left / 2);
        let length = prng.between(1, longest);
        left -= 2 * length;
        let entries = (0..length).map(|n| entry(prng, &mut fresh, n == 0)).collect();
        paths.push(Path { identifier: prng.pick(&roots), reactive: true, span: 0, entries });
    }
    // One node is left over where the number is odd.
    let mut bases: Vec<Path> = roots.iter().map(|&root| base(root)).collect();
    if left == 1 {
        bases[0].entries.push(entry(prng, &mut fresh, false));
        bases.push(base(roots[0]));
    }
    with_bases(prng, paths, bases)
}

fn base(identifier: u32) -> Path {
    Path { identifier, reactive: true, span: 7, entries: vec![] }
}

fn entry(prng: &mut Prng, fresh: &mut u64, optional: bool) -> Entry {
    *fresh += 1;
    Entry { optional, property: Property::Name(*fresh), span: prng.below(3) as u32 }
}

/// The bases stand in the first block and come to the others in the forward walk.
fn with_bases(prng: &mut Prng, paths: Vec<Path>, bases: Vec<Path>) -> Job {
    let mut blocks = vec![worst::block(9, vec![], bases)];
    for part in paths.chunks(prng.between(40, 250)) {
        let id = 10 + blocks.len() as u32;
        blocks.push(worst::block(id, vec![9], part.to_vec()));
    }
    let scope = blocks[prng.below(blocks.len())].id;
    let candidates = paths.into_iter().take(prng.below(3)).collect();
    Job { scope, blocks, candidates }
}
