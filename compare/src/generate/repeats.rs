//! Jobs in which paths stand again, as they were or with one thing changed.

use super::{nodes, reads, shapes};
use crate::job::{Block, Entry, Job, Path, Property, limits};
use crate::prng::Prng;

pub fn repeats(prng: &mut Prng) -> Job {
    let job = match prng.below(8) {
        0 => shapes::with_loops(prng),
        1 | 2 => shapes::numbers(prng),
        3 => shapes::tree(prng),
        4 => shapes::reduction(prng),
        // Many of these are refused by 9.
        5 => nodes::entered(prng),
        _ => shapes::without_loops(prng),
    };
    let mut job = reads::sometimes(prng, job);
    let pool: Vec<Path> =
        job.blocks.iter().flat_map(|block| &block.assumed).chain(&job.candidates).cloned().collect();
    for block in &mut job.blocks {
        repeat_some(prng, &mut block.assumed, &pool, limits::ASSUMED);
        repeat_reads(prng, block);
    }
    repeat_some(prng, &mut job.candidates, &pool, limits::CANDIDATES);
    match prng.below(40) {
        0 => fill(prng, &mut job.blocks[0].assumed, &pool, limits::ASSUMED),
        1 => fill(prng, &mut job.candidates, &pool, limits::CANDIDATES),
        _ => {}
    }
    job
}

/// Adds paths of the list, or of another one, anywhere in it.
fn repeat_some(prng: &mut Prng, list: &mut Vec<Path>, pool: &[Path], most: usize) {
    for _ in 0..prng.pick(&[0, 1, 2, 2, 4, 8]) {
        let from = if list.is_empty() || prng.chance(25) { pool } else { &list[..] };
        if from.is_empty() || list.len() == most {
            return;
        }
        let mut copy = from[prng.below(from.len())].clone();
        change(prng, &mut copy);
        let place = prng.below(list.len() + 1);
        list.insert(place, copy);
    }
}

/// Repeats raw reads, and assumes paths that are read too.
fn repeat_reads(prng: &mut Prng, block: &mut Block) {
    if prng.chance(50) {
        reads::repeat(prng, block);
    }
    for read in &block.reads {
        if prng.chance(20) && block.assumed.len() < limits::ASSUMED {
            let place = prng.below(block.assumed.len() + 1);
            block.assumed.insert(place, read.path.clone());
        }
    }
}

/// Makes of the list the most equal paths that it can hold, sometimes with one that differs.
fn fill(prng: &mut Prng, list: &mut Vec<Path>, pool: &[Path], most: usize) {
    let Some(path) = pool.first() else { return };
    let mut path = path.clone();
    path.entries.truncate(4);
    *list = vec![path; most];
    for copy in list.iter_mut() {
        copy.span = prng.below(3) as u32;
        copy.reactive = prng.chance(50);
    }
    if prng.chance(50) {
        let place = prng.below(most);
        change(prng, &mut list[place]);
    }
}

/// Changes what a comparison of paths passes over, or one thing that it must see, or nothing.
fn change(prng: &mut Prng, path: &mut Path) {
    match prng.below(12) {
        0 | 1 => path.span = prng.below(4) as u32,
        2 | 3 => path.reactive = !path.reactive,
        4 => path.entries.iter_mut().for_each(|entry| entry.span = prng.below(4) as u32),
        5 => change_entry(prng, path, |entry| entry.optional = !entry.optional),
        6 => change_entry(prng, path, |entry| entry.property = with_other_sign(entry.property)),
        7 => change_entry(prng, path, |entry| entry.property = of_other_kind(entry.property)),
        8 => drop(path.entries.pop()),
        9 if path.entries.len() < limits::ENTRIES => path.entries.extend(path.entries.last().copied()),
        10 => path.identifier ^= 1,
        _ => {}
    }
}

fn change_entry(prng: &mut Prng, path: &mut Path, change: impl Fn(&mut Entry)) {
    if !path.entries.is_empty() {
        let place = prng.below(path.entries.len());
        change(&mut path.entries[place]);
    }
}

/// +0 and −0 are each other's.
fn with_other_sign(property: Property) -> Property {
    match property {
        Property::Name(value) => Property::Name(value),
        Property::Number(bits) => Property::Number(bits ^ 1 << 63),
    }
}

fn of_other_kind(property: Property) -> Property {
    match property {
        Property::Name(value) => Property::Number(value),
        Property::Number(value) => Property::Name(value),
    }
}
