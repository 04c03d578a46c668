//! Random jobs of many shapes. A seed and a number give the same job again.

mod damage;
pub(crate) mod edges;
pub(crate) mod graph;
pub(crate) mod ladder;
mod late;
mod loops;
mod nodes;
mod reads;
mod repeats;
mod shapes;
mod words;

use crate::job::{Job, limits};
use crate::prng::Prng;

pub struct Generated {
    pub class: &'static str,
    pub out_len: usize,
    pub job: Vec<u8>,
}

/// A class of jobs: its name, how often it comes, and what makes a job of it.
struct Class {
    name: &'static str,
    weight: usize,
    make: fn(&mut Prng) -> Vec<u8>,
}

const CLASSES: &[Class] = &[
    Class { name: "no-loops", weight: 10, make: |prng| with_reads(prng, shapes::without_loops) },
    Class { name: "loops", weight: 10, make: |prng| with_reads(prng, shapes::with_loops) },
    Class { name: "reduction", weight: 12, make: |prng| with_reads(prng, shapes::reduction) },
    Class { name: "tree", weight: 12, make: |prng| with_reads(prng, shapes::tree) },
    Class { name: "numbers", weight: 6, make: |prng| with_reads(prng, shapes::numbers) },
    Class { name: "many-blocks", weight: 3, make: |prng| with_reads(prng, shapes::many_blocks) },
    Class { name: "ladder", weight: 4, make: |prng| with_reads_in_place(prng, ladder::ladder) },
    Class { name: "nodes-entered", weight: 3, make: |prng| with_reads_in_place(prng, nodes::entered) },
    Class { name: "nodes-reduced", weight: 2, make: |prng| with_reads_in_place(prng, nodes::reduced) },
    Class { name: "nodes-late", weight: 1, make: |prng| with_reads_in_place(prng, late::late) },
    Class { name: "repeats", weight: 10, make: |prng| repeats::repeats(prng).to_bytes() },
    Class { name: "many-loops", weight: 10, make: |prng| with_reads(prng, loops::many_loops) },
    Class { name: "nodes-looped", weight: 2, make: |prng| with_reads_in_place(prng, loops::nodes_looped) },
    Class { name: "raw-reads", weight: 12, make: reads::class },
    Class { name: "limits", weight: 6, make: edges::limits },
    Class { name: "job-size", weight: 1, make: edges::job_size },
    Class { name: "short-out", weight: 1, make: short_out },
    Class { name: "ids", weight: 5, make: edges::ids },
    Class { name: "damaged", weight: 14, make: damage::damaged },
];

/// A job of the shape, in some cases with raw reads.
fn with_reads(prng: &mut Prng, shape: fn(&mut Prng) -> Job) -> Vec<u8> {
    let job = shape(prng);
    reads::sometimes(prng, job).to_bytes()
}

/// A job of the shape, in some cases with raw reads that leave it the nodes that it has.
fn with_reads_in_place(prng: &mut Prng, shape: fn(&mut Prng) -> Job) -> Vec<u8> {
    let job = shape(prng);
    reads::in_place(prng, job).to_bytes()
}

pub fn class_names() -> impl Iterator<Item = &'static str> {
    CLASSES.iter().map(|class| class.name)
}

/// Job `number` of `seed`: of the class asked for, or of any.
pub fn generate(seed: u64, number: u64, class: Option<&str>) -> Generated {
    let mut prng = Prng::new(seed, number);
    let class = match class {
        Some(name) => CLASSES.iter().find(|class| class.name == name).expect("a known class"),
        None => pick_class(&mut prng),
    };
    let job = (class.make)(&mut prng);
    Generated { class: class.name, out_len: out_len(&mut prng, class.name), job }
}

fn pick_class(prng: &mut Prng) -> &'static Class {
    let mut left = prng.below(CLASSES.iter().map(|class| class.weight).sum());
    for class in CLASSES {
        if left < class.weight {
            return class;
        }
        left -= class.weight;
    }
    unreachable!("the weights add up")
}

/// A job that would be accepted, or one that would be refused otherwise.
fn short_out(prng: &mut Prng) -> Vec<u8> {
    if prng.chance(50) { with_reads(prng, shapes::without_loops) } else { damage::damaged(prng) }
}

/// Mostly long enough for all operations.
fn out_len(prng: &mut Prng, class: &str) -> usize {
    let (least, least_thin) = (limits::OUT_BYTES, limits::THIN_BYTES);
    match class {
        "short-out" => prng.pick(&[0, 1, 2, 6, 4096, least - 1, least, least_thin - 1]),
        _ if prng.chance(10) => least_thin + prng.below(4096),
        // Too short for a thin job alone.
        _ if prng.chance(5) => prng.between(least, least_thin - 1),
        _ => least_thin,
    }
}
