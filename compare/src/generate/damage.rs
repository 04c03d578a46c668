//! Damaged copies of good jobs.

use super::{edges, ladder, reads, shapes, with_reads};
use crate::prng::Prng;

pub fn damaged(prng: &mut Prng) -> Vec<u8> {
    let mut bytes = match prng.below(10) {
        0 => ladder::ladder(prng).to_bytes(),
        1 => edges::limits(prng),
        2 => edges::ids(prng),
        3 => with_reads(prng, shapes::tree),
        4 => with_reads(prng, shapes::with_loops),
        5 | 6 => reads::raw_reads(prng).to_bytes(),
        _ => with_reads(prng, shapes::without_loops),
    };
    for _ in 0..prng.pick(&[1, 1, 1, 2, 3]) {
        damage(prng, &mut bytes);
    }
    bytes
}

fn damage(prng: &mut Prng, bytes: &mut Vec<u8>) {
    let at = place(prng, bytes.len());
    match prng.below(9) {
        0 | 1 => bytes.truncate(at),
        2 if at < bytes.len() => bytes[at] = prng.below(256) as u8,
        3 if at < bytes.len() => bytes[at] = prng.pick(&[0, 1, 2, 16, 17, 64, 65, 128, 129, 255]),
        4 => bytes.insert(at, prng.below(256) as u8),
        5 if at < bytes.len() => {
            bytes.remove(at);
        }
        6 => swap_records(prng, bytes),
        7 | 8 => damage_read(prng, bytes),
        _ => bytes.push(prng.below(256) as u8),
    }
}

/// Any place, but often one of the first, where a small job has its head.
fn place(prng: &mut Prng, length: usize) -> usize {
    let within = if prng.chance(30) { length.min(24) } else { length };
    prng.below(within + 1)
}

/// Changes a field of a raw read, or ends the job in it. Where there is none, a byte follows the
/// job.
fn damage_read(prng: &mut Prng, bytes: &mut Vec<u8>) {
    let marks: Vec<usize> =
        (0..bytes.len().saturating_sub(34)).filter(|&at| bytes[at..].starts_with(b"RD")).collect();
    if marks.is_empty() {
        bytes.push(prng.below(256) as u8);
        return;
    }
    let at = prng.pick(&marks);
    match prng.below(5) {
        // The range start, and the numbers beside it.
        0 | 1 => bytes[at + 6..at + 10].fill(u8::MAX),
        2 => {
            let field = prng.pick(&[2, 10, 15, 19]);
            bytes[at + field..at + field + 4].fill(u8::MAX);
        }
        // Has-scope, known-immutable, reactive and the number of entries.
        3 => bytes[at + prng.pick(&[14, 23, 28, 33])] = prng.pick(&[0, 1, 2, 16, 17, 255]),
        _ => bytes.truncate(at + prng.below(35)),
    }
}

/// Swaps two parts that start at marks and have the same length.
fn swap_records(prng: &mut Prng, bytes: &mut [u8]) {
    let marks: Vec<usize> = (0..bytes.len().saturating_sub(1))
        .filter(|&at| matches!(&bytes[at..at + 2], b"BL" | b"RD" | b"PA" | b"CA"))
        .collect();
    if marks.len() < 2 {
        return;
    }
    let (a, b) = (prng.pick(&marks), prng.pick(&marks));
    let (a, b) = (a.min(b), a.max(b));
    let length = (b - a).min(bytes.len() - b).min(prng.pick(&[2, 9, 12, 24, 26, 34]));
    for offset in 0..length {
        bytes.swap(a + offset, b + offset);
    }
}
