//! The identifiers, properties and spans that a job's paths are made of.

use crate::job::{Entry, Path, Property};
use crate::prng::Prng;

const NANS: [u64; 5] = [
    0x7ff8_0000_0000_0000,
    0xfff8_0000_0000_0000,
    0x7ff0_0000_0000_0001,
    0x7fff_ffff_ffff_ffff,
    0xffff_ffff_ffff_ffff,
];
const PLUS_ZERO: u64 = 0;
const MINUS_ZERO: u64 = 1 << 63;
const ONE: u64 = 0x3ff0_0000_0000_0000;

/// Few words, so that paths share prefixes.
pub struct Words {
    identifiers: Vec<u32>,
    properties: Vec<Property>,
    /// How many entries in a hundred are optional.
    pub optional: usize,
    /// How many spans in a hundred are 0.
    no_span: usize,
    pub longest: usize,
}

impl Words {
    pub fn few(prng: &mut Prng) -> Self {
        let identifiers = identifiers(prng);
        let count = prng.between(1, 4);
        let properties = (0..count).map(|n| property(prng, n)).collect();
        Self::of(prng, identifiers, properties)
    }

    /// Numbers that compare differently as floats and as bits, and names of equal value.
    pub fn numbers(prng: &mut Prng) -> Self {
        let values = [&NANS[..], &[PLUS_ZERO, MINUS_ZERO, ONE, 10]].concat();
        let count = prng.between(2, 6);
        let mut properties = Vec::new();
        for _ in 0..count {
            let value = prng.pick(&values);
            properties.push(Property::Number(value));
            if prng.chance(40) {
                properties.push(Property::Name(value));
            }
        }
        if prng.chance(50) {
            properties.extend([Property::Number(PLUS_ZERO), Property::Number(MINUS_ZERO)]);
        }
        let identifiers = identifiers(prng);
        Self::of(prng, identifiers, properties)
    }

    fn of(prng: &mut Prng, identifiers: Vec<u32>, properties: Vec<Property>) -> Self {
        let optional = prng.pick(&[0, 20, 50, 50, 80, 100]);
        let no_span = prng.pick(&[0, 30, 100]);
        let longest = prng.pick(&[1, 2, 3, 3, 4, 6, 16]);
        Self { identifiers, properties, optional, no_span, longest }
    }

    pub fn span(&self, prng: &mut Prng) -> u32 {
        match prng.below(100) {
            n if n < self.no_span => 0,
            99 => u32::MAX,
            _ => prng.between(1, 5000) as u32,
        }
    }

    pub fn entry(&self, prng: &mut Prng) -> Entry {
        let property = prng.pick(&self.properties);
        Entry { optional: prng.chance(self.optional), property, span: self.span(prng) }
    }

    pub fn path(&self, prng: &mut Prng) -> Path {
        let length = prng.below(self.longest + 1);
        Path {
            identifier: prng.pick(&self.identifiers),
            reactive: prng.chance(50),
            span: self.span(prng),
            entries: (0..length).map(|_| self.entry(prng)).collect(),
        }
    }

    /// A new path, or one that is near a path in `others`.
    pub fn path_near(&self, prng: &mut Prng, others: &[Path]) -> Path {
        if others.is_empty() || prng.chance(25) {
            return self.path(prng);
        }
        let mut path = others[prng.below(others.len())].clone();
        path.span = self.span(prng);
        path.reactive ^= prng.chance(20);
        match prng.below(5) {
            // A base of it.
            0 | 1 => path.entries.truncate(prng.below(path.entries.len() + 1)),
            2 => {}
            _ if path.entries.len() < self.longest => path.entries.push(self.entry(prng)),
            _ => {}
        }
        for entry in &mut path.entries {
            entry.optional ^= prng.chance(25);
            entry.span = if prng.chance(50) { self.span(prng) } else { entry.span };
        }
        path
    }

    /// Up to `most` paths that are near each other.
    pub fn paths(&self, prng: &mut Prng, most: usize) -> Vec<Path> {
        let mut paths: Vec<Path> = Vec::new();
        for _ in 0..prng.below(most + 1) {
            let path = self.path_near(prng, &paths);
            paths.push(path);
        }
        paths
    }
}

fn identifiers(prng: &mut Prng) -> Vec<u32> {
    let count = prng.pick(&[1, 1, 2, 3]);
    (0..count).map(|n| if prng.chance(10) { prng.pick(&[0, u32::MAX]) } else { n + 1 }).collect()
}

fn property(prng: &mut Prng, number: usize) -> Property {
    let value = number as u64 + 10;
    match prng.below(20) {
        0 => Property::Name(prng.pick(&[0, u64::MAX])),
        1 => Property::Number(prng.pick(&[PLUS_ZERO, MINUS_ZERO, NANS[0], ONE])),
        2 => Property::Number(value),
        _ => Property::Name(value),
    }
}
