//! The lines that the arrows below one block share. Each stretch of one is drawn once, so that it
//! is no darker than other lines, and is lit together with each arrow that goes along it.

use super::layers::Arrow;
use std::collections::{BTreeMap, BTreeSet};

/// A stretch of a shared line.
pub(super) struct Stretch {
    /// The points along it, from the top down: from the block, or from the bend at which the
    /// stretch above ends, to the bend at which one arrow leaves the line or more.
    pub(super) points: Vec<usize>,
    /// The arrows that go along it.
    pub(super) arrows: Vec<usize>,
}

/// What arrows share, and what they do not.
pub(super) struct Shared {
    pub(super) stretches: Vec<Stretch>,
    /// For each arrow, from which of its points on the line is its own.
    pub(super) own_from: Vec<usize>,
}

impl Shared {
    pub(super) fn new(arrows: &[Arrow]) -> Self {
        let mut shared = Self { stretches: Vec::new(), own_from: vec![0; arrows.len()] };
        for group in by_line(arrows).into_values().filter(|group| group.len() > 1) {
            shared.add(arrows, &group);
        }
        shared
    }

    /// Cuts the line of these arrows where one of them leaves it.
    fn add(&mut self, arrows: &[Arrow], group: &[usize]) {
        let bends = |arrow: usize| arrows[arrow].points.len() - 2;
        group.iter().for_each(|&arrow| self.own_from[arrow] = bends(arrow));
        let longest = group.iter().max_by_key(|&&arrow| bends(arrow)).map(|&arrow| &arrows[arrow].points);
        let ends: BTreeSet<usize> = group.iter().map(|&arrow| bends(arrow)).collect();
        let starts = std::iter::once(0).chain(ends.iter().copied());
        for ((start, &end), points) in starts.zip(&ends).zip(longest.into_iter().cycle()) {
            let along = group.iter().copied().filter(|&arrow| bends(arrow) >= end).collect();
            self.stretches.push(Stretch { points: points[start..=end].to_vec(), arrows: along });
        }
    }
}

/// The arrows with bends, by the block from which their line goes down and by whether they close
/// loops.
fn by_line(arrows: &[Arrow]) -> BTreeMap<(usize, bool), Vec<usize>> {
    let mut by_line: BTreeMap<_, Vec<usize>> = BTreeMap::new();
    for (place, arrow) in arrows.iter().enumerate().filter(|(_, arrow)| arrow.points.len() > 2) {
        by_line.entry((arrow.points[0], arrow.closes_loop)).or_default().push(place);
    }
    by_line
}
