//! The order of points within their layers, with few crossings of arrows.

use super::layers::Layers;

/// How often all layers are gone through.
const SWEEPS: usize = 16;

/// The neighbours of each point in the layer above and in the layer below.
struct Near {
    above: Vec<Vec<usize>>,
    below: Vec<Vec<usize>>,
}

impl Near {
    fn new(layers: &Layers) -> Self {
        let none = vec![Vec::new(); layers.points()];
        let mut near = Self { above: none.clone(), below: none };
        for (upper, lower) in layers.links() {
            near.below[upper].push(lower);
            near.above[lower].push(upper);
        }
        near
    }
}

/// Puts each point near the middle of its neighbours, down and up again, and keeps the best order
/// met.
pub(super) fn order(layers: &mut Layers) {
    let near = Near::new(layers);
    let mut best = (crossings(layers, &near), layers.layers.clone());
    for sweep in 0..SWEEPS {
        let count = layers.layers.len();
        for step in 1..count {
            let down = sweep % 2 == 0;
            let layer = if down { step } else { count - 1 - step };
            sort(layers, layer, if down { &near.above } else { &near.below });
        }
        let now = crossings(layers, &near);
        if now < best.0 {
            best = (now, layers.layers.clone());
        }
    }
    layers.layers = best.1;
}

/// Sorts a layer by the middle of each point's neighbours; a point without any keeps its place.
fn sort(layers: &mut Layers, layer: usize, near: &[Vec<usize>]) {
    let places = layers.places();
    let middle = |point: usize| {
        let sum: usize = near[point].iter().map(|&other| places[other].1).sum();
        match near[point].len() {
            0 => places[point].1 as f64,
            count => sum as f64 / count as f64,
        }
    };
    layers.layers[layer].sort_by(|&one, &other| middle(one).total_cmp(&middle(other)));
}

/// How many pairs of arrows cross between neighbouring layers.
fn crossings(layers: &Layers, near: &Near) -> usize {
    let places = layers.places();
    layers.layers.iter().map(|layer| crossings_below(layer, near, &places)).sum()
}

fn crossings_below(layer: &[usize], near: &Near, places: &[(usize, usize)]) -> usize {
    let mut count = 0;
    let mut ends_before: Vec<usize> = Vec::new();
    for &point in layer {
        let ends = near.below[point].iter().map(|&other| places[other].1);
        count +=
            ends.clone().map(|end| ends_before.iter().filter(|&&before| before > end).count()).sum::<usize>();
        ends_before.extend(ends);
    }
    count
}
