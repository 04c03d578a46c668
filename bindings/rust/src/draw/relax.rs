//! Where points stand from left to right, each near the middle of its neighbours. Lines bend more
//! than in straight columns, but take less room where many arrows pass.

use super::layers::Layers;
use super::place::Extent;

/// How often all layers are gone through.
const SWEEPS: usize = 24;

/// The middle of each point, with points of a layer in their order and apart.
pub(super) fn relax(layers: &Layers, extent: &dyn Fn(usize) -> Extent) -> Vec<f64> {
    let near = near(layers);
    let mut x = vec![0.0; layers.points()];
    for sweep in 0..SWEEPS {
        for step in 0..layers.layers.len() {
            let layer = if sweep % 2 == 0 { step } else { layers.layers.len() - 1 - step };
            place_layer(layers, layer, &near, extent, &mut x);
        }
    }
    x
}

/// All neighbours of each point, above and below.
fn near(layers: &Layers) -> Vec<Vec<usize>> {
    let mut near = vec![Vec::new(); layers.points()];
    for (upper, lower) in layers.links() {
        near[upper].push(lower);
        near[lower].push(upper);
    }
    near
}

/// Moves a layer's points as near to the middle of their neighbours as their order and room allow.
fn place_layer(
    layers: &Layers,
    layer: usize,
    near: &[Vec<usize>],
    extent: &dyn Fn(usize) -> Extent,
    x: &mut [f64],
) {
    let points = &layers.layers[layer];
    let mut offsets = vec![0.0];
    for pair in points.windows(2) {
        let gap = layers.between(pair[0], pair[1]);
        offsets.push(offsets[offsets.len() - 1] + extent(pair[0]).right() + gap + extent(pair[1]).left());
    }
    let middle = |point: usize| match near[point].len() {
        0 => x[point],
        count => near[point].iter().map(|&other| x[other]).sum::<f64>() / count as f64,
    };
    let wanted: Vec<f64> =
        points.iter().zip(&offsets).map(|(&point, offset)| middle(point) - offset).collect();
    for ((&point, offset), place) in points.iter().zip(&offsets).zip(ascending(&wanted)) {
        x[point] = place + offset;
    }
}

/// The ascending numbers nearest to the wanted ones: runs that would descend take their mean.
fn ascending(wanted: &[f64]) -> Vec<f64> {
    let mut runs: Vec<(f64, usize)> = Vec::new();
    for &value in wanted {
        runs.push((value, 1));
        while let [.., (before, many), (last, few)] = runs[..] {
            if before <= last {
                break;
            }
            let count = many + few;
            runs.truncate(runs.len() - 2);
            runs.push(((before * many as f64 + last * few as f64) / count as f64, count));
        }
    }
    runs.into_iter().flat_map(|(value, count)| std::iter::repeat_n(value, count)).collect()
}
