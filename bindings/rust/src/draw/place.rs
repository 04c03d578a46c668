//! Where each point stands.

use super::align;
use super::layers::Layers;
use super::relax;

/// The room that a point takes: its box, and what stands beside it.
#[derive(Clone, Copy)]
pub(super) struct Extent {
    /// Half of the box's width.
    pub(super) half: f64,
    /// The box's height.
    pub(super) foot: f64,
    /// The room left of the box.
    pub(super) before: f64,
    /// The room right of the box.
    pub(super) after: f64,
    /// The height of the box and of what stands beside it.
    pub(super) height: f64,
}

impl Extent {
    /// The room left of the middle.
    pub(super) fn left(&self) -> f64 {
        self.half + self.before
    }

    /// The room right of the middle.
    pub(super) fn right(&self) -> f64 {
        self.half + self.after
    }
}

/// The middle of a point's top, and where its layer ends.
#[derive(Clone, Copy, Default)]
pub(super) struct At {
    pub(super) x: f64,
    pub(super) y: f64,
    pub(super) layer_end: f64,
}

/// Where all points stand, and the room that they take together.
pub(super) struct Placed {
    at: Vec<At>,
    pub(super) width: f64,
    pub(super) height: f64,
}

impl Placed {
    pub(super) fn at(&self, point: usize) -> At {
        self.at[point]
    }
}

const BEND: Extent = Extent { half: 4.0, foot: 0.0, before: 0.0, after: 0.0, height: 0.0 };

/// How much wider a picture may be for straight columns.
const WIDER: f64 = 1.4;

/// Places the points: in their layers, in the order that they have there, and apart.
pub(super) fn place(layers: &Layers, extents: &[Extent]) -> Placed {
    let extent = |point: usize| extents.get(point).copied().unwrap_or(BEND);
    let (mut x, left, width) = across(layers, &extent);
    x.iter_mut().for_each(|x| *x -= left);
    let (at, height) = downward(layers, &x, &extent);
    Placed { at, width, height }
}

/// The middle of each point, where the leftmost starts, and how wide all are together. They stand
/// in straight columns, or where those would take much more room, near their neighbours.
fn across(layers: &Layers, extent: &dyn Fn(usize) -> Extent) -> (Vec<f64>, f64, f64) {
    let measured = |x: Vec<f64>| {
        let (left, right) = align::sides(&x, extent);
        (x, left, right - left)
    };
    let (aligned, relaxed) = (measured(align::align(layers, extent)), measured(relax::relax(layers, extent)));
    if aligned.2 <= WIDER * relaxed.2 {
        aligned
    } else {
        relaxed
    }
}

/// Puts the layers under one another, with more room between where more arrows pass.
fn downward(layers: &Layers, x: &[f64], extent: &dyn Fn(usize) -> Extent) -> (Vec<At>, f64) {
    let mut at = vec![At::default(); x.len()];
    let mut below = vec![0; x.len()];
    layers.links().into_iter().for_each(|(upper, _)| below[upper] += 1);
    let mut y = 0.0;
    for points in &layers.layers {
        let height = points.iter().map(|&point| extent(point).height).fold(0.0, f64::max);
        for &point in points {
            at[point] = At { x: x[point], y, layer_end: y + height };
        }
        let passing: usize = points.iter().map(|&point| below[point]).sum();
        y += height + (34.0 + 5.0 * passing as f64).min(96.0);
    }
    let end = at.iter().map(|at| at.layer_end).fold(0.0, f64::max);
    (at, end)
}
