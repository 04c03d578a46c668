//! Where points stand from left to right, as Brandes and Köpf do it ("Fast and Simple Horizontal
//! Coordinate Assignment", 2001): points are put into straight upright lines with one of their
//! neighbours, four times, each time from another corner, and the middle of the four places is
//! taken.

use super::columns::Columns;
use super::layers::Layers;
use super::place::Extent;
use std::collections::BTreeSet;

/// The corner from which points are put into lines: whether that is at the bottom, and whether at
/// the right.
type Corner = (bool, bool);

const CORNERS: [Corner; 4] = [(false, false), (false, true), (true, false), (true, true)];

/// The middle of each point, with points of a layer in their order and apart.
pub(super) fn align(layers: &Layers, extent: &dyn Fn(usize) -> Extent) -> Vec<f64> {
    let crossed = crossed(layers);
    let places = CORNERS.map(|corner| from_corner(layers, &crossed, corner, extent));
    let sides = places.each_ref().map(|x| sides(x, extent));
    let narrowest = sides.iter().map(|(left, right)| right - left).fold(f64::INFINITY, f64::min);
    // All four start or end where the narrowest does, by the side from which they were put.
    let moved = |run: usize, x: f64| match CORNERS[run].1 {
        false => x - sides[run].0,
        true => x - sides[run].1 + narrowest,
    };
    let middle = |point: usize| {
        let mut each = [0, 1, 2, 3].map(|run| moved(run, places[run][point]));
        each.sort_by(f64::total_cmp);
        (each[1] + each[2]) / 2.0
    };
    (0..layers.points()).map(middle).collect()
}

/// The leftmost and the rightmost place that a point takes.
pub(super) fn sides(x: &[f64], extent: &dyn Fn(usize) -> Extent) -> (f64, f64) {
    let left = x.iter().enumerate().map(|(point, x)| x - extent(point).left());
    let right = x.iter().enumerate().map(|(point, x)| x + extent(point).right());
    (left.fold(f64::INFINITY, f64::min), right.fold(f64::NEG_INFINITY, f64::max))
}

/// The links that a link between two bends crosses. They are not made straight, so that the other
/// can be.
fn crossed(layers: &Layers) -> BTreeSet<(usize, usize)> {
    let places = layers.places();
    let links = layers.links();
    let by_layer = |inner: bool| {
        let mut by_layer = vec![Vec::new(); layers.layers.len()];
        for &(upper, lower) in &links {
            if inner == (layers.is_bend(upper) && layers.is_bend(lower)) {
                by_layer[places[upper].0].push((upper, lower));
            }
        }
        by_layer
    };
    let cross = |one: &(usize, usize), other: &(usize, usize)| {
        let above = places[one.0].1.cmp(&places[other.0].1);
        above.is_ne() && places[one.1].1.cmp(&places[other.1].1) == above.reverse()
    };
    let (inner, outer) = (by_layer(true), by_layer(false));
    let pairs = outer.into_iter().zip(inner);
    pairs
        .flat_map(|(outer, inner)| {
            outer.into_iter().filter(move |link| inner.iter().any(|other| cross(link, other)))
        })
        .collect()
}

/// The places that come from one corner.
fn from_corner(
    layers: &Layers,
    crossed: &BTreeSet<(usize, usize)>,
    (bottom, right): Corner,
    extent: &dyn Fn(usize) -> Extent,
) -> Vec<f64> {
    let mut turned = layers.layers.clone();
    if bottom {
        turned.reverse();
    }
    if right {
        turned.iter_mut().for_each(|layer| layer.reverse());
    }
    let mut before = vec![Vec::new(); layers.points()];
    for link @ (upper, lower) in layers.links() {
        if !crossed.contains(&link) {
            let (from, to) = if bottom { (lower, upper) } else { (upper, lower) };
            before[to].push(from);
        }
    }
    let columns = Columns::new(&turned, &before);
    let apart = |one: usize, other: usize| match right {
        false => extent(one).right() + layers.between(one, other) + extent(other).left(),
        true => extent(one).left() + layers.between(one, other) + extent(other).right(),
    };
    let x = columns.places(&turned, &apart);
    x.into_iter().map(|x| if right { -x } else { x }).collect()
}
