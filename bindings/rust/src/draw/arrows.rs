//! The arrows between blocks.

use super::boxes::OWN_ARROW;
use super::layers::{Arrow, Layers};
use super::line::Line;
use super::place::{Extent, Placed};
use super::shared::{Shared, Stretch};
use super::style;
use super::svg::{Head, Look, Stroke, Svg};
use super::view::View;

/// The most space between the ends of two arrows at one block.
const BETWEEN_ENDS: f64 = 22.0;

/// What is drawn, and where.
pub(super) struct Drawn<'a> {
    pub(super) view: &'a View,
    pub(super) layers: &'a Layers,
    pub(super) placed: &'a Placed,
    /// By number in the view: the room, and what the arrows' titles say.
    pub(super) extents: &'a [Extent],
    pub(super) names: Vec<&'a str>,
}

impl Drawn<'_> {
    pub(super) fn draw_arrows(&self, svg: &mut Svg) {
        let (ends, shared) = (Ends::new(self), Shared::new(&self.layers.arrows));
        shared.stretches.iter().for_each(|stretch| svg.arrow(&self.stretch(stretch, &ends)));
        for (place, arrow) in self.layers.arrows.iter().enumerate() {
            svg.arrow(&self.stroke(arrow, shared.own_from[place], ends.starts[place], ends.finishes[place]));
        }
        self.layers.own_predecessors.iter().for_each(|&block| svg.arrow(&self.own(block)));
    }

    /// An arrow, from this one of its points on.
    fn stroke(&self, arrow: &Arrow, own_from: usize, start: f64, finish: f64) -> Stroke {
        let (from, to) = from_and_to(arrow);
        let start = if own_from == 0 { start } else { self.placed.at(arrow.points[own_from]).x };
        let head = match arrow.closes_loop {
            false => Head::Last,
            true if own_from == 0 => Head::First,
            true => Head::None,
        };
        Stroke {
            look: self.look(arrow),
            head,
            faint: arrow.straight,
            classes: [from, to].map(|end| self.class(end)).concat(),
            line: self.line(&arrow.points[own_from..], start, Some(finish)),
            full: format!("from {} to {}", self.names[from], self.names[to]),
        }
    }

    /// A stretch that arrows share.
    fn stretch(&self, stretch: &Stretch, ends: &Ends) -> Stroke {
        let arrows = stretch.arrows.iter().map(|&arrow| &self.layers.arrows[arrow]);
        let mut at_ends: Vec<usize> =
            arrows.clone().flat_map(|arrow| <[usize; 2]>::from(from_and_to(arrow))).collect();
        at_ends.sort();
        at_ends.dedup();
        let (first, at_block) = (stretch.points[0], !self.layers.is_bend(stretch.points[0]));
        let start = if at_block { ends.starts[stretch.arrows[0]] } else { self.placed.at(first).x };
        let closes_loop = arrows.clone().any(|arrow| arrow.closes_loop);
        let mut looks = arrows.map(|arrow| self.look(arrow));
        Stroke {
            look: looks.find(|&look| look != Look::LeftOut).unwrap_or(Look::LeftOut),
            head: if closes_loop && at_block { Head::First } else { Head::None },
            faint: false,
            classes: at_ends.into_iter().map(|end| self.class(end)).collect(),
            line: self.line(&stretch.points, start, None),
            full: String::new(),
        }
    }

    fn look(&self, arrow: &Arrow) -> Look {
        let (from, to) = from_and_to(arrow);
        match arrow.closes_loop {
            _ if self.view.is_gap(from) || self.view.is_gap(to) => Look::LeftOut,
            true => Look::Loop,
            false => Look::Control,
        }
    }

    /// The class of the arrows at a block, with a blank before it. A gap has none.
    fn class(&self, number: usize) -> String {
        self.view.blocks.get(number).map_or(String::new(), |&block| format!(" {}", style::at_block(block)))
    }

    /// The arrow of a block that is its own predecessor, left of it.
    fn own(&self, block: usize) -> Stroke {
        let at = self.placed.at(block);
        let (left, out) = (at.x - self.extents[block].half, OWN_ARROW - 4.0);
        let mut line = Line::new(left, at.y + 8.0);
        line.curve([-out, -8.0], [-out, 28.0], [0.0, 18.0]);
        let full = format!("{} is its own predecessor", self.names[block]);
        let classes = self.class(block);
        Stroke { look: Look::Loop, head: Head::First, faint: false, classes, line: line.text(), full }
    }

    /// The line along these points, upright within each layer. It starts at the first one's bottom,
    /// and ends at this place of the last one's top, or without one at its bottom.
    fn line(&self, points: &[usize], start: f64, finish: Option<f64>) -> String {
        let at = self.placed.at(points[0]);
        let bottom = self.extents.get(points[0]).map_or(at.layer_end, |extent| at.y + extent.foot);
        let mut line = Line::new(start, bottom);
        line.down_to(at.layer_end);
        let last = points.len() - 1;
        for (place, &point) in points.iter().enumerate().skip(1) {
            let (at, finish) = (self.placed.at(point), finish.filter(|_| place == last));
            line.bend_to(finish.unwrap_or(at.x), at.y);
            if finish.is_none() {
                line.down_to(at.layer_end);
            }
        }
        line.text()
    }
}

/// The block or gap from which an arrow comes, and the one to which it goes.
fn from_and_to(arrow: &Arrow) -> (usize, usize) {
    let (upper, lower) = (arrow.points[0], arrow.points[arrow.points.len() - 1]);
    if arrow.closes_loop {
        (lower, upper)
    } else {
        (upper, lower)
    }
}

/// Where arrows touch their blocks: for each arrow the place at its upper end and at its lower end.
struct Ends {
    starts: Vec<f64>,
    finishes: Vec<f64>,
}

impl Ends {
    fn new(drawn: &Drawn) -> Self {
        let arrows = &drawn.layers.arrows;
        let mut ends = Self { starts: vec![0.0; arrows.len()], finishes: vec![0.0; arrows.len()] };
        for (block, extent) in drawn.extents.iter().enumerate() {
            let middle = drawn.placed.at(block).x;
            let below = toward(arrows, |arrow| (arrow.points[0], arrow.points[1]), block);
            spread(below, drawn.placed, middle, extent.half, &mut ends.starts);
            let last = |arrow: &Arrow| arrow.points.len() - 1;
            let above = |arrow: &Arrow| (arrow.points[last(arrow)], arrow.points[last(arrow) - 1]);
            spread(toward(arrows, above, block), drawn.placed, middle, extent.half, &mut ends.finishes);
        }
        ends
    }
}

/// An arrow, and to which point it goes from a block; arrows that close loops are kept apart.
type Toward = (usize, (usize, bool));

/// The arrows with an end at the block, where `end` gives that end and the next point.
fn toward(arrows: &[Arrow], end: impl Fn(&Arrow) -> (usize, usize), block: usize) -> Vec<Toward> {
    let each = arrows.iter().enumerate().filter(|(_, arrow)| end(arrow).0 == block);
    each.map(|(place, arrow)| (place, (end(arrow).1, arrow.closes_loop))).collect()
}

/// Spreads arrows along a side of a block, in the order of the points to which they go. Those to
/// the same point have the same end. Where a point is straight above or below, its arrows end in
/// the middle.
fn spread(arrows: Vec<Toward>, placed: &Placed, middle: f64, half: f64, ends: &mut [f64]) {
    let mut points: Vec<(usize, bool)> = arrows.iter().map(|&(_, point)| point).collect();
    points.sort_by(|one, other| placed.at(one.0).x.total_cmp(&placed.at(other.0).x).then(one.cmp(other)));
    points.dedup();
    let last = points.len().saturating_sub(1) as f64;
    let straight = points.iter().position(|&(point, _)| (placed.at(point).x - middle).abs() < 0.5);
    let centre = straight.map_or(last / 2.0, |place| place as f64);
    let between = BETWEEN_ENDS.min((half - 8.0) / centre.max(last - centre).max(1.0));
    for (arrow, point) in arrows {
        let place = points.iter().position(|&other| other == point).unwrap_or(0);
        ends[arrow] = middle + between * (place as f64 - centre);
    }
}
