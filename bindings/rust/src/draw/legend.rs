//! What the marks and colours of a picture stand for.

use super::svg::{Head, Look, Stroke, Svg};

/// The room that the legend takes.
pub(super) const WIDTH: f64 = 420.0;
const LINE: f64 = 18.0;

/// A text of parts, each with its class.
type Line = &'static [(&'static str, &'static str)];

const LINES: [Line; 4] = [
    &[("assumed", "assumes"), ("label", ": paths taken as given in the block")],
    &[("", "holds"), ("label", ": paths that count as known there in the end")],
    &[("", "1"), ("knife", "|"), ("cut", ".10"), ("label", ": cut, since 1 is not known there")],
    &[("", "1"), ("knife", "|"), ("covered", ".10"), ("label", ": not needed, since another ends at 1")],
];

const READS: Line =
    &[("assumed", "reads 1 at 3"), ("label", ": a property of 1 is read at 3, so 1 is given")];

const NOT_KEPT: Line = &[
    // Not every program shows a usual blank between two pieces.
    ("label", "not kept\u{a0}"),
    ("cut", "1 at 3"),
    ("label", ": a property of 1 read where 1 is mutable"),
];

const ADDED: Line =
    &[("added", "adds +1.10"), ("label", ": added there by reduction, where a ?. became plain")];

/// What the picture has that not every one has.
#[derive(Clone, Copy)]
pub(super) struct Has {
    /// Raw reads that are kept.
    pub(super) reads: bool,
    /// Raw reads that are not kept.
    pub(super) not_kept: bool,
    /// Paths whose nodes reduction added.
    pub(super) added: bool,
}

/// The lines below the first, which has the arrows.
fn lines(has: Has) -> impl Iterator<Item = Line> {
    let reads = has.reads.then_some(READS).into_iter().chain(has.not_kept.then_some(NOT_KEPT));
    LINES.into_iter().chain(reads).chain(has.added.then_some(ADDED))
}

pub(super) fn height(has: Has) -> f64 {
    LINE * (1 + lines(has).count()) as f64
}

/// Draws it, in a group of its own, so that its arrows are not among those that follow a block.
pub(super) fn draw(y: f64, has: Has, svg: &mut Svg) {
    svg.open("");
    arrow(0.0, y, Look::Control, svg);
    svg.text(44.0, y, "label", "control");
    arrow(130.0, y, Look::Loop, svg);
    svg.text(174.0, y, "label", "control that closes a loop");
    for (line, parts) in lines(has).enumerate() {
        svg.texts(0.0, y + LINE * (line + 1) as f64, parts, "");
    }
    svg.close();
}

fn arrow(x: f64, y: f64, look: Look, svg: &mut Svg) {
    let line = format!("M{x} {}h34", y - 4.0);
    let (classes, full) = (String::new(), String::new());
    let head = if look == Look::Loop { Head::First } else { Head::Last };
    svg.arrow(&Stroke { look, head, faint: false, classes, line, full });
}
