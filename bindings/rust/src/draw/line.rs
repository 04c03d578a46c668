//! The text of an arrow's line, as short as it goes: steps from where the last one ended, in
//! tenths.

use super::svg::short;
use std::fmt::Write;

pub(super) struct Line {
    text: String,
    x: f64,
    y: f64,
    /// How far the line goes straight down from there. It is written only when something else
    /// follows, so that no stretch is without length: a browser takes an arrowhead's direction from
    /// the first and the last stretch.
    down: f64,
}

/// What the text can say. Steps between such numbers add up without a rest.
fn in_tenths(number: f64) -> f64 {
    (number * 10.0).round() / 10.0
}

impl Line {
    pub(super) fn new(x: f64, y: f64) -> Self {
        let (x, y) = (in_tenths(x), in_tenths(y));
        Self { text: format!("M{} {}", short(x), short(y)), x, y, down: 0.0 }
    }

    /// Straight down.
    pub(super) fn down_to(&mut self, y: f64) {
        self.down = in_tenths(y) - self.y;
    }

    /// Down to another place, upright at both ends.
    pub(super) fn bend_to(&mut self, x: f64, y: f64) {
        let across = in_tenths(x) - self.x;
        if across.abs() < 0.05 {
            return self.down_to(y);
        }
        self.write_down();
        let (far, half) = (in_tenths(y) - self.y, (in_tenths(y) - self.y) / 2.0);
        self.curve([0.0, half], [across, half], [across, far]);
    }

    /// A curve by two points near which it passes to its end, all counted from here.
    pub(super) fn curve(&mut self, one: [f64; 2], other: [f64; 2], end: [f64; 2]) {
        let numbers = [one, other, end].concat().into_iter().map(short).collect::<Vec<_>>();
        write!(self.text, "c{}", numbers.join(" ")).expect("a string takes all text");
        (self.x, self.y) = (self.x + end[0], self.y + end[1]);
    }

    fn write_down(&mut self) {
        if self.down > 0.05 {
            write!(self.text, "v{}", short(self.down)).expect("a string takes all text");
            self.y += self.down;
        }
        self.down = 0.0;
    }

    pub(super) fn text(mut self) -> String {
        self.write_down();
        self.text
    }
}
