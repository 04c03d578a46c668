//! The mark of a gap: how many blocks are left out there.

use super::counted;
use super::place::{At, Extent};
use super::svg::{width, Svg, SMALL};

const PADDING: f64 = 6.0;
const HEIGHT: f64 = 20.0;

pub(super) struct Gap {
    text: String,
}

impl Gap {
    pub(super) fn new(count: usize) -> Self {
        Self { text: format!("{} left out", counted(count, "block")) }
    }

    pub(super) fn name(&self) -> &str {
        &self.text
    }

    pub(super) fn extent(&self) -> Extent {
        let half = width(&self.text, SMALL) / 2.0 + PADDING;
        Extent { half, foot: HEIGHT, before: 0.0, after: 0.0, height: HEIGHT }
    }

    pub(super) fn draw(&self, at: At, svg: &mut Svg) {
        let left = at.x - width(&self.text, SMALL) / 2.0;
        svg.text(left, at.y + 14.0, "label", &self.text);
    }
}
