//! The panel beside the scope block: each candidate, where it is cut, and what is returned of it.

use super::boxes::{LINE, PADDING};
use super::shown::{self, Piece};
use super::svg::{width, Svg, SMALL};
use crate::explain::{would_do, End, Explanation, Reason, Unknown};

/// The space between the two columns.
const BETWEEN: f64 = 26.0;

pub(super) struct Panel {
    rows: Vec<Row>,
    /// Where the returned paths start.
    second: f64,
    pub(super) width: f64,
    pub(super) height: f64,
}

/// A candidate, with what is not returned of it marked, and the returned path.
struct Row {
    candidate: Vec<Vec<Piece>>,
    returned: Vec<Vec<Piece>>,
    full: String,
}

impl Row {
    fn new(reason: &Reason, explanation: &Explanation) -> Self {
        let names = &explanation.names;
        let (candidate, returned) =
            (shown::parts(&reason.candidate, names), shown::parts(&reason.returned, names));
        let (knife, rest, why) = match &reason.end {
            End::Whole => ("", "", "returned whole".to_string()),
            End::Cut { why, .. } => ("|", "cut", cut(why, explanation)),
            End::Covered { .. } => ("|", "covered", "another candidate ends there".to_string()),
        };
        let full = format!("{} is returned as {} ({why})", candidate.concat(), returned.concat());
        let (kept, left) = candidate.split_at(returned.len());
        let of = |class, parts: &[String]| parts.iter().map(move |part| (class, part.clone())).collect();
        let pieces: [Vec<Piece>; 3] = [of("", kept), of("knife", &[knife.to_string()]), of(rest, left)];
        let returned: Vec<Piece> = of("returned", &returned);
        Self { candidate: shown::broken(pieces.concat()), returned: shown::broken(returned), full }
    }

    fn lines(&self) -> usize {
        self.candidate.len().max(self.returned.len())
    }
}

impl Panel {
    pub(super) fn new(explanation: &Explanation) -> Self {
        let rows: Vec<Row> = explanation.reasons.iter().map(|reason| Row::new(reason, explanation)).collect();
        if rows.is_empty() {
            return Self { rows, second: 0.0, width: 0.0, height: 0.0 };
        }
        let first = widest(rows.iter().flat_map(|row| &row.candidate), "candidate");
        let second = PADDING + first + BETWEEN;
        let returned = widest(rows.iter().flat_map(|row| &row.returned), "returned");
        let lines: usize = rows.iter().map(Row::lines).sum();
        let height = 2.0 * PADDING + LINE * (1 + lines) as f64 - 4.0;
        Self { second, width: second + returned + PADDING, height, rows }
    }

    pub(super) fn draw(&self, x: f64, y: f64, svg: &mut Svg) {
        if self.rows.is_empty() {
            return;
        }
        svg.rectangle(x, y, self.width, self.height, "panel");
        let mut base = y + PADDING + 11.0;
        svg.text(x + PADDING, base, "label", "candidate");
        svg.text(x + self.second, base, "label", "returned");
        for row in &self.rows {
            column(&row.candidate, x + PADDING, base, &row.full, svg);
            column(&row.returned, x + self.second, base, &row.full, svg);
            base += LINE * row.lines() as f64;
        }
    }
}

/// Why a candidate is cut, with a raw read that would do if it were kept.
fn cut(why: &Unknown, explanation: &Explanation) -> String {
    let known = "cut: the base is not known there";
    let Some(not_kept) = why.first_not_kept().filter(|read| read.would_do == Some(true)) else {
        return known.to_string();
    };
    let (block, at) = (not_kept.block, not_kept.read.instruction);
    let path = shown::parts(&not_kept.read.path, &explanation.names).concat();
    let would = would_do(not_kept, &why.base, explanation);
    format!(
        "{known}; block {block} reads a property of {path} at instruction {at}, which is not kept; {would}"
    )
}

/// The width of the widest line of a column with this head.
fn widest<'r>(lines: impl Iterator<Item = &'r Vec<Piece>>, head: &str) -> f64 {
    let widths = lines.map(|line| line.iter().map(|(_, piece)| width(piece, SMALL)).sum());
    widths.fold(width(head, SMALL), f64::max)
}

/// Writes lines under one another, the first below `base`.
fn column(lines: &[Vec<Piece>], x: f64, base: f64, full: &str, svg: &mut Svg) {
    for (place, line) in lines.iter().enumerate() {
        svg.texts(x, base + LINE * (place + 1) as f64, &shown::as_parts(line), full);
    }
}
