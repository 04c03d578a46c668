//! The box of a block: its id, the paths that it reads and those that it assumes, those that it
//! holds in the end, and those whose nodes reduction added there.

use super::place::Extent;
use super::shown::{self, Item, Piece};
use super::svg::{width, Svg, SMALL};
use crate::explain::{counts_as_mutable, Explanation};
use crate::ids::BlockId;
use crate::job::{Block, Job};
use crate::raw_read::RawRead;
use crate::sheet::{NodeSet, Sheet};

pub(super) const PADDING: f64 = 9.0;
pub(super) const LINE: f64 = 17.0;
/// Where the paths start, right of their label.
const PATHS: f64 = 66.0;
/// In a picture of so many blocks, a box has more lines than in others.
const FEW_BLOCKS: usize = 16;
/// The room for the arrow of a block that is its own predecessor.
pub(super) const OWN_ARROW: f64 = 30.0;

pub(super) struct BlockBox {
    head: String,
    is_scope: bool,
    is_own_predecessor: bool,
    rows: Vec<Row>,
    width: f64,
    height: f64,
}

/// A line of a box.
#[derive(Clone)]
struct Row {
    label: &'static str,
    pieces: Vec<Piece>,
    /// What the pieces stand for, where they do not say all.
    full: String,
}

impl BlockBox {
    /// The box of a block among so many that are drawn; `is_drawn` says whether a block is one of
    /// them.
    pub(super) fn new(
        job: &Job,
        block: &Block,
        sheet: &Sheet,
        explanation: &Explanation,
        drawn: usize,
        is_drawn: impl Fn(BlockId) -> bool,
    ) -> Self {
        let is_scope = block.id() == job.scope();
        let head = format!("{} {}", if is_scope { "scope block" } else { "block" }, block.id());
        let most = if drawn <= FEW_BLOCKS { 8 } else { 4 };
        let held = held(job, block, sheet);
        let of_held = match same_as(block, sheet).filter(|&id| is_drawn(id)) {
            Some(id) => vec![Row::note("holds", format!("the same as block {id}"), shown::all(&held))],
            None => rows("holds", &held, most),
        };
        let of_others = |label, paths: &[Item]| {
            if paths.is_empty() {
                Vec::new()
            } else {
                rows(label, paths, most)
            }
        };
        let (of_reads, of_assumed) =
            (of_others("reads", &kept(job, block)), of_others("assumes", &assumed(job, block)));
        let of_added = of_others("adds", &added(block, explanation));
        let rows = [of_reads, not_kept(job, block, most), of_assumed, of_held, of_added].concat();
        let widest = rows.iter().map(Row::width).fold(width(&head, SMALL), f64::max);
        let height = 2.0 * PADDING + LINE * (1 + rows.len()) as f64 - 4.0;
        let is_own_predecessor = block.predecessors().contains(&block.id());
        Self { head, is_scope, is_own_predecessor, rows, width: widest + 2.0 * PADDING, height }
    }

    pub(super) fn name(&self) -> &str {
        &self.head
    }

    pub(super) fn extent(&self) -> Extent {
        let own = if self.is_own_predecessor { OWN_ARROW } else { 0.0 };
        Extent { half: self.width / 2.0, before: own, after: 0.0, height: self.height, foot: self.height }
    }

    pub(super) fn draw(&self, x: f64, y: f64, svg: &mut Svg) {
        svg.rectangle(x, y, self.width, self.height, if self.is_scope { "scope" } else { "box" });
        let mut base = y + PADDING + 11.0;
        svg.text(x + PADDING, base, "head", &self.head);
        for row in &self.rows {
            base += LINE;
            svg.text(x + PADDING, base, "label", row.label);
            svg.texts(x + PADDING + PATHS, base, &shown::as_parts(&row.pieces), &row.full);
        }
    }
}

/// The block's only predecessor, where both hold the same paths, and some.
fn same_as(block: &Block, sheet: &Sheet) -> Option<BlockId> {
    let &[before] = block.predecessors() else { return None };
    let (own, set_before) = (sheet.set(block.id())?, sheet.set(before)?);
    (before != block.id() && !own.is_empty() && own == set_before).then_some(before)
}

/// The raw reads of a block that are kept.
fn kept(job: &Job, block: &Block) -> Vec<Item> {
    block.kept_reads().map(|read| Item::read(read, job.names())).collect()
}

/// Those that are not, each in lines of its own, with the reason under the pointer; what comes
/// after so many lines is counted at their end.
fn not_kept(job: &Job, block: &Block, most: usize) -> Vec<Row> {
    let reads: Vec<&RawRead> = block.raw_reads().iter().filter(|read| !read.is_kept()).collect();
    let items: Vec<Item> = reads.iter().map(|read| Item::read(read, job.names())).collect();
    let mut rows = Vec::new();
    for (place, (read, item)) in reads.iter().zip(&items).enumerate() {
        let own = item.lines(false);
        if place > 0 && rows.len() + own.len() > most {
            rows.push(Row::more(&items[place..], false));
            break;
        }
        let path = shown::parts(&read.path, job.names()).concat();
        let (at, why) = (read.instruction, counts_as_mutable(read, job.names()));
        let full = format!("a property of {path} is read at instruction {at}, but {why}");
        rows.extend(own.into_iter().map(|pieces| Row { label: "", pieces, full: full.clone() }));
    }
    rows.first_mut().into_iter().for_each(|first| first.label = "not kept");
    rows
}

/// The paths that a block assumes without a read.
fn assumed(job: &Job, block: &Block) -> Vec<Item> {
    block.assumed().iter().map(|path| Item::new(path, job.names(), "assumed")).collect()
}

/// The paths that a block holds in the end, with a mark on those whose node reduction added.
fn held(job: &Job, block: &Block, sheet: &Sheet) -> Vec<Item> {
    let nodes = sheet.set(block.id()).into_iter().flat_map(NodeSet::iter);
    let item = |node| match (sheet.path(node), sheet.is_added(node)) {
        (path, true) => Item::added(&path, job.names()),
        (path, false) => Item::new(&path, job.names(), ""),
    };
    nodes.map(item).collect()
}

/// The paths whose nodes reduction added in a block.
fn added(block: &Block, explanation: &Explanation) -> Vec<Item> {
    let here = explanation.added.iter().filter(|added| added.block == block.id());
    here.flat_map(|added| &added.nodes).map(|(_, path)| Item::added(path, &explanation.names)).collect()
}

impl Row {
    /// A line that lists no paths.
    fn note(label: &'static str, text: String, full: String) -> Self {
        Self { label, pieces: vec![("label", text)], full }
    }

    /// How many more paths there are, and how many of them reduction added, where the list has
    /// others too.
    fn more(paths: &[Item], all_added: bool) -> Self {
        let more = format!("and {} more", paths.len());
        let pieces = match paths.iter().filter(|path| path.is_added).count() {
            added if added == 0 || all_added => vec![("label", more)],
            // Not every program shows a usual blank between two pieces.
            added => vec![("label", more + ",\u{a0}"), ("added", format!("{added} of them added"))],
        };
        Self { label: "", pieces, full: shown::all(paths) }
    }

    fn width(&self) -> f64 {
        PATHS + self.pieces.iter().map(|(_, piece)| width(piece, SMALL)).sum::<f64>()
    }
}

/// The paths with commas between them, in lines; what comes after the last line is counted at its
/// end.
fn rows(label: &'static str, paths: &[Item], most: usize) -> Vec<Row> {
    let lines = shown::lines(paths, most);
    let labels = std::iter::once(label).chain(std::iter::repeat(""));
    let reasons = lines.places.into_iter().map(|places| shown::reasons(&paths[places]));
    let in_lines = lines.lines.into_iter().zip(labels).zip(reasons);
    let mut rows: Vec<Row> = in_lines.map(|((pieces, label), full)| Row { label, pieces, full }).collect();
    if paths.is_empty() {
        rows.push(Row::note(label, "nothing".to_string(), String::new()));
    }
    if lines.shown < paths.len() {
        rows.push(Row::more(&paths[lines.shown..], paths.iter().all(|path| path.is_added)));
    }
    rows
}
