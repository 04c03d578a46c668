//! A picture of a job with its sheet and its answer.
//!
//! The blocks stand in layers, from the first down. Arrows are control, dashed where they close a
//! loop. Each block has the paths that it reads, kept and not kept, those that it assumes, those
//! that it holds in the end, and those whose nodes reduction added there; a path whose node was
//! added has a mark, and a read that is not kept is struck through. Beside the scope block stands
//! each candidate, with what is returned of it and where it is cut. Under the title stands how many
//! nodes there are, how many of them before the first round, and which ones reduction added.
//!
//! A block under the pointer lights its arrows and dims the others, and on a dark screen the
//! picture is dark: both by the style sheet in the file, without a script. [`draw_focused`] leaves
//! out the blocks that do not matter to the candidates. [`draw_strict`] and [`draw_focused_strict`]
//! are for sheet and answer by the strict propagation, and the title says so.
//!
//! ```
//! use scope_deps::{answer, draw::draw, sheet, Job};
//!
//! let job: Job = "scope 7 block 7 assumes 1 candidate 1.10.11".parse()?;
//! let svg = draw(&job, &sheet(&job)?, &answer(&job)?)?;
//! assert!(svg.starts_with("<svg ") && svg.ends_with("</svg>\n"));
//! # Ok::<(), Box<dyn std::error::Error>>(())
//! ```

mod align;
mod arrows;
mod boxes;
mod columns;
mod focus;
mod gaps;
mod layers;
mod legend;
mod line;
mod nodes;
mod order;
mod panel;
mod place;
mod relax;
mod shared;
mod shown;
mod style;
mod svg;
mod view;

use crate::answer::Answer;
use crate::explain::{explain_by, Explanation, Mismatch};
use crate::job::{Block, Job};
use crate::raw_read::RawRead;
use crate::replay::Propagation;
use crate::sheet::{NodeSet, Sheet};
use arrows::Drawn;
use boxes::BlockBox;
use gaps::Gap;
use layers::Layers;
use legend::Has;
use nodes::Nodes;
use panel::Panel;
use place::{At, Extent, Placed};
use svg::Svg;
use view::View;

/// The space around the picture.
const MARGIN: f64 = 24.0;
/// The space for the title, and the line under it, above the blocks.
const TITLE: f64 = 66.0;
/// The space between the blocks and the legend below them.
const ABOVE_LEGEND: f64 = 40.0;

/// One self-contained SVG file.
///
/// # Errors
///
/// Where nothing is explained: the job does not belong together with this sheet and this answer.
pub fn draw(job: &Job, sheet: &Sheet, answer: &Answer) -> Result<String, Mismatch> {
    whole(Propagation::Existing, job, sheet, answer)
}

/// The same with only the blocks that matter to the candidates: those that bring a known path to
/// the scope block, or stop one. Where others are left out, it says how many.
///
/// # Errors
///
/// As for [`draw`].
pub fn draw_focused(job: &Job, sheet: &Sheet, answer: &Answer) -> Result<String, Mismatch> {
    focused(Propagation::Existing, job, sheet, answer)
}

/// The picture of a job with its sheet and its answer by the strict propagation.
///
/// # Errors
///
/// As for [`draw`].
pub fn draw_strict(job: &Job, sheet: &Sheet, answer: &Answer) -> Result<String, Mismatch> {
    whole(Propagation::Strict, job, sheet, answer)
}

/// The same with only the blocks that matter to the candidates.
///
/// # Errors
///
/// As for [`draw`].
pub fn draw_focused_strict(job: &Job, sheet: &Sheet, answer: &Answer) -> Result<String, Mismatch> {
    focused(Propagation::Strict, job, sheet, answer)
}

/// The picture of all blocks.
fn whole(by: Propagation, job: &Job, sheet: &Sheet, answer: &Answer) -> Result<String, Mismatch> {
    let explanation = explain_by(by, job, sheet, answer)?;
    Ok(Picture { job, sheet, view: View::whole(job) }.drawn(&explanation))
}

/// The picture of the blocks that matter.
fn focused(by: Propagation, job: &Job, sheet: &Sheet, answer: &Answer) -> Result<String, Mismatch> {
    let explanation = explain_by(by, job, sheet, answer)?;
    let view = View::only(job, &focus::blocks_in_focus(&explanation));
    Ok(Picture { job, sheet, view }.drawn(&explanation))
}

/// What is drawn.
struct Picture<'a> {
    job: &'a Job,
    sheet: &'a Sheet,
    view: View,
}

impl Picture<'_> {
    fn drawn(&self, explanation: &Explanation) -> String {
        let (boxes, panel) = (self.boxes(explanation), Panel::new(explanation));
        let gaps: Vec<Gap> = self.view.gaps.iter().map(|&count| Gap::new(count)).collect();
        let extents = self.extents(&boxes, &gaps, &panel);
        let names = boxes.iter().map(BlockBox::name).chain(gaps.iter().map(Gap::name)).collect();
        let mut layers = Layers::new(&self.view.graph);
        order::order(&mut layers);
        let placed = place::place(&layers, &extents);
        let mut svg = Svg::new();
        for (number, of_block) in boxes.iter().enumerate() {
            let beside = self.is_scope(number).then_some(&panel);
            self.draw_block(of_block, beside, number, placed.at(number), &mut svg);
        }
        let at = (boxes.len()..).map(|number| placed.at(number));
        gaps.iter().zip(at).for_each(|(gap, at)| gap.draw(at, &mut svg));
        let (view, layers, placed, extents) = (&self.view, &layers, &placed, &extents[..]);
        Drawn { view, layers, placed, extents, names }.draw_arrows(&mut svg);
        self.finished(svg, placed, explanation)
    }

    /// Draws a block, with the panel beside it where it is the scope block, in a group of its own.
    fn draw_block(&self, of_block: &BlockBox, beside: Option<&Panel>, number: usize, at: At, svg: &mut Svg) {
        let half = of_block.extent().half;
        let class = style::of_block(self.view.blocks[number]);
        svg.open(&format!(" class=\"block {class}\" tabindex=\"0\""));
        of_block.draw(at.x - half, at.y, svg);
        beside.into_iter().for_each(|panel| panel.draw(at.x + half, at.y, svg));
        svg.close();
    }

    fn is_scope(&self, number: usize) -> bool {
        self.job.blocks()[self.view.blocks[number]].id() == self.job.scope()
    }

    fn boxes(&self, explanation: &Explanation) -> Vec<BlockBox> {
        let is_drawn = |id| self.drawn_blocks().any(|block| block.id() == id);
        let many = self.view.blocks.len();
        let of_block = |block| BlockBox::new(self.job, block, self.sheet, explanation, many, is_drawn);
        self.drawn_blocks().map(of_block).collect()
    }

    fn drawn_blocks(&self) -> impl Iterator<Item = &Block> {
        self.view.blocks.iter().map(|&place| &self.job.blocks()[place])
    }

    /// How much room each block and gap takes, the scope block with the panel beside it.
    fn extents(&self, boxes: &[BlockBox], gaps: &[Gap], panel: &Panel) -> Vec<Extent> {
        let of_block = |(number, of_block): (usize, &BlockBox)| {
            let mut extent = of_block.extent();
            if self.is_scope(number) {
                extent.after += panel.width;
                extent.height = extent.height.max(panel.height);
            }
            extent
        };
        boxes.iter().enumerate().map(of_block).chain(gaps.iter().map(Gap::extent)).collect()
    }

    /// The whole file: what was drawn, under a title and over a legend.
    fn finished(&self, mut svg: Svg, placed: &Placed, explanation: &Explanation) -> String {
        let title = self.title(explanation.propagation);
        let nodes = Nodes::new(explanation, |id| self.drawn_blocks().any(|block| block.id() == id));
        svg.text(0.0, 22.0 - TITLE, "title", &title);
        svg.texts(0.0, 42.0 - TITLE, &[("label", &nodes.text)], &nodes.full);
        let heads = svg::width(&title, svg::LARGE).max(svg::width(&nodes.text, svg::SMALL));
        let width = placed.width.max(legend::WIDTH).max(heads);
        let has = self.has(explanation);
        legend::draw(placed.height + ABOVE_LEGEND, has, &mut svg);
        let height = placed.height + TITLE + ABOVE_LEGEND + legend::height(has);
        let style = style::style(self.view.blocks.iter().copied());
        let size = [width + 2.0 * MARGIN, height + 2.0 * MARGIN];
        svg.file(&style, &title, size, [MARGIN, MARGIN + TITLE])
    }

    /// What the blocks that are drawn have, for the legend.
    fn has(&self, explanation: &Explanation) -> Has {
        let reads = || self.drawn_blocks().flat_map(Block::raw_reads);
        let not_kept = reads().any(|read| !read.is_kept());
        Has { reads: reads().any(RawRead::is_kept), not_kept, added: self.has_added(explanation) }
    }

    /// Whether a block that is drawn adds a path's node by reduction, or holds such a path.
    fn has_added(&self, explanation: &Explanation) -> bool {
        let ids = || self.drawn_blocks().map(Block::id);
        let mut held = ids().filter_map(|id| self.sheet.set(id)).flat_map(NodeSet::iter);
        held.any(|node| self.sheet.is_added(node))
            || ids().any(|id| explanation.added.iter().any(|added| added.block == id))
    }

    fn title(&self, propagation: Propagation) -> String {
        let settled = if self.sheet.is_settled() { "settled" } else { "not settled" };
        let (blocks, rounds) = (self.job.blocks().len(), counted(self.sheet.rounds().into(), "round"));
        let drawn = match self.view.blocks.len() {
            all if all == blocks => counted(blocks, "block"),
            some => format!("{some} of {}", counted(blocks, "block")),
        };
        let strict = match propagation {
            Propagation::Existing => "",
            Propagation::Strict => "strict propagation, ",
        };
        format!("{drawn}, scope block {}; {strict}{rounds}, {settled}", self.job.scope())
    }
}

/// How many of what there are.
fn counted(count: usize, what: &str) -> String {
    format!("{count} {what}{}", if count == 1 { "" } else { "s" })
}
