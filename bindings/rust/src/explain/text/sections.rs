//! The steps by which paths came to blocks, in words: a section for each path, whatever its forms.

use super::show::{assumes, listed, show_block, show_blocks, show_path, why_kept};
use crate::explain::{Explanation, How, Step};
use crate::ids::BlockId;
use crate::names::Names;
use crate::replay::Side;
use std::fmt;

pub(super) struct Sections<'a> {
    steps: &'a [Step],
    names: &'a Names,
    /// The steps of each section, in the order in which they happened.
    sections: Vec<Vec<usize>>,
    /// The section of each step.
    section_of: Vec<usize>,
}

impl<'a> Sections<'a> {
    pub(super) fn new(explanation: &'a Explanation) -> Self {
        let steps = &explanation.steps[..];
        let mut sections: Vec<Vec<usize>> = Vec::new();
        let mut section_of = Vec::new();
        for (place, step) in steps.iter().enumerate() {
            let known = sections.iter().position(|section| steps[section[0]].path.same_names(&step.path));
            let section = known.unwrap_or_else(|| {
                sections.push(Vec::new());
                sections.len() - 1
            });
            sections[section].push(place);
            section_of.push(section);
        }
        let in_order = |&step: &usize| (steps[step].how.moment(), steps[step].block);
        sections.iter_mut().for_each(|section| section.sort_by_key(in_order));
        Self { steps, names: &explanation.names, sections, section_of }
    }

    /// The numbers of the sections that have these steps.
    pub(super) fn refer(&self, steps: &[usize]) -> String {
        let mut sections: Vec<usize> = steps.iter().map(|&step| self.section_of[step] + 1).collect();
        sections.sort();
        sections.dedup();
        let numbers: Vec<String> = sections.iter().map(usize::to_string).collect();
        format!("[{}]", numbers.join(", "))
    }

    pub(super) fn write(&self, f: &mut fmt::Formatter<'_>) -> fmt::Result {
        for (number, section) in self.sections.iter().enumerate() {
            let path = section.last().map(|&step| self.path(step)).unwrap_or_default();
            writeln!(f, "\n[{}] how {path} came there", number + 1)?;
            section.iter().try_for_each(|&step| writeln!(f, "    {}", self.sentence(&self.steps[step])))?;
        }
        Ok(())
    }

    /// The path of a step.
    fn path(&self, step: usize) -> String {
        show_path(&self.steps[step].path, self.names)
    }

    fn sentence(&self, step: &Step) -> String {
        let (block, path) = (show_block(step.block), show_path(&step.path, self.names));
        match &step.how {
            How::Assumed { read } => {
                let kept = read.as_ref().map(|read| format!(" (kept: {})", why_kept(read)));
                format!("{block} {}{}", assumes(&path, step.how.read_at()), kept.unwrap_or_default())
            }
            How::Made { from, bases, .. } => {
                let bases: Vec<String> = bases.iter().map(|&base| self.path(base)).collect();
                let from = self.path(*from);
                format!("{block} made {from} into {path}, since it had {}", listed(&bases))
            }
            How::TookOver { side, from, left_out, .. } => {
                let from: Vec<BlockId> = from.iter().map(|&step| self.steps[step].block).collect();
                format!(
                    "{block} took {path} over from {}{}",
                    show_blocks(&from),
                    all_of(*side, &from, left_out)
                )
            }
        }
    }
}

/// Whether these are all neighbours on their side.
fn all_of(side: Side, from: &[BlockId], left_out: &[BlockId]) -> String {
    let (control, whence) = match side {
        Side::Predecessors => ("that control comes from", "where control comes from"),
        Side::Successors => ("that control goes on to", "where control goes on"),
    };
    match (from, left_out) {
        ([_], []) => format!(", the only block {control}"),
        (_, []) => format!(", all the blocks {control}"),
        _ => {
            format!(", {whence}, and left out {}: on a loop with it, and not finished", show_blocks(left_out))
        }
    }
}
