//! Jobs, names, answers and sheets as text.

use super::with_names::WithNames;
use crate::answer::Answer;
use crate::job::{Block, Job};
use crate::names::{Named, Names, NONE};
use crate::sheet::Sheet;
use std::fmt;

impl fmt::Display for Job {
    fn fmt(&self, f: &mut fmt::Formatter<'_>) -> fmt::Result {
        self.names().fmt(f)?;
        writeln!(f, "scope {}", self.scope())?;
        self.blocks().iter().try_for_each(|block| show_block(block, self.names(), f))?;
        let mut candidates = self.candidates().iter().map(|path| path.with_names(self.names()));
        candidates.try_for_each(|path| writeln!(f, "candidate {path}"))
    }
}

impl fmt::Display for Block {
    fn fmt(&self, f: &mut fmt::Formatter<'_>) -> fmt::Result {
        show_block(self, &NONE, f)
    }
}

fn show_block(block: &Block, names: &Names, f: &mut fmt::Formatter<'_>) -> fmt::Result {
    write!(f, "block {}", block.id())?;
    if !block.predecessors().is_empty() {
        write!(f, " after {}", with_commas(block.predecessors()))?;
    }
    writeln!(f)?;
    block.raw_reads().iter().try_for_each(|read| writeln!(f, "  reads {}", read.with_names(names)))?;
    block.assumed().iter().try_for_each(|path| writeln!(f, "  assumes {}", path.with_names(names)))
}

impl fmt::Display for Names {
    fn fmt(&self, f: &mut fmt::Formatter<'_>) -> fmt::Result {
        self.iter().try_for_each(|(named, name)| match named {
            Named::Variable(identifier) => writeln!(f, "name {identifier} {name}"),
            Named::Property(number) => writeln!(f, "name .{number} {name}"),
        })
    }
}

impl fmt::Display for WithNames<'_, Answer> {
    fn fmt(&self, f: &mut fmt::Formatter<'_>) -> fmt::Result {
        let answer = self.shown;
        writeln!(f, "{}", rounds(answer.rounds(), answer.is_settled()))?;
        answer.iter().try_for_each(|path| writeln!(f, "returned {}", path.with_names(self.names)))
    }
}

impl fmt::Display for WithNames<'_, Sheet> {
    fn fmt(&self, f: &mut fmt::Formatter<'_>) -> fmt::Result {
        let (sheet, names) = (self.shown, self.names);
        writeln!(f, "{}", rounds(sheet.rounds(), sheet.is_settled()))?;
        writeln!(f, "{}", node_counts(sheet.nodes_before_rounds(), sheet.added_nodes().len()))?;
        for (node, _) in sheet.nodes() {
            let mark = if sheet.is_added(node) { ", added by reduction" } else { "" };
            writeln!(f, "node {node} {}{mark}", sheet.path(node).with_names(names))?;
        }
        for (id, _) in sheet.sets() {
            let held: Vec<String> =
                sheet.paths(id).map(|path| format!("{:#}", path.with_names(names))).collect();
            let held = if held.is_empty() { "nothing".to_string() } else { with_commas(&held) };
            writeln!(f, "block {id} holds {held}")?;
        }
        Ok(())
    }
}

pub(crate) fn rounds(rounds: u8, settled: bool) -> String {
    format!("rounds {rounds}, {}", if settled { "settled" } else { "not settled" })
}

/// How many nodes there are: in all, before the first round, and added after that.
pub(crate) fn node_counts(before_rounds: usize, added: usize) -> String {
    let all = before_rounds + added;
    format!("nodes {all}: {before_rounds} before the first round, {added} added by reduction")
}

/// The items with commas between them.
pub(crate) fn with_commas<T: ToString>(items: &[T]) -> String {
    items.iter().map(T::to_string).collect::<Vec<_>>().join(", ")
}
