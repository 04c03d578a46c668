//! How many nodes there were before the first round, and which ones reduction added, in words.

use super::show::{assume, listed, show_block, show_blocks, some_listed, MOST};
use super::Text;
use crate::explain::{Added, Origin};
use crate::notation::show::node_counts;
use crate::path::Path;
use crate::replay::Side;

/// How many, and some of those that were added.
pub(super) fn in_short(text: &Text) -> String {
    let added = paths(text, text.explanation.added_paths());
    let counts = node_counts(text.explanation.nodes_before_rounds, added.len());
    if added.is_empty() {
        counts
    } else {
        format!("{counts}: {}", some_listed(&added, MOST))
    }
}

/// How many, and a line for each path that was replaced so that nodes were added.
pub(super) fn in_full(text: &Text) -> Vec<String> {
    let explanation = text.explanation;
    let counts = node_counts(explanation.nodes_before_rounds, explanation.added_paths().count());
    std::iter::once(counts).chain(explanation.added.iter().map(|added| line(text, added))).collect()
}

fn line(text: &Text, added: &Added) -> String {
    let walk = match added.side {
        Side::Predecessors => "forward",
        Side::Successors => "backward",
    };
    let nodes = listed(&paths(text, added.nodes.iter().map(|(_, path)| path)));
    let (block, from, to) = (show_block(added.block), text.path(&added.from), text.path(&added.to));
    let (Added { round, .. }, had) = (added, listed(&paths(text, &added.bases)));
    let (own, origins) = match &added.origins[..] {
        [origin] if origin.path.same_entries(&added.from) && origin.blocks == [added.block] => {
            (own(origin), String::new())
        }
        origins => {
            (String::new(), format!("; {from} comes from {}", listed_origins(text, &added.from, origins)))
        }
    };
    format!(
        "    {nodes} in round {round}, {walk} walk: {block} made {from}{own} into {to}, since it had {had}{origins}"
    )
}

/// That the block itself assumes the path.
fn own(origin: &Origin) -> String {
    match origin.read_at.first() {
        None => ", which it assumes,".to_string(),
        Some(instruction) => format!(", of which it reads a property at instruction {instruction},"),
    }
}

/// The blocks that assume a path, or such as reduction made into it.
fn listed_origins(text: &Text, path: &Path, origins: &[Origin]) -> String {
    let origins = origins.iter().map(|origin| {
        let what = if origin.path.same_entries(path) { "it".to_string() } else { text.path(&origin.path) };
        let blocks = origin.blocks.len();
        let assume = assume(blocks, &what, &origin.read_at, blocks);
        format!("{}, which {assume}", show_blocks(&origin.blocks))
    });
    origins.collect::<Vec<_>>().join(", and ")
}

fn paths<'p>(text: &Text, paths: impl IntoIterator<Item = &'p Path>) -> Vec<String> {
    paths.into_iter().map(|path| text.path(path)).collect()
}
