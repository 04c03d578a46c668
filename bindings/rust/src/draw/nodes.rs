//! The line under the title: how many nodes there were before the first round, and which ones
//! reduction added; and how many of these were added in blocks that are not drawn.

use super::shown::parts;
use crate::explain::{some_listed, Added, Explanation};
use crate::ids::BlockId;
use crate::notation::show::node_counts;

/// The most characters that the paths in the line take. They do not make the picture wide.
const LONGEST: usize = 60;
/// The most of them that are named where there are more.
const MOST: usize = 3;

pub(super) struct Nodes {
    pub(super) text: String,
    /// All that were added, where the text does not name them all.
    pub(super) full: String,
}

impl Nodes {
    /// `is_drawn` says whether a block is in the picture.
    pub(super) fn new(explanation: &Explanation, is_drawn: impl Fn(BlockId) -> bool) -> Self {
        let elsewhere = explanation.added.iter().filter(|added| !is_drawn(added.block));
        let elsewhere = elsewhere.map(|Added { nodes, .. }| nodes.len()).sum();
        let mut line = Self::of_all(explanation);
        line.text.push_str(&match (elsewhere, explanation.added_paths().count()) {
            (0, _) => String::new(),
            (some, all) if some == all => "; in blocks not drawn".to_string(),
            (some, _) => format!("; {some} of these in blocks not drawn"),
        });
        line
    }

    fn of_all(explanation: &Explanation) -> Self {
        let added: Vec<String> =
            explanation.added_paths().map(|path| parts(path, &explanation.names).concat()).collect();
        let counts = node_counts(explanation.nodes_before_rounds, added.len());
        if added.is_empty() {
            return Self { text: counts, full: String::new() };
        }
        let mut lists = (1..=MOST).rev().map(|most| (most, some_listed(&added, most)));
        let all = added.join(", ");
        match lists.find(|(_, list)| list.chars().count() <= LONGEST) {
            None => Self { text: counts, full: all },
            Some((most, list)) => {
                let text = format!("{counts}: {list}");
                Self { text, full: if added.len() > most + 1 { all } else { String::new() } }
            }
        }
    }
}
