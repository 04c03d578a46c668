//! How paths, entries and blocks are written. All text of explanations goes through here.

use crate::ids::BlockId;
use crate::names::Names;
use crate::path::{Entry, Path};
use crate::raw_read::RawRead;

/// The most items of a list in short.
pub(super) const MOST: usize = 3;

/// A path, without spans.
pub(super) fn show_path(path: &Path, names: &Names) -> String {
    format!("{:#}", path.with_names(names))
}

/// An entry, without its span.
pub(super) fn show_entry(entry: &Entry, names: &Names) -> String {
    format!("{:#}", entry.with_names(names))
}

/// A block.
pub(super) fn show_block(block: BlockId) -> String {
    show_blocks(&[block])
}

/// One block or more: `block 1`, `blocks 1 and 2`, `blocks 1, 2 and 3`.
pub(super) fn show_blocks(blocks: &[BlockId]) -> String {
    let noun = for_count(blocks.len(), "block", "blocks");
    let ids: Vec<String> = blocks.iter().map(BlockId::to_string).collect();
    format!("{noun} {}", listed(&ids))
}

/// Some blocks, and how many others: `blocks 1, 2, 3 and 4 more`.
pub(super) fn show_some_blocks(blocks: &[BlockId]) -> String {
    let ids: Vec<String> = blocks.iter().map(BlockId::to_string).collect();
    format!("{} {}", for_count(blocks.len(), "block", "blocks"), some_listed(&ids, MOST))
}

/// So many, and how many others: `a, b, c and 4 more`. All, where only one would be left out.
pub(crate) fn some_listed(items: &[String], most: usize) -> String {
    if items.len() <= most + 1 {
        return listed(items);
    }
    let more = format!("{} more", items.len() - most);
    listed(&[&items[..most], &[more]].concat())
}

/// `a`, `a and b`, `a, b and c`.
pub(super) fn listed(items: &[String]) -> String {
    match items {
        [] => String::new(),
        [one] => one.clone(),
        [first @ .., last] => format!("{} and {last}", first.join(", ")),
    }
}

/// That so many blocks assume a path: `assumes 1.10`, or where they read a property of it, at these
/// instructions, `reads a property of 1.10 at instruction 3`. Of the instructions so many are
/// named.
pub(super) fn assume(blocks: usize, path: &str, read_at: &[u32], most: usize) -> String {
    if read_at.is_empty() {
        return format!("{} {path}", for_count(blocks, "assumes", "assume"));
    }
    let instructions: Vec<String> = read_at.iter().map(u32::to_string).collect();
    let at = match instructions.iter().all(|other| *other == instructions[0]) {
        true => format!("instruction {}", instructions[0]),
        false => format!("instructions {}", some_listed(&instructions, most)),
    };
    format!("{} a property of {path} at {at}", for_count(blocks, "reads", "read"))
}

/// The same of one block.
pub(super) fn assumes(path: &str, read_at: Option<u32>) -> String {
    assume(1, path, read_at.as_slice(), 1)
}

/// Why a raw read is not kept.
pub(crate) fn counts_as_mutable(read: &RawRead, names: &Names) -> String {
    let RawRead { instruction, range_start, range_end, .. } = read;
    let (variable, (_, start, end)) = (read.path.identifier(), read.scope.fields());
    let variable = variable.with_names(names);
    format!(
        "{variable} counts as mutable there: its range {range_start} to {range_end} is longer than one instruction, \
         and instruction {instruction} is in its scope, {start} to {end}"
    )
}

/// Why a raw read is kept.
pub(crate) fn why_kept(read: &RawRead) -> String {
    let RawRead { instruction, range_start, range_end, .. } = read;
    let is_long = u64::from(*range_end) > u64::from(*range_start) + 1;
    match read.scope.range() {
        _ if !is_long => format!("its range {range_start} to {range_end} is not longer than one instruction"),
        None => "it has no scope".to_string(),
        Some(range) if !range.contains(instruction) => {
            format!("instruction {instruction} is not in its scope, {} to {}", range.start, range.end)
        }
        Some(_) => "known to be immutable".to_string(),
    }
}

/// The word for one or for more.
pub(super) fn for_count(count: usize, one: &'static str, more: &'static str) -> &'static str {
    if count == 1 {
        one
    } else {
        more
    }
}

#[cfg(test)]
mod tests {
    use super::*;

    #[test]
    fn blocks_are_listed_in_words() {
        let blocks: Vec<BlockId> = (1..=6).map(BlockId).collect();
        assert_eq!(show_blocks(&blocks[..1]), "block 1");
        assert_eq!(show_blocks(&blocks[..2]), "blocks 1 and 2");
        assert_eq!(show_some_blocks(&blocks[..4]), "blocks 1, 2, 3 and 4");
        assert_eq!(show_some_blocks(&blocks), "blocks 1, 2, 3 and 3 more");
    }

    #[test]
    fn what_blocks_assume_or_read_is_told() {
        assert_eq!(assumes("1.10", None), "assumes 1.10");
        assert_eq!(assumes("1.10", Some(3)), "reads a property of 1.10 at instruction 3");
        assert_eq!(assume(2, "it", &[], MOST), "assume it");
        assert_eq!(assume(2, "it", &[3, 3], MOST), "read a property of it at instruction 3");
        assert_eq!(assume(2, "it", &[3, 5], MOST), "read a property of it at instructions 3 and 5");
        let five = [9, 8, 7, 6, 5];
        let read = "read a property of it at instructions";
        assert_eq!(assume(5, "it", &five, MOST), format!("{read} 9, 8, 7 and 2 more"));
        assert_eq!(assume(5, "it", &five, 5), format!("{read} 9, 8, 7, 6 and 5"));
    }
}
