//! Sentences taken apart.

use scope_deps::{BlockId, Path};

/// What stands in the holes (`{}`) of a pattern, where the whole sentence is of that pattern. A
/// hole ends where what comes after it in the pattern first stands, and the last hole where the
/// sentence does.
pub fn holes<'s>(pattern: &str, sentence: &'s str) -> Option<Vec<&'s str>> {
    let literals: Vec<&str> = pattern.split("{}").collect();
    let (first, last) = (literals.first()?, literals.last()?);
    let mut rest = sentence.strip_prefix(first)?.strip_suffix(last)?;
    let mut found = Vec::new();
    for literal in &literals[1..literals.len() - 1] {
        let (hole, after) = rest.split_once(literal)?;
        found.push(hole);
        rest = after;
    }
    found.push(rest);
    Some(found)
}

/// The blocks of `block 1` or `blocks 1, 2 and 3`.
pub fn blocks(text: &str) -> Vec<BlockId> {
    let (blocks, more) = some_blocks(text);
    assert_eq!(more, 0, "{text}");
    blocks
}

/// The blocks of `block 1` or `blocks 1, 2, 3 and 4 more`, and how many more there are.
pub fn some_blocks(text: &str) -> (Vec<BlockId>, usize) {
    let (noun, list) = text.split_once(' ').unwrap_or_else(|| panic!("no blocks: {text}"));
    let list = list.replace(" and ", ", ");
    let items: Vec<&str> = list.split(", ").collect();
    assert_eq!(noun, if items.len() == 1 { "block" } else { "blocks" }, "{text}");
    let more = items.last().and_then(|last| last.strip_suffix(" more"));
    let named = items.len() - usize::from(more.is_some());
    let number = |item: &&str| BlockId(item.parse().unwrap_or_else(|_| panic!("no block: {text}")));
    (items[..named].iter().map(number).collect(), more.map_or(0, |more| more.parse().unwrap()))
}

/// One block.
pub fn block(text: &str) -> BlockId {
    let blocks = blocks(text);
    assert_eq!(blocks.len(), 1, "{text}");
    blocks[0]
}

/// What one block does by which it assumes a path, or several: `assumes 1`, or `read a property of
/// 1 at instructions 3 and 4`. The path, and the instructions where it is read.
pub fn assuming(text: &str, one: bool) -> Option<(&str, Option<&str>)> {
    let (assume, read) = if one { ("assumes", "reads") } else { ("assume", "read") };
    if let Some(found) = holes(&format!("{read} a property of {{}} at {{}}"), text) {
        return Some((found[0], Some(found[1])));
    }
    holes(&format!("{assume} {{}}"), text).map(|found| (found[0], None))
}

/// The number of `instruction 3`.
pub fn instruction(text: &str) -> u32 {
    let number = text.strip_prefix("instruction ").and_then(|number| number.parse().ok());
    number.unwrap_or_else(|| panic!("no instruction: {text}"))
}

/// That these instructions are told: `instruction 3` where all are the same, else `instructions 3,
/// 4 and 2 more`, in their order.
pub fn check_instructions(text: &str, due: &[u32]) {
    if due.iter().all(|other| *other == due[0]) {
        return assert_eq!(instruction(text), due[0]);
    }
    let list = text.strip_prefix("instructions ").unwrap_or_else(|| panic!("no instructions: {text}"));
    let items: Vec<String> = list.replace(" and ", ", ").split(", ").map(String::from).collect();
    let more = items.last().and_then(|last| last.strip_suffix(" more"));
    let named = items.len() - usize::from(more.is_some());
    let numbers: Vec<u32> = items[..named].iter().map(|item| item.parse().unwrap()).collect();
    assert_eq!(numbers, due[..named], "{text}");
    assert_eq!(more.map_or(0, |more| more.parse::<usize>().unwrap()), due.len() - named, "{text}");
}

pub fn path(text: &str) -> Path {
    text.parse().unwrap_or_else(|why| panic!("{text}: {why}"))
}

/// The paths of `1`, `1 and 1.10` or `1, 1.10 and 1.10.11`.
pub fn paths(text: &str) -> Vec<Path> {
    text.replace(" and ", ", ").split(", ").map(path).collect()
}
