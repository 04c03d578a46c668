//! Sentences on the blocks that assume a path, and from which others have it.

use crate::parse::{assuming, check_instructions, holes, instruction, path, some_blocks};
use crate::world::{show, shows, World};
use scope_deps::{BlockId, Path};
use std::collections::BTreeSet;

/// `block 1, which assumes it, and from blocks 2 and 3, which read 1?.10 at instructions 4 and 5`:
/// exactly the sources of the block's path.
pub fn check_sources(world: &World, of: BlockId, held: &Path, said: &str) {
    let sources = world.sources(of, held);
    let (said, others) = match said.strip_suffix(", and from others") {
        Some(said) => (said, true),
        None => (said, false),
    };
    let mut forms = BTreeSet::new();
    for part in said.split(", and from ") {
        let found = holes("{}, which {}", part).unwrap_or_else(|| panic!("no source: {part}"));
        let (named, more) = some_blocks(found[0]);
        let own = assuming(found[1], named.len() + more == 1);
        let (form, read_at) = own.unwrap_or_else(|| panic!("no source: {part}"));
        let form = if form == "it" { show(held) } else { show(&path(form)) };
        let of_form: Vec<_> = sources
            .iter()
            .filter(|(_, other, at)| *other == form && at.is_some() == read_at.is_some())
            .collect();
        let blocks: Vec<BlockId> = of_form.iter().map(|(block, ..)| *block).collect();
        assert_eq!(named, blocks[..named.len()], "{said}");
        assert_eq!(named.len() + more, blocks.len(), "{said}");
        let due: Vec<u32> = of_form.iter().filter_map(|(.., at)| *at).collect();
        read_at.into_iter().for_each(|read_at| check_instructions(read_at, &due));
        assert!(forms.insert((form, read_at.is_some())), "{said}");
    }
    let all: BTreeSet<(String, bool)> =
        sources.iter().map(|(_, form, read_at)| (form.clone(), read_at.is_some())).collect();
    assert!(if others { forms.len() < all.len() } else { forms == all }, "{said} but {sources:?}");
}

/// Blocks of which it is said that they have a base, all in the same way.
pub struct Holders {
    pub named: Vec<BlockId>,
    /// How many there are besides.
    more: usize,
    pub path: Path,
    /// Where they assume the path, the instruction that reads it, if one does; else they have it
    /// from others.
    own: Option<Option<u32>>,
}

impl Holders {
    pub fn count(&self) -> usize {
        self.named.len() + self.more
    }

    /// Whether those that are named are among these blocks, and the others can be.
    pub fn are_among(&self, world: &World, blocks: &[BlockId]) -> bool {
        let alike = |&&block: &&BlockId| {
            if self.own.is_some() {
                return world.own(block, &self.path) == self.own;
            }
            let sources = |block| world.sources(block, &self.path);
            world.holds(block, &self.path) && sources(block) == sources(self.named[0])
        };
        let enough = blocks.iter().filter(alike).count() >= self.count();
        enough && self.named.iter().all(|block| blocks.contains(block))
    }
}

/// `block 1 assumes 1.10`, `block 1 reads 1.10 at instruction 3` or `blocks 3 and 4 have 1.10 from
/// block 1, which assumes it`, with `and so have 1` where it is longer than the base, if one is
/// spoken of.
pub fn check_holders(world: &World, base: Option<&Path>, said: &str) -> Holders {
    let one = said.starts_with("block ");
    let (assume, read, have) = if one { ("assumes", "reads", "has") } else { ("assume", "read", "have") };
    let so = base.map(|base| format!(", and so {have} {}", show(base))).unwrap_or_default();
    let (said, longer) = match said.strip_suffix(&so).filter(|_| !so.is_empty()) {
        Some(said) => (said, true),
        None => (said, false),
    };
    let from = holes(&format!("{{}} {have} {{}} from {{}}"), said);
    let reads = holes(&format!("{{}} {read} a property of {{}} at {{}}"), said);
    let found = from.clone().or(reads.clone()).or_else(|| holes(&format!("{{}} {assume} {{}}"), said));
    let found = found.unwrap_or_else(|| panic!("no holder: {said}"));
    let ((named, more), path) = (some_blocks(found[0]), path(found[1]));
    let own = from.is_none().then(|| reads.map(|found| instruction(found[2])));
    for &holder in &named {
        match &from {
            Some(found) => check_sources(world, holder, &path, found[2]),
            None => assert_eq!(world.own(holder, &path), own, "{said}"),
        }
        assert!(base.is_none_or(|base| world.has(holder, base)), "{said}");
        assert!(from.is_none() || world.holds(holder, &path), "{said}");
    }
    assert_eq!(named.len() == 1, one, "{said}");
    assert!(base.is_none_or(|base| shows(&path, base) && path.same_names(base) != longer), "{said}");
    Holders { named, more, path, own }
}
