//! Why a base is not known in the scope block.

use super::blocks::Blocks;
use super::not_kept::{not_kept, NotKept};
use super::paths::{leaves_open, starts_optional};
use super::steps::Steps;
use super::stops::{held, holder, stops, Holder, Stop};
use super::trials::Trials;
use crate::ids::{BlockId, NodeId};
use crate::job::Block;
use crate::path::Path;

/// Why a base is not known in the scope block.
#[derive(Clone, Debug, PartialEq, Eq, Hash)]
pub struct Unknown {
    /// The base.
    pub base: Path,
    /// The scope block with its own path that decides about the base and goes on from it by `?.`,
    /// if there is one.
    pub open: Option<Holder>,
    /// What other blocks know of it.
    pub elsewhere: Elsewhere,
    /// The raw reads of it that are not kept, the nearest to the reason first.
    pub not_kept: Vec<NotKept>,
}

impl Unknown {
    /// The raw read that is told in short: the first by which the base would be known if it were
    /// kept, or the nearest to the reason where there is none.
    #[must_use]
    pub fn first_not_kept(&self) -> Option<&NotKept> {
        let would_do = self.not_kept.iter().find(|read| read.would_do == Some(true));
        would_do.or(self.not_kept.first())
    }
}

/// A path that a block assumes.
#[derive(Clone, Debug, PartialEq, Eq, Hash)]
pub struct AssumedPath {
    /// The block.
    pub block: BlockId,
    /// The path.
    pub path: Path,
    /// The instruction of the block that reads it, where it is that of a raw read that is kept.
    pub read_at: Option<u32>,
}

/// Which blocks have a base that is not known in the scope block.
#[derive(Clone, Debug, PartialEq, Eq, Hash)]
pub enum Elsewhere {
    /// The scope block itself has a path that shows it; but the one that leaves it open decides.
    Here {
        /// The scope block with that path.
        holder: Holder,
        /// Why the other decides.
        before: Before,
    },
    /// None has it, since none assumes it. These assume paths that go on from it by `?.`.
    Nowhere(Vec<AssumedPath>),
    /// No arrows connect the blocks that have it with the scope block.
    Apart {
        /// The blocks that have it.
        holders: Vec<Holder>,
        /// One of them.
        holder: Holder,
    },
    /// Others have it, and it stopped on the way.
    Stopped {
        /// The blocks that have it.
        holders: Vec<Holder>,
        /// Where it stopped, the nearest to the scope block first.
        stops: Vec<Stop>,
    },
}

/// Why of two paths of the scope block one decides about a base and not the other.
#[derive(Clone, Copy, Debug, PartialEq, Eq, Hash)]
pub enum Before {
    /// Its first entry is optional, and that of the other is not.
    Optional,
    /// The stage met it first.
    Met,
}

/// Why a base is not known, where the scope block has these paths of it: one that leaves it open,
/// one that shows it.
pub(super) fn unknown(
    blocks: &Blocks,
    steps: &mut Steps,
    trials: &mut Trials,
    base: &Path,
    (open, here): (Option<NodeId>, Option<NodeId>),
) -> Unknown {
    let open = open.map(|node| held(blocks, steps, blocks.scope, node));
    let elsewhere = match (here, &open) {
        (Some(node), Some(open)) => {
            let holder = held(blocks, steps, blocks.scope, node);
            let before = before(&open.path, &holder.path);
            Elsewhere::Here { holder, before }
        }
        _ => elsewhere(blocks, steps, base),
    };
    let not_kept = not_kept(blocks, trials, base, &elsewhere);
    Unknown { base: base.clone(), open, elsewhere, not_kept }
}

/// Why the first of these paths decides, and not the second.
fn before(first: &Path, second: &Path) -> Before {
    if starts_optional(first) && !starts_optional(second) {
        Before::Optional
    } else {
        Before::Met
    }
}

fn elsewhere(blocks: &Blocks, steps: &mut Steps, base: &Path) -> Elsewhere {
    let has = blocks.having(base);
    let having: Vec<usize> = (0..blocks.len()).filter(|&block| has[block]).collect();
    let stops = stops(blocks, steps, base, &has);
    let holders = having.iter().filter_map(|&block| holder(blocks, steps, base, &[block])).collect();
    if !stops.is_empty() {
        return Elsewhere::Stopped { holders, stops };
    }
    match holder(blocks, steps, base, &having) {
        Some(holder) => Elsewhere::Apart { holders, holder },
        None => Elsewhere::Nowhere(leaving_open(blocks, base)),
    }
}

/// The blocks that assume a path that goes on from the base by `?.`, each with its first.
fn leaving_open(blocks: &Blocks, base: &Path) -> Vec<AssumedPath> {
    let of_block = |block: &Block| {
        let reads = block.kept_reads().map(|read| (&read.path, Some(read.instruction)));
        let mut assumed = reads.chain(block.assumed().iter().map(|path| (path, None)));
        let (path, read_at) = assumed.find(|(path, _)| leaves_open(path, base))?;
        Some(AssumedPath { block: block.id(), path: path.clone(), read_at })
    };
    blocks.job.blocks().iter().filter_map(of_block).collect()
}
