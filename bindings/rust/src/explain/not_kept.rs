//! Raw reads of a base that are not kept.

use super::blocks::Blocks;
use super::paths::shows;
use super::stops::{Stop, Why};
use super::trials::{Trials, MOST};
use super::unknown::Elsewhere;
use crate::ids::BlockId;
use crate::path::Path;
use crate::raw_read::RawRead;

/// A raw read that is not kept, of a base that is not known in the scope block, or of a path that
/// goes on from the base plainly.
#[derive(Clone, Debug, PartialEq, Eq, Hash)]
pub struct NotKept {
    /// The block.
    pub block: BlockId,
    /// The read.
    pub read: RawRead,
    /// Whether the base would be known in the scope block if this read were kept, and no other that
    /// is not; `None` where that was not tried, or the job would have too many nodes.
    pub would_do: Option<bool>,
}

/// The raw reads of a base that are not kept: first those of the scope block, then those of the
/// blocks at which it is seen to be missing, then the others. Of a block that has the base, though
/// by another path, only those are told by which the base would be known in the scope block; so it
/// is where the scope block itself has it, and another of its paths decides.
pub(super) fn not_kept(
    blocks: &Blocks,
    trials: &mut Trials,
    base: &Path,
    elsewhere: &Elsewhere,
) -> Vec<NotKept> {
    let has = blocks.having(base);
    let mut places = dropped(blocks, base);
    let (scope, missing) = (blocks.id(blocks.scope), missing_at(elsewhere));
    places.sort_by_key(|&(block, _)| {
        let id = blocks.id(block);
        (id != scope, !missing.contains(&id), has[block])
    });
    let each = places.into_iter().enumerate().map(|(number, (block, read))| {
        let would_do = if number < MOST { trials.would_know(block, read, base) } else { None };
        let lacks = !has[block] && !matches!(elsewhere, Elsewhere::Here { .. });
        let raw_read = blocks.job.blocks()[block].raw_reads()[read].clone();
        (lacks || would_do == Some(true)).then(|| NotKept {
            block: blocks.id(block),
            read: raw_read,
            would_do,
        })
    });
    each.flatten().collect()
}

/// The reads that are not kept and would show the base, each by the places of its block and of
/// itself.
fn dropped(blocks: &Blocks, base: &Path) -> Vec<(usize, usize)> {
    let of_block = |block: usize| {
        let reads = blocks.job.blocks()[block].raw_reads().iter().enumerate();
        let dropped = reads.filter(|(_, read)| !read.is_kept() && shows(&read.path, base));
        dropped.map(move |(read, _)| (block, read)).collect::<Vec<_>>()
    };
    (0..blocks.len()).flat_map(of_block).collect()
}

/// The blocks that are told to keep a base from the scope block, at the nearest stop.
fn missing_at(elsewhere: &Elsewhere) -> Vec<BlockId> {
    let Elsewhere::Stopped { stops, .. } = elsewhere else { return Vec::new() };
    let of_stop = |Stop { at, why, .. }: &Stop| match why {
        Why::Lacking(others) => [&others[..], &[*at]].concat(),
        _ => vec![*at],
    };
    stops.first().map_or(Vec::new(), of_stop)
}
