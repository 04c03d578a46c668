//! Sheets that tell something else in the place of the nodes before the first round, or tell them
//! in another place.

use crate::counts::Counts;
use crate::entering::entered;
use crate::job::{Block, Job, Path};
use crate::reads::{self, all_assumed};
use crate::thin::{kept, same_path};

/// What is wrong with the count in a sheet's head.
#[derive(Debug, Clone, Copy, PartialEq, Eq)]
pub enum CountMistake {
    AtTheEnd,
    AfterForwardWalk,
    AfterFirstRound,
    BeforeLastRound,
    OfMadeNodes,
    WithoutRoots,
    OfPaths,
    OfDifferentPaths,
    OfFirstBlock,
    WithCandidates,
    WithDropped,
    WithoutReads,
    BeforeSettled,
    BeforeRounds,
    HighByteFirst,
    OneByte,
    LeftOut,
}

/// The bytes of a sheet's head up to the count, and with it.
const BEFORE_COUNT: usize = 8;
const HEAD: usize = 10;

impl CountMistake {
    pub const ALL: [Self; 17] = [
        Self::AtTheEnd,
        Self::AfterForwardWalk,
        Self::AfterFirstRound,
        Self::BeforeLastRound,
        Self::OfMadeNodes,
        Self::WithoutRoots,
        Self::OfPaths,
        Self::OfDifferentPaths,
        Self::OfFirstBlock,
        Self::WithCandidates,
        Self::WithDropped,
        Self::WithoutReads,
        Self::BeforeSettled,
        Self::BeforeRounds,
        Self::HighByteFirst,
        Self::OneByte,
        Self::LeftOut,
    ];

    /// What is done wrong, in words.
    pub fn text(self) -> &'static str {
        match self {
            Self::AtTheEnd => "the count at the end",
            Self::AfterForwardWalk => "the count after the first forward walk",
            Self::AfterFirstRound => "the count after the first round",
            Self::BeforeLastRound => "the count before the last round",
            Self::OfMadeNodes => "the count of the nodes that reduction makes",
            Self::WithoutRoots => "roots not counted",
            Self::OfPaths => "assumed paths counted",
            Self::OfDifferentPaths => "different assumed paths counted",
            Self::OfFirstBlock => "the first block's nodes counted",
            Self::WithCandidates => "the nodes of candidates counted too",
            Self::WithDropped => "the nodes of dropped reads counted too",
            Self::WithoutReads => "the nodes of kept reads not counted",
            Self::BeforeSettled => "the count placed before settled",
            Self::BeforeRounds => "the count placed before rounds",
            Self::HighByteFirst => "the count with its high byte first",
            Self::OneByte => "the count in one byte",
            Self::LeftOut => "the count left out",
        }
    }

    /// The sheet with this mistake, made of the right one. The counts are those of the harness's
    /// own propagation, which tell of the forward walk.
    pub fn sheet(self, job: &Job, counts: &Counts, right: &[u8]) -> Vec<u8> {
        let (head, rest) = right.split_at(HEAD);
        let (fields, count) = head.split_at(BEFORE_COUNT);
        match self {
            Self::BeforeSettled => [&fields[..7], count, &fields[7..], rest].concat(),
            Self::BeforeRounds => [&fields[..6], count, &fields[6..], rest].concat(),
            Self::HighByteFirst => [fields, &[count[1], count[0]], rest].concat(),
            Self::OneByte => [fields, &count[..1], rest].concat(),
            Self::LeftOut => [fields, rest].concat(),
            _ => [fields, &(self.count(job, counts) as u16).to_le_bytes(), rest].concat(),
        }
    }

    /// The number that is told; where it is only told in another place, the right one.
    fn count(self, job: &Job, counts: &Counts) -> usize {
        let assumed = || all_assumed(job);
        let ready = || job.blocks.iter().flat_map(|block| &block.assumed);
        let reads = || job.blocks.iter().flat_map(|block| &block.reads);
        match self {
            Self::AtTheEnd => counts.nodes,
            Self::AfterForwardWalk => counts.nodes_after_forward.expect("the harness's own tells it"),
            Self::AfterFirstRound => counts.nodes_after_first,
            Self::BeforeLastRound => counts.nodes_before_last,
            Self::OfMadeNodes => counts.made(),
            Self::WithoutRoots => entered(job).iter().filter(|node| node.parent.is_some()).count(),
            Self::OfPaths => assumed().count(),
            Self::OfDifferentPaths => different(&assumed().collect::<Vec<_>>()),
            Self::OfFirstBlock => nodes_of(reads::assumed(&job.blocks[0]).cloned().collect()),
            Self::WithCandidates => nodes_of(assumed().chain(&job.candidates).cloned().collect()),
            Self::WithDropped => nodes_of(ready().chain(reads().map(|read| &read.path)).cloned().collect()),
            Self::WithoutReads => nodes_of(ready().cloned().collect()),
            _ => counts.nodes_before,
        }
    }
}

fn different(paths: &[&Path]) -> usize {
    kept(paths, |a, b| same_path(a, b)).into_iter().filter(|&stays| stays).count()
}

/// How many nodes are made of these paths.
fn nodes_of(assumed: Vec<Path>) -> usize {
    let blocks = vec![Block { id: 0, predecessors: vec![], reads: vec![], assumed }];
    entered(&Job { scope: 0, blocks, candidates: vec![] }).len()
}
