//! Raw reads as the Rust's own `is_immutable_at_instr` takes them: an environment with the one
//! identifier that a read names, with its mutable range, its scope or none, and no nested function.

use super::{
    Allocator, CollectHoistableContext, Infos, MutableRange, PropertyPathRegistry, ReactiveScopeDependency,
    TemporariesMap, dependency, is_immutable_at_instr,
};
use crate::fx::{FxHashMap, FxHashSet};
use crate::hir::{AtMostOne, BlockId, EvaluationOrder, IdentifierId, MutableRangeId, ScopeId};
use crate::job::{Block, RawRead};
use crate::read_mistakes::ReadMistake;
use std::collections::BTreeSet;

/// What of the original's environment is looked at.
pub struct Environment {
    pub identifiers: AtMostOne<IdentifierId, Identifier>,
    pub scopes: AtMostOne<ScopeId, ReactiveScope>,
}

pub struct Identifier {
    pub mutable_range: MutableRange,
    pub scope: Option<ScopeId>,
}

pub struct ReactiveScope {
    pub range: MutableRange,
}

/// A raw read in the types of the Rust source.
pub struct Read<'a> {
    raw: RawRead,
    env: Environment,
    known_immutable_identifiers: FxHashSet<IdentifierId>,
    path: ReactiveScopeDependency<'a>,
}

const SCOPE: ScopeId = ScopeId(0);

fn range(id: u32, start: u32, end: u32) -> MutableRange {
    MutableRange { id: MutableRangeId(id), start: EvaluationOrder(start), end: EvaluationOrder(end) }
}

impl<'a> Read<'a> {
    pub fn new(raw: &RawRead, alloc: &'a Allocator) -> Self {
        let path = dependency(&raw.path, alloc);
        let identifier = Identifier {
            mutable_range: range(0, raw.range_start, raw.range_end),
            scope: raw.has_scope.then_some(SCOPE),
        };
        let scope = || (SCOPE, ReactiveScope { range: range(1, raw.scope_start, raw.scope_end) });
        let env = Environment {
            identifiers: AtMostOne(Some((path.identifier, identifier))),
            scopes: AtMostOne(raw.has_scope.then(scope)),
        };
        let known = raw.known_immutable.then_some(path.identifier);
        Self { raw: raw.clone(), env, known_immutable_identifiers: known.into_iter().collect(), path }
    }

    /// Whether the path joins the assumed ones.
    pub fn is_kept(&self) -> bool {
        let ctx = CollectHoistableContext {
            temporaries: &TemporariesMap::default(),
            known_immutable_identifiers: &self.known_immutable_identifiers,
            hoistable_from_optionals: &FxHashMap::default(),
            nested_fn_immutable_context: None,
            assumed_invoked_fns: &FxHashSet::default(),
        };
        is_immutable_at_instr(self.path.identifier, EvaluationOrder(self.raw.instruction), &self.env, &ctx)
    }

    fn is_kept_by(&self, mistake: Option<ReadMistake>) -> bool {
        mistake.map_or_else(|| self.is_kept(), |mistake| mistake.keeps(&self.raw))
    }
}

/// The raw reads and the ready paths of a block.
pub struct Assumed<'a> {
    pub block: BlockId,
    reads: Vec<Read<'a>>,
    ready: Vec<ReactiveScopeDependency<'a>>,
}

impl<'a> Assumed<'a> {
    pub fn new(block: &Block, alloc: &'a Allocator) -> Self {
        Self {
            block: BlockId(block.id),
            reads: block.reads.iter().map(|read| Read::new(read, alloc)).collect(),
            ready: block.assumed.iter().map(|path| dependency(path, alloc)).collect(),
        }
    }

    fn kept(&self, mistake: Option<ReadMistake>) -> Vec<&ReactiveScopeDependency<'a>> {
        let mut kept: Vec<_> =
            self.reads.iter().filter(|read| read.is_kept_by(mistake)).map(|read| &read.path).collect();
        if mistake == Some(ReadMistake::LastFirst) {
            kept.reverse();
        }
        kept
    }

    /// Enters the paths of the kept reads and then the ready ones, and gives the block's set.
    pub fn enter(&self, registry: &mut PropertyPathRegistry<'a>) -> BTreeSet<usize> {
        let kept = self.reads.iter().filter(|read| read.is_kept()).map(|read| &read.path);
        kept.chain(&self.ready).map(|path| registry.get_or_create_property(path)).collect()
    }

    /// The same with a mistake.
    fn enter_wrongly(
        &self,
        registry: &mut PropertyPathRegistry<'a>,
        mistake: ReadMistake,
    ) -> BTreeSet<usize> {
        let mut enter = |path: &ReactiveScopeDependency<'a>| registry.get_or_create_property(path);
        let kept = self.kept(Some(mistake));
        match mistake {
            ReadMistake::AssumedFirst => self.ready.iter().chain(kept).map(enter).collect(),
            ReadMistake::AfterAllBlocks => self.ready.iter().map(enter).collect(),
            ReadMistake::DroppedMakeNodes => {
                for read in &self.reads {
                    enter(&read.path);
                }
                kept.into_iter().chain(&self.ready).map(enter).collect()
            }
            ReadMistake::InNoSet => {
                for path in kept {
                    enter(path);
                }
                self.ready.iter().map(enter).collect()
            }
            _ => kept.into_iter().chain(&self.ready).map(enter).collect(),
        }
    }
}

/// Enters all assumed paths with a mistake.
pub fn enter_wrongly<'a>(
    assumed: &[Assumed<'a>],
    registry: &mut PropertyPathRegistry<'a>,
    mistake: ReadMistake,
) -> Infos {
    let mut infos = Infos::default();
    for block in assumed {
        let set = block.enter_wrongly(registry, mistake);
        infos.insert(block.block, super::BlockInfo { assumed_non_null_objects: set });
    }
    if mistake == ReadMistake::AfterAllBlocks {
        for block in assumed {
            let set = &mut infos.get_mut(&block.block).expect("it is there").assumed_non_null_objects;
            set.extend(block.kept(None).into_iter().map(|path| registry.get_or_create_property(path)));
        }
    }
    infos
}
