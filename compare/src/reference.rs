//! The items cut from the Rust source, and the flow of one job through them.

#![allow(dead_code)]

mod own;
mod reads;

use crate::arena::{Allocator, ArenaVec, CloneIn, CloneInSemanticIds};
use crate::counts::Counts;
use crate::fx::{FxHashMap, FxHashSet, FxIndexMap};
use crate::hir::{
    BasicBlock, BlockId, EvaluationOrder, FunctionId, HIR, HirFunction, Ident, IdentifierId, MutableRangeId,
    OrderedMap, Span,
};
use crate::job::{Entry, Job, Path, Property, RawRead, limits};
use crate::propagation::Propagation;
use crate::read_mistakes::ReadMistake;
use crate::rounds::{self, Rounds};
use crate::thin;
use reads::{Assumed, Environment};
use std::collections::BTreeSet;
use std::marker::PhantomData;

include!(concat!(env!("OUT_DIR"), "/cut.rs"));

/// The propagation cut a second time, with the joining step of the strict one.
mod strict {
    use super::*;

    include!(concat!(env!("OUT_DIR"), "/strict.rs"));

    pub fn propagate(function: &HirFunction, infos: &Infos, registry: &mut PropertyPathRegistry) -> Sets {
        propagate_non_null(function, infos, registry)
    }
}

/// Temporaries are not looked at; the original has a list over all identifiers.
type TemporariesMap<'a> = FxHashMap<IdentifierId, Option<ReactiveScopeDependency<'a>>>;

/// What each block assumes.
type Infos = FxHashMap<BlockId, BlockInfo>;

/// The set of each block.
type Sets = FxHashMap<BlockId, BTreeSet<usize>>;

/// In the original a macro writes this, together with many others.
impl<'a> CloneIn<'a> for DependencyPathEntry<'a> {
    type Cloned = DependencyPathEntry<'a>;

    #[inline(always)]
    fn clone_in_impl(&self, _: CloneInSemanticIds, _: &'a Allocator) -> Self {
        *self
    }
}

/// What a job has come to when propagation ends.
pub struct Propagated<'a> {
    registry: PropertyPathRegistry<'a>,
    infos: Infos,
    sets: Sets,
    /// `nodes.len()` of the registry before the first round, when all assumed paths are entered.
    nodes_before: usize,
    rounds: Rounds,
}

impl Propagated<'_> {
    pub fn nodes(&self) -> usize {
        self.registry.nodes.len()
    }

    pub fn counts(&self) -> Counts {
        let nodes = self.nodes();
        Counts {
            rounds: self.rounds.run,
            settled: self.rounds.settled,
            nodes_before: self.nodes_before,
            nodes_after_forward: self.rounds.nodes_after_forward,
            nodes_after_first: self.rounds.nodes_before_second.unwrap_or(nodes),
            nodes_before_last: self.rounds.nodes_before_last,
            nodes,
            replaces: self.replaces(),
        }
    }

    /// Whether a node that a block assumes is not in the block's set any more.
    fn replaces(&self) -> bool {
        self.infos.iter().any(|(block, info)| !info.assumed_non_null_objects.is_subset(&self.sets[block]))
    }

    fn set(&self, block: u32) -> &BTreeSet<usize> {
        &self.sets[&BlockId(block)]
    }
}

/// A job in the types of the Rust source, made before the stage runs on it.
pub struct Prepared<'a> {
    assumed: Vec<Assumed<'a>>,
    function: HirFunction<'a>,
    scope: u32,
    candidates: Vec<ReactiveScopeDependency<'a>>,
}

pub fn prepare<'a>(job: &Job, alloc: &'a Allocator) -> Prepared<'a> {
    Prepared {
        assumed: job.blocks.iter().map(|block| Assumed::new(block, alloc)).collect(),
        function: function(job, alloc),
        scope: job.scope,
        candidates: job.candidates.iter().map(|path| dependency(path, alloc)).collect(),
    }
}

/// Whether the Rust keeps a raw read.
pub fn kept(read: &RawRead, alloc: &Allocator) -> bool {
    reads::Read::new(read, alloc).is_kept()
}

/// Enters all assumed paths in job order and propagates them.
pub fn propagate<'a>(
    prepared: &Prepared<'a>,
    propagation: Propagation,
    mistake: Option<ReadMistake>,
    alloc: &'a Allocator,
) -> Propagated<'a> {
    let mut registry = PropertyPathRegistry::new(alloc);
    let infos = match mistake {
        None => enter_assumed_paths(prepared, &mut registry),
        Some(mistake) => reads::enter_wrongly(&prepared.assumed, &mut registry, mistake),
    };
    let nodes_before = registry.nodes.len();
    rounds::clear();
    let function = &prepared.function;
    let sets = match propagation {
        Propagation::Existing => propagate_non_null(function, &infos, &mut registry),
        Propagation::Strict => strict::propagate(function, &infos, &mut registry),
        Propagation::Own(mistake) => own::propagate(function, &infos, &mut registry, mistake),
    };
    Propagated { registry, infos, sets, nodes_before, rounds: rounds::read() }
}

fn enter_assumed_paths<'a>(prepared: &Prepared<'a>, registry: &mut PropertyPathRegistry<'a>) -> Infos {
    let mut infos = FxHashMap::default();
    for assumed in &prepared.assumed {
        infos.insert(assumed.block, BlockInfo { assumed_non_null_objects: assumed.enter(registry) });
    }
    infos
}

/// The blocks in job order, each with its predecessors in job order.
fn function<'a>(job: &Job, alloc: &'a Allocator) -> HirFunction<'a> {
    let mut blocks = OrderedMap::default();
    for block in &job.blocks {
        let preds = ArenaVec::from_iter_in(block.predecessors.iter().map(|&id| BlockId(id)), &alloc);
        blocks.insert(BlockId(block.id), BasicBlock { preds });
    }
    HirFunction { body: HIR { blocks } }
}

/// The minimal dependencies of the job's candidates.
pub fn derive<'a>(
    prepared: Prepared<'a>,
    propagated: &Propagated<'a>,
    alloc: &'a Allocator,
) -> Vec<ReactiveScopeDependency<'a>> {
    let nodes = &propagated.registry.nodes;
    let hoistables = propagated.set(prepared.scope).iter().map(|&idx| &nodes[idx].full_path);
    let mut tree = ReactiveScopeDependencyTreeHIR::new(hoistables);
    for candidate in prepared.candidates {
        tree.add_dependency(candidate);
    }
    tree.derive_minimal_dependencies(alloc)
}

/// The job without repeats, where the Rust's own equality says what a repeat is.
pub fn thinned(job: &Job, alloc: &Allocator) -> Job {
    thin::thinned(job, |paths| {
        let dependencies: Vec<_> = paths.iter().map(|path| dependency(path, alloc)).collect();
        thin::kept(&dependencies, |a, b| a.identifier == b.identifier && are_equal_paths(&a.path, &b.path))
    })
}

fn dependency<'a>(path: &Path, alloc: &'a Allocator) -> ReactiveScopeDependency<'a> {
    ReactiveScopeDependency {
        identifier: IdentifierId(path.identifier),
        reactive: path.reactive,
        path: ArenaVec::from_iter_in(path.entries.iter().map(path_entry), &alloc),
        span: span(path.span),
    }
}

fn path_entry<'a>(entry: &Entry) -> DependencyPathEntry<'a> {
    let property = match entry.property {
        Property::Name(value) => PropertyLiteral::String(Ident(value, PhantomData)),
        Property::Number(bits) => PropertyLiteral::Number(FloatValue::new(f64::from_bits(bits))),
    };
    DependencyPathEntry { property, optional: entry.optional, span: span(entry.span) }
}

fn span(number: u32) -> Option<Span> {
    (number != 0).then_some(Span(number))
}

fn span_number(span: Option<Span>) -> u32 {
    span.map_or(0, |span| span.0)
}

/// An entry as the bytes of a job, an answer and a sheet have it.
fn plain_entry(entry: &DependencyPathEntry) -> Entry {
    let property = match entry.property {
        PropertyLiteral::String(name) => Property::Name(name.0),
        PropertyLiteral::Number(float) => Property::Number(float.value().to_bits()),
    };
    Entry { optional: entry.optional, property, span: span_number(entry.span) }
}

pub fn put_answer(out: &mut Vec<u8>, returned: &[ReactiveScopeDependency], propagated: &Propagated) {
    out.extend(b"AN");
    out.extend((returned.len() as u16).to_le_bytes());
    put_rounds(out, propagated);
    for dependency in returned {
        put_dependency(out, dependency);
    }
}

fn put_rounds(out: &mut Vec<u8>, propagated: &Propagated) {
    out.push(propagated.rounds.run);
    out.push(propagated.rounds.settled.into());
}

fn put_dependency(out: &mut Vec<u8>, dependency: &ReactiveScopeDependency) {
    out.extend(b"DE");
    out.extend(dependency.identifier.0.to_le_bytes());
    out.push(dependency.reactive.into());
    out.extend(span_number(dependency.span).to_le_bytes());
    out.push(dependency.path.len() as u8);
    for entry in &dependency.path {
        put_optional_and_property(out, entry);
        out.extend(span_number(entry.span).to_le_bytes());
    }
}

fn put_optional_and_property(out: &mut Vec<u8>, entry: &DependencyPathEntry) {
    let entry = plain_entry(entry);
    out.push(entry.optional.into());
    out.push(entry.property.kind());
    out.extend(entry.property.value().to_le_bytes());
}

pub fn put_sheet(out: &mut Vec<u8>, job: &Job, propagated: &Propagated) {
    out.extend(b"SH");
    out.extend((propagated.nodes() as u16).to_le_bytes());
    out.extend((job.blocks.len() as u16).to_le_bytes());
    put_rounds(out, propagated);
    out.extend((propagated.nodes_before as u16).to_le_bytes());
    let nodes = &propagated.registry.nodes;
    for (node, parent) in nodes.iter().zip(parents(nodes)) {
        put_node(out, node, parent);
    }
    for block in &job.blocks {
        put_set(out, block.id, propagated.set(block.id));
    }
}

/// Each node's parent, from the maps of children; 65,535 for a root.
fn parents(nodes: &[PropertyPathNode]) -> Vec<u16> {
    let mut parents = vec![u16::MAX; nodes.len()];
    for (parent, node) in nodes.iter().enumerate() {
        for &child in node.properties.values().chain(node.optional_properties.values()) {
            parents[child] = parent as u16;
        }
    }
    parents
}

fn put_node(out: &mut Vec<u8>, node: &PropertyPathNode, parent: u16) {
    let path = &node.full_path;
    out.extend(b"NO");
    out.extend(parent.to_le_bytes());
    out.extend(path.identifier.0.to_le_bytes());
    match path.path.last() {
        Some(entry) => put_optional_and_property(out, entry),
        None => out.extend([0; 10]),
    }
    out.extend(span_number(path.span).to_le_bytes());
    out.push(path.reactive.into());
}

fn put_set(out: &mut Vec<u8>, block: u32, set: &BTreeSet<usize>) {
    let mut bits = [0u8; limits::NODES / 8];
    for &node in set {
        bits[node / 8] |= 1 << (node % 8);
    }
    out.extend(b"SE");
    out.extend(block.to_le_bytes());
    out.extend(bits);
}
