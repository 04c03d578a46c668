//! Stand-ins for the few HIR types that the cut items name.

use crate::arena::ArenaVec;
use crate::fx::FxIndexMap;
use std::marker::PhantomData;
use std::ops::{Add, Index};

/// The original's id types cannot hold 4,294,967,295; these can.
#[derive(Debug, Clone, Copy, PartialEq, Eq, PartialOrd, Ord, Hash)]
pub struct IdentifierId(pub u32);

#[derive(Debug, Clone, Copy, PartialEq, Eq, PartialOrd, Ord, Hash)]
pub struct BlockId(pub u32);

#[derive(Debug, Clone, Copy, PartialEq, Eq, PartialOrd, Ord, Hash)]
pub struct ScopeId(pub u32);

#[derive(Debug, Clone, Copy, PartialEq, Eq, PartialOrd, Ord, Hash)]
pub struct FunctionId(pub u32);

#[derive(Debug, Clone, Copy, PartialEq, Eq, PartialOrd, Ord, Hash)]
pub struct MutableRangeId(pub u32);

/// The number of an instruction.
#[derive(Debug, Clone, Copy, PartialEq, Eq, PartialOrd, Ord, Hash)]
pub struct EvaluationOrder(pub u32);

impl Add<u32> for EvaluationOrder {
    type Output = Self;

    fn add(self, more: u32) -> Self {
        Self(self.0.checked_add(more).expect("10 refuses a range start after which there is no number"))
    }
}

/// Stands for a list over all ids; what is not looked at is not there.
pub struct AtMostOne<I, T>(pub Option<(I, T)>);

impl<I: PartialEq, T> Index<I> for AtMostOne<I, T> {
    type Output = T;

    fn index(&self, id: I) -> &T {
        let found = self.0.as_ref().filter(|(own, _)| *own == id);
        &found.expect("only ids that are there are looked at").1
    }
}

/// The host's number for a span. A job's 0 is no span at all.
#[derive(Debug, Clone, Copy, PartialEq, Eq)]
pub struct Span(pub u32);

/// The host's number for a string.
#[derive(Debug, Clone, Copy, PartialEq, Eq, Hash)]
pub struct Ident<'a>(pub u64, pub PhantomData<&'a str>);

pub type OrderedMap<K, V> = FxIndexMap<K, V>;

pub struct HirFunction<'a> {
    pub body: HIR<'a>,
}

pub struct HIR<'a> {
    pub blocks: OrderedMap<BlockId, BasicBlock<'a>>,
}

pub struct BasicBlock<'a> {
    pub preds: ArenaVec<'a, BlockId>,
}
