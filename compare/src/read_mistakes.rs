//! What can be done wrong with raw reads that are accepted: in deciding which are kept, and in
//! entering them.

use crate::job::RawRead;

/// What is done wrong with the raw reads of a job that is accepted. The first 20 are mistakes in
/// deciding, the others in entering.
#[derive(Debug, Clone, Copy, PartialEq, Eq)]
pub enum ReadMistake {
    RangeEndIncluded,
    RangeLongerByOne,
    RangeStartIgnored,
    RangeIgnored,
    InstructionForRangeEnd,
    ScopeStartExcluded,
    ScopeEndIncluded,
    ScopeStartIgnored,
    ScopeEndIgnored,
    ScopeRangeIgnored,
    ScopeAlwaysThere,
    MutableWithoutScope,
    InstructionInRange,
    RangesExchanged,
    KnownImmutableIgnored,
    KnownImmutableAlone,
    KnownImmutableToo,
    SignedNumbers,
    DroppedEntered,
    KeptLeftOut,
    AssumedFirst,
    LastFirst,
    AfterAllBlocks,
    DroppedMakeNodes,
    InNoSet,
}

impl ReadMistake {
    pub const ALL: [Self; 25] = [
        Self::RangeEndIncluded,
        Self::RangeLongerByOne,
        Self::RangeStartIgnored,
        Self::RangeIgnored,
        Self::InstructionForRangeEnd,
        Self::ScopeStartExcluded,
        Self::ScopeEndIncluded,
        Self::ScopeStartIgnored,
        Self::ScopeEndIgnored,
        Self::ScopeRangeIgnored,
        Self::ScopeAlwaysThere,
        Self::MutableWithoutScope,
        Self::InstructionInRange,
        Self::RangesExchanged,
        Self::KnownImmutableIgnored,
        Self::KnownImmutableAlone,
        Self::KnownImmutableToo,
        Self::SignedNumbers,
        Self::DroppedEntered,
        Self::KeptLeftOut,
        Self::AssumedFirst,
        Self::LastFirst,
        Self::AfterAllBlocks,
        Self::DroppedMakeNodes,
        Self::InNoSet,
    ];

    /// What is done wrong, in words.
    pub fn text(self) -> &'static str {
        match self {
            Self::RangeEndIncluded => "range end compared by >= with start + 1",
            Self::RangeLongerByOne => "range end compared with start + 2",
            Self::RangeStartIgnored => "range end compared with 1",
            Self::RangeIgnored => "range not looked at",
            Self::InstructionForRangeEnd => "the instruction compared with range start + 1",
            Self::ScopeStartExcluded => "scope start left out",
            Self::ScopeEndIncluded => "scope end included",
            Self::ScopeStartIgnored => "scope start not looked at",
            Self::ScopeEndIgnored => "scope end not looked at",
            Self::ScopeRangeIgnored => "the scope's range not looked at",
            Self::ScopeAlwaysThere => "has-scope not looked at",
            Self::MutableWithoutScope => "mutable where there is no scope",
            Self::InstructionInRange => "the instruction looked for in the path's range",
            Self::RangesExchanged => "range and scope exchanged",
            Self::KnownImmutableIgnored => "known-immutable not looked at",
            Self::KnownImmutableAlone => "known-immutable alone looked at",
            Self::KnownImmutableToo => "known-immutable asked for too",
            Self::SignedNumbers => "numbers compared with a sign",
            Self::DroppedEntered => "dropped reads entered",
            Self::KeptLeftOut => "kept reads not entered",
            Self::AssumedFirst => "assumed paths entered before reads",
            Self::LastFirst => "reads entered from the last to the first",
            Self::AfterAllBlocks => "reads entered after the paths of all blocks",
            Self::DroppedMakeNodes => "nodes made of dropped reads",
            Self::InNoSet => "kept reads entered into no set",
        }
    }

    /// Whether a read is kept; mistakes in entering decide this rightly.
    pub fn keeps(self, read: &RawRead) -> bool {
        let is_mutable = self.finds_mutable(read);
        match self {
            Self::KnownImmutableIgnored => !is_mutable,
            Self::KnownImmutableAlone => read.known_immutable,
            Self::KnownImmutableToo => !is_mutable && read.known_immutable,
            Self::DroppedEntered => true,
            Self::KeptLeftOut => false,
            _ => !is_mutable || read.known_immutable,
        }
    }

    /// Whether its path is taken for mutable at the instruction.
    fn finds_mutable(self, read: &RawRead) -> bool {
        let RawRead { instruction, range_start, range_end, has_scope, .. } = *read;
        let (start, end) = (u64::from(range_start), u64::from(range_end));
        let scope = read.scope_start..read.scope_end;
        let (is_long, in_scope) = (end > start + 1, has_scope && scope.contains(&instruction));
        match self {
            Self::RangeEndIncluded => end > start && in_scope,
            Self::RangeLongerByOne => end > start + 2 && in_scope,
            Self::RangeStartIgnored => end > 1 && in_scope,
            Self::RangeIgnored => in_scope,
            Self::InstructionForRangeEnd => u64::from(instruction) > start + 1 && in_scope,
            Self::ScopeStartExcluded => is_long && in_scope && instruction != scope.start,
            Self::ScopeEndIncluded => {
                is_long && has_scope && (scope.start..=scope.end).contains(&instruction)
            }
            Self::ScopeStartIgnored => is_long && has_scope && instruction < scope.end,
            Self::ScopeEndIgnored => is_long && has_scope && instruction >= scope.start,
            Self::ScopeRangeIgnored => is_long && has_scope,
            Self::ScopeAlwaysThere => is_long && scope.contains(&instruction),
            Self::MutableWithoutScope => is_long && (!has_scope || in_scope),
            Self::InstructionInRange => {
                is_long && has_scope && (range_start..range_end).contains(&instruction)
            }
            Self::RangesExchanged => {
                let is_long = u64::from(scope.end) > u64::from(scope.start) + 1;
                is_long && has_scope && (range_start..range_end).contains(&instruction)
            }
            Self::SignedNumbers => is_mutable_by_signed(read),
            _ => is_long && in_scope,
        }
    }
}

fn is_mutable_by_signed(read: &RawRead) -> bool {
    let signed = |number: u32| i64::from(number as i32);
    let scope = signed(read.scope_start)..signed(read.scope_end);
    let is_long = signed(read.range_end) > signed(read.range_start) + 1;
    is_long && read.has_scope && scope.contains(&signed(read.instruction))
}
